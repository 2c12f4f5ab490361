//! A second implementation of the requirements, written from them and for reading.
//! It shares nothing with the proved library; the program `difftest` compares the two.

pub mod calls;
pub mod decode;
pub mod machine;
pub mod memory;
pub mod operation;
pub mod premise;
pub mod scalar;
pub mod state_word;
pub mod tables;
pub mod transfer;
pub mod walk;

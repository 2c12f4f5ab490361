//! The lent memory: little-endian, from address 0. An access has to be aligned, and to lie wholly in memory.

use crate::calls::{answer, Outcome};

/// Where an access begins, or the refusal of it.
fn place(size: usize, address: u64, bytes: u64) -> Result<usize, Outcome> {
    if address % bytes != 0 {
        return Err(Outcome { answer: answer::MISALIGNED, value: address });
    }
    let end = u128::from(address) + u128::from(bytes);
    if end <= size as u128 {
        Ok(address as usize)
    } else {
        Err(Outcome { answer: answer::FAULT, value: address })
    }
}

pub fn load(memory: &[u8], address: u64, bytes: u64) -> Result<u64, Outcome> {
    let from = place(memory.len(), address, bytes)?;
    let read = &memory[from..from + bytes as usize];
    Ok(read.iter().rev().fold(0, |value, &byte| value << 8 | u64::from(byte)))
}

pub fn store(memory: &mut [u8], address: u64, bytes: u64, value: u64) -> Result<(), Outcome> {
    let from = place(memory.len(), address, bytes)?;
    let written = value.to_le_bytes();
    memory[from..from + bytes as usize].copy_from_slice(&written[..bytes as usize]);
    Ok(())
}

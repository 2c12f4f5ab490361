//! What the tests of the model share.
#![allow(dead_code)] // no test uses all of it

use difftest::calls::Outcome;

pub const ALL: u16 = 65535;
pub const DONE: Outcome = Outcome { answer: 0, value: 0 };
pub const PAUSED: Outcome = Outcome { answer: 1, value: 0 };

pub fn outside(address: u64) -> Outcome {
    Outcome { answer: 5, value: address }
}

pub fn misaligned(address: u64) -> Outcome {
    Outcome { answer: 9, value: address }
}

/// A load of funct3 into x5, or a store of x5, at x6 + immediate.
pub fn load(funct3: u32, immediate: u32) -> u32 {
    immediate << 20 | 6 << 15 | funct3 << 12 | 5 << 7 | 0x03
}

pub fn store(funct3: u32, immediate: u32) -> u32 {
    immediate >> 5 << 25 | 5 << 20 | 6 << 15 | funct3 << 12 | (immediate & 31) << 7 | 0x23
}

//! The two tables: which entry holds for a register number, and what it says.

use crate::machine::{Machine, ENTRIES};
use std::ops::Range;

/// What stands for a register that a word names.
#[derive(Clone, Copy, PartialEq, Eq, Debug)]
pub enum Operand {
    Plain(usize),
    Scalar(usize),
    Vector(usize),
}

impl Operand {
    pub fn is_vector(self) -> bool {
        matches!(self, Operand::Vector(_))
    }

    pub fn first(self) -> usize {
        match self {
            Operand::Plain(register) | Operand::Scalar(register) | Operand::Vector(register) => register,
        }
    }

    /// The register of a position.
    pub fn at(self, position: u64) -> usize {
        match self {
            Operand::Vector(register) => register + position as usize,
            _ => self.first(),
        }
    }
}

/// The positions that are on, and what happens to those that are off.
#[derive(Clone, Copy, PartialEq, Eq, Debug)]
pub struct Mask {
    bits: u64,
    invert: bool,
    pub zeroing: bool,
}

impl Mask {
    const ALL: Mask = Mask { bits: u64::MAX, invert: false, zeroing: false };

    pub fn on(&self, position: u64) -> bool {
        ((self.bits >> position) & 1 == 1) != self.invert
    }
}

/// The entries that CFG enables.
pub fn enabled(cfg: u64) -> Range<usize> {
    if cfg == 31 {
        return 0..0;
    }
    let (bank, size) = ((cfg & 7) as usize, cfg >> 3);
    2 * bank..ENTRIES.min(2 * bank + (2 << size))
}

fn tagged(entry: u16, key: u32) -> bool {
    entry >> 7 & 1 == 1 && u32::from(entry & 31) == key
}

fn masked(entry: u16, key: u32) -> bool {
    entry >> 8 & 1 == 1 && u32::from(entry >> 11) == key
}

/// The register entry that holds for a key.
pub fn register_entry(machine: &Machine, key: u32) -> Option<u16> {
    let part = &machine.register_table[enabled(machine.cfg)];
    part.iter().rev().copied().find(|&entry| tagged(entry, key))
}

/// The predicate entry that holds for a key.
pub fn predicate_entry(machine: &Machine, key: u32) -> Option<u16> {
    let part = &machine.predicate_table[enabled(machine.cfg)];
    part.iter().rev().copied().find(|&entry| masked(entry, key))
}

pub fn operand(machine: &Machine, key: u32) -> Operand {
    match register_entry(machine, key) {
        None => Operand::Plain(key as usize),
        Some(entry) => {
            let register = usize::from(entry >> 8 & 127);
            if entry >> 15 == 1 {
                Operand::Vector(register)
            } else {
                Operand::Scalar(register)
            }
        }
    }
}

/// The width field of the entry that holds; an untagged operand has width 00.
pub fn width(machine: &Machine, key: u32) -> u16 {
    register_entry(machine, key).map_or(0, |entry| entry >> 5 & 3)
}

/// The mask register in the entry that holds.
pub fn mask_register(machine: &Machine, key: u32) -> Option<usize> {
    predicate_entry(machine, key).map(|entry| usize::from(entry >> 1 & 127))
}

/// The mask as the registers have it now.
pub fn mask(machine: &Machine, key: u32) -> Mask {
    match predicate_entry(machine, key) {
        None => Mask::ALL,
        Some(entry) => Mask {
            bits: machine.read(usize::from(entry >> 1 & 127)),
            invert: entry >> 9 & 1 == 1,
            zeroing: entry >> 10 & 1 == 1,
        },
    }
}

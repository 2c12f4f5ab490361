//! The premise of demand 3: no mask register set for an operand is among the registers that the instruction may write.

use crate::decode::{decode, Instruction};
use crate::machine::Machine;
use crate::tables::{mask_register, operand};
use std::ops::Range;

/// The destination's real register and, for a vector, the VL - 1 above it; a store has none.
pub fn may_write(machine: &Machine, instruction: &Instruction) -> Range<usize> {
    match instruction.written() {
        None => 0..0,
        Some(rd) => {
            let destination = operand(machine, rd);
            let count = if destination.is_vector() { machine.vl as usize } else { 1 };
            destination.first()..destination.first() + count
        }
    }
}

/// For a machine in shape. An unknown word has no operand.
pub fn holds(machine: &Machine, word: u32) -> bool {
    let Some(instruction) = decode(word) else {
        return true;
    };
    let written = may_write(machine, &instruction);
    let masks = instruction.named().into_iter().filter_map(|key| mask_register(machine, key));
    masks.into_iter().all(|register| !written.contains(&register))
}

//! The run call: its refusals in their order, and the walk of the kind that the word is.

use crate::calls::{answer, Outcome};
use crate::decode::{decode, Instruction};
use crate::machine::{Machine, REGISTERS};
use crate::operation;
use crate::tables::{operand, width};
use crate::transfer;

pub fn run(machine: &mut Machine, memory: &mut [u8], word: u32, allowance: u16) -> Outcome {
    if !machine.in_shape() {
        return Outcome::of(answer::OUT_OF_SHAPE);
    }
    let Some(instruction) = decode(word) else {
        return Outcome::of(answer::UNKNOWN_WORD);
    };
    if let Some(refusal) = refused_operand(machine, &instruction) {
        return Outcome::of(refusal);
    }
    match instruction {
        Instruction::Operation(operation) => operation::walk(machine, operation, allowance),
        Instruction::Move(it) => transfer::walk(machine, memory, transfer::of_move(machine, it), allowance),
        Instruction::Load(it) => transfer::walk(machine, memory, transfer::of_load(machine, it), allowance),
        Instruction::Store(it) => transfer::walk(machine, memory, transfer::of_store(machine, it), allowance),
    }
}

/// Answer 4 comes before 3, each over all operands.
fn refused_operand(machine: &Machine, instruction: &Instruction) -> Option<u32> {
    let named = instruction.named();
    if named.iter().any(|&key| width(machine, key) != 0) {
        return Some(answer::BAD_WIDTH);
    }
    let past = |key: &u32| {
        let operand = operand(machine, *key);
        operand.is_vector() && operand.at(machine.vl - 1) >= REGISTERS
    };
    if named.iter().any(past) {
        return Some(answer::PAST_REGISTERS);
    }
    None
}

/// The end of an instruction of `length` bytes.
pub fn done(machine: &mut Machine, length: u64) -> Outcome {
    machine.source = 0;
    machine.destination = 0;
    machine.pc = machine.pc.wrapping_add(length);
    Outcome::of(answer::DONE)
}

//! The walk of an operation: position by position, with the destination's mask.

use crate::calls::{answer, Outcome};
use crate::decode::{Operation, Second};
use crate::machine::Machine;
use crate::scalar::{compute32, compute64};
use crate::tables::{mask, operand, Operand};
use crate::walk::done;

const LENGTH: u64 = 4;

enum Value {
    Register(Operand),
    Constant(u64),
}

struct Sources {
    first: Operand,
    second: Value,
}

fn sources(machine: &Machine, operation: &Operation) -> Sources {
    Sources {
        first: operand(machine, operation.rs1),
        second: match operation.second {
            Second::Register(rs2) => Value::Register(operand(machine, rs2)),
            Second::Immediate(value) => Value::Constant(value),
        },
    }
}

fn result(machine: &Machine, operation: &Operation, sources: &Sources, position: u64) -> u64 {
    let a = machine.read(sources.first.at(position));
    let b = match sources.second {
        Value::Register(operand) => machine.read(operand.at(position)),
        Value::Constant(value) => value,
    };
    if operation.w {
        compute32(operation.function, a, b)
    } else {
        compute64(operation.function, a, b)
    }
}

pub fn walk(machine: &mut Machine, operation: Operation, allowance: u16) -> Outcome {
    let destination = operand(machine, operation.rd);
    let mask = mask(machine, operation.rd);
    let sources = sources(machine, &operation);
    for _ in 0..allowance {
        let position = machine.destination;
        let target = destination.at(position);
        if mask.on(position) {
            let value = result(machine, &operation, &sources, position);
            machine.write(target, value);
            if !destination.is_vector() {
                return done(machine, LENGTH);
            }
        } else if mask.zeroing {
            machine.write(target, 0);
        }
        if position + 1 == machine.vl {
            return done(machine, LENGTH);
        }
        machine.source = position + 1;
        machine.destination = position + 1;
    }
    Outcome::of(answer::PAUSED)
}

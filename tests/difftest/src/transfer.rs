//! The walk of a move, load or store: pairs of positions, found by skipping on both sides. A side with zeroing skips
//! nothing, and what is moved at one of its off positions is 0.

use crate::calls::{answer, Outcome};
use crate::decode::{Load, Move, Store};
use crate::machine::Machine;
use crate::memory;
use crate::scalar::extend;
use crate::tables::{mask, operand, Mask, Operand};
use crate::walk::done;

pub struct Side {
    pub walks: bool,
    pub mask: Mask,
}

impl Side {
    fn new(machine: &Machine, key: u32, walks: bool) -> Side {
        Side { walks, mask: mask(machine, key) }
    }

    /// The next position that isn't skipped, or VL if there is none.
    fn find(&self, offset: u64, vl: u64) -> u64 {
        if !self.walks {
            0
        } else if self.mask.zeroing {
            offset
        } else {
            (offset..vl).find(|&position| self.mask.on(position)).unwrap_or(vl)
        }
    }

    /// The mask of a side that doesn't walk isn't looked at.
    pub fn off(&self, position: u64) -> bool {
        self.walks && !self.mask.on(position)
    }

    fn after(&self, position: u64) -> u64 {
        if self.walks {
            position + 1
        } else {
            0
        }
    }
}

struct Address {
    operand: Operand,
    immediate: u64,
    bytes: u64,
}

impl Address {
    fn at(&self, machine: &Machine, position: u64) -> u64 {
        let start = machine.read(self.operand.at(position)).wrapping_add(self.immediate);
        if self.operand.is_vector() {
            start
        } else {
            start.wrapping_add(position * self.bytes)
        }
    }
}

/// What is done for a pair of positions.
enum Element {
    Move { from: Operand, to: Operand },
    Load { from: Address, signed: bool, to: Operand },
    Store { from: Operand, to: Address },
}

/// Two positions, or two offsets.
#[derive(Clone, Copy, PartialEq, Eq, Debug)]
pub struct Positions {
    pub source: u64,
    pub destination: u64,
}

impl Positions {
    pub fn offsets(machine: &Machine) -> Positions {
        Positions { source: machine.source, destination: machine.destination }
    }

    fn stand(self, machine: &mut Machine) {
        (machine.source, machine.destination) = (self.source, self.destination);
    }

    fn reaches(self, vl: u64) -> bool {
        self.source == vl || self.destination == vl
    }
}

impl Element {
    /// Does one element, or gives back the refusal of its access.
    fn make(&self, machine: &mut Machine, memory: &mut [u8], positions: Positions) -> Result<(), Outcome> {
        let Positions { source, destination } = positions;
        match self {
            Element::Move { from, to } => {
                machine.write(to.at(destination), machine.read(from.at(source)));
            }
            Element::Load { from, signed, to } => {
                let address = from.at(machine, source);
                let value = memory::load(memory, address, from.bytes)?;
                machine.write(to.at(destination), extend(value, from.bytes, *signed));
            }
            Element::Store { from, to } => {
                let address = to.at(machine, destination);
                let value = machine.read(from.at(source));
                memory::store(memory, address, to.bytes, value)?;
            }
        }
        Ok(())
    }

    /// Does one element that is 0: the source isn't read, and a store alone has an access.
    fn zero(&self, machine: &mut Machine, memory: &mut [u8], destination: u64) -> Result<(), Outcome> {
        match self {
            Element::Move { to, .. } | Element::Load { to, .. } => machine.write(to.at(destination), 0),
            Element::Store { to, .. } => memory::store(memory, to.at(machine, destination), to.bytes, 0)?,
        }
        Ok(())
    }
}

pub struct Transfer {
    pub source: Side,
    pub destination: Side,
    element: Element,
    /// It ends after the first element.
    pub single: bool,
    length: u64,
}

impl Transfer {
    /// The pair that the next unit is for, from the offsets on; none if a side has run out.
    pub fn find(&self, offsets: Positions, vl: u64) -> Option<Positions> {
        let source = self.source.find(offsets.source, vl);
        let destination = self.destination.find(offsets.destination, vl);
        let pair = Positions { source, destination };
        (!pair.reaches(vl)).then_some(pair)
    }

    /// Whether 0 is moved at a pair that was found.
    pub fn zeroes(&self, pair: Positions) -> bool {
        self.source.off(pair.source) || self.destination.off(pair.destination)
    }

    /// The offsets after the element of a pair; none if it was the last.
    pub fn after(&self, pair: Positions, vl: u64) -> Option<Positions> {
        let source = self.source.after(pair.source);
        let destination = self.destination.after(pair.destination);
        let offsets = Positions { source, destination };
        (!self.single && !offsets.reaches(vl)).then_some(offsets)
    }
}

pub fn of_move(machine: &Machine, Move { rd, rs2 }: Move) -> Transfer {
    let (from, to) = (operand(machine, rs2), operand(machine, rd));
    Transfer {
        source: Side::new(machine, rs2, from.is_vector()),
        destination: Side::new(machine, rd, to.is_vector()),
        element: Element::Move { from, to },
        single: !to.is_vector(),
        length: 2,
    }
}

pub fn of_load(machine: &Machine, Load { bytes, signed, rd, rs1, immediate }: Load) -> Transfer {
    let (address, to) = (operand(machine, rs1), operand(machine, rd));
    Transfer {
        source: Side::new(machine, rs1, true),
        destination: Side::new(machine, rd, to.is_vector()),
        element: Element::Load { from: Address { operand: address, immediate, bytes }, signed, to },
        single: !to.is_vector(),
        length: 4,
    }
}

pub fn of_store(machine: &Machine, Store { bytes, rs2, rs1, immediate }: Store) -> Transfer {
    let (from, address) = (operand(machine, rs2), operand(machine, rs1));
    Transfer {
        source: Side::new(machine, rs2, from.is_vector()),
        destination: Side::new(machine, rs1, true),
        element: Element::Store { from, to: Address { operand: address, immediate, bytes } },
        single: !from.is_vector() && !address.is_vector(),
        length: 4,
    }
}

pub fn walk(machine: &mut Machine, memory: &mut [u8], transfer: Transfer, allowance: u16) -> Outcome {
    let vl = machine.vl;
    for _ in 0..allowance {
        let Some(pair) = transfer.find(Positions::offsets(machine), vl) else {
            return done(machine, transfer.length);
        };
        pair.stand(machine);
        let made = if transfer.zeroes(pair) {
            transfer.element.zero(machine, memory, pair.destination)
        } else {
            transfer.element.make(machine, memory, pair)
        };
        if let Err(fault) = made {
            return fault;
        }
        let Some(offsets) = transfer.after(pair, vl) else {
            return done(machine, transfer.length);
        };
        offsets.stand(machine);
    }
    Outcome::of(answer::PAUSED)
}

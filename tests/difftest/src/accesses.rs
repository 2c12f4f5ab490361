//! Which accesses a load or store made, or was refused: aligned or not, in memory or not, at an address that wrapped.

use crate::coverage::{Made, Seen};
use crate::walked::Walked;
use difftest::calls::answer;
use difftest::decode::Instruction;
use difftest::machine::Machine;
use difftest::tables::{operand, Operand};
use difftest::transfer::Positions;

/// The accesses of a load or store.
pub struct Accesses {
    pub bytes: u64,
    immediate: u64,
    pub register: Operand,
    /// The address is the source side.
    pub loads: bool,
}

/// An address, and the register that it is made of.
struct Access {
    base: u64,
    address: u64,
}

impl Access {
    /// The sum went past 2^64.
    fn wrapped(&self) -> bool {
        self.base >> 63 == 1 && self.address >> 63 == 0
    }
}

impl Accesses {
    pub fn of(machine: &Machine, instruction: &Instruction) -> Option<Accesses> {
        let (bytes, immediate, key, loads) = match *instruction {
            Instruction::Load(it) => (it.bytes, it.immediate, it.rs1, true),
            Instruction::Store(it) => (it.bytes, it.immediate, it.rs1, false),
            _ => return None,
        };
        Some(Accesses { bytes, immediate, register: operand(machine, key), loads })
    }

    fn at(&self, machine: &Machine, position: u64) -> Access {
        let base = machine.read(self.register.at(position));
        let distance = if self.register.is_vector() { 0 } else { position * self.bytes };
        Access { base, address: base.wrapping_add(self.immediate).wrapping_add(distance) }
    }

    fn aligned(&self, number: u64) -> bool {
        number % self.bytes == 0
    }

    pub fn misaligned_at(&self, machine: &Machine, position: u64) -> bool {
        !self.aligned(self.at(machine, position).address)
    }

    pub fn inside_at(&self, machine: &Machine, position: u64, size: usize) -> bool {
        u128::from(self.at(machine, position).address) + u128::from(self.bytes) <= size as u128
    }

    /// The position of the address.
    fn position(&self, pair: Positions) -> u64 {
        if self.loads {
            pair.source
        } else {
            pair.destination
        }
    }

    /// Whether the element of a pair has an access: a load of a 0 has none.
    fn made_at(&self, walked: &Walked, pair: Positions) -> bool {
        !self.loads || !walked.transfer.zeroes(pair)
    }
}

/// The situations of a load or store; none for another instruction.
pub fn situations(made: &Made, instruction: &Instruction, walked: &Walked) -> Vec<Seen> {
    let Some(accesses) = Accesses::of(made.before, instruction) else {
        return Vec::new();
    };
    let mut seen = misaligned(made, &accesses);
    let vector = instruction.named().iter().any(|&key| operand(made.before, key).is_vector());
    seen.push(("misaligned without a vector", made.outcome.answer == answer::MISALIGNED && !vector));
    seen.extend(outside(made, &accesses, walked));
    seen.extend(served(made, &accesses, walked));
    seen
}

/// Answer 9.
fn misaligned(made: &Made, accesses: &Accesses) -> Vec<Seen> {
    let refused = made.outcome.answer == answer::MISALIGNED;
    let position = accesses.position(Positions::offsets(made.after));
    let access = accesses.at(made.after, position);
    let (address, bytes) = (access.address, accesses.bytes);
    let inside = accesses.inside_at(made.after, position, made.size);
    vec![
        ("misaligned in memory", refused && inside),
        ("misaligned, and not wholly in memory", refused && !inside),
        ("misaligned: 2 bytes", refused && bytes == 2),
        ("misaligned: 4 bytes at a multiple of 2", refused && bytes == 4 && address % 2 == 0),
        ("misaligned: 8 bytes at a multiple of 4", refused && bytes == 8 && address % 4 == 0),
        ("misaligned after an element of the same call", refused && !made.kept()),
        ("misaligned near 2^64", refused && address > u64::MAX - 8),
        ("misaligned at an address that wrapped", refused && access.wrapped()),
        ("misaligned, but not its register", refused && accesses.aligned(access.base)),
    ]
}

/// Answer 5.
fn outside(made: &Made, accesses: &Accesses, walked: &Walked) -> Vec<Seen> {
    let refused = made.outcome.answer == answer::FAULT;
    let mut later = walked.left.iter().filter(|&&pair| accesses.made_at(walked, pair));
    let misaligned = later.any(|&pair| accesses.misaligned_at(made.after, accesses.position(pair)));
    vec![
        ("outside memory: 2, 4 or 8 bytes", refused && accesses.bytes > 1),
        ("outside memory: a byte at an odd address", refused && accesses.bytes == 1 && made.outcome.value % 2 == 1),
        ("outside memory after an element of the same call", refused && !made.kept()),
        ("outside memory near 2^64", refused && made.outcome.value > u64::MAX - 8),
        ("outside memory before an element that is misaligned", refused && misaligned),
    ]
}

/// The first element of a call, if it had an access.
fn served(made: &Made, accesses: &Accesses, walked: &Walked) -> Vec<Seen> {
    let start = accesses.position(Positions::offsets(made.before));
    let pair = walked.done.first().copied().filter(|&pair| accesses.made_at(walked, pair));
    let served = pair.is_some();
    let first = pair.map_or(start, |pair| accesses.position(pair));
    let access = accesses.at(made.before, first);
    let skipped = (start..first).any(|position| accesses.misaligned_at(made.before, position));
    vec![
        ("access of a byte at an odd address", served && accesses.bytes == 1 && access.address % 2 == 1),
        ("aligned access at an address that wrapped", served && accesses.bytes > 1 && access.wrapped()),
        ("aligned access, but not its register", served && !accesses.aligned(access.base)),
        ("access after a misaligned one that is skipped", served && skipped),
    ]
}

//! The state word, packed and unpacked.

use crate::machine::Machine;

pub fn pack(machine: &Machine) -> u64 {
    (machine.mvl - 1) | (machine.vl - 1) << 6 | machine.source << 12 | machine.destination << 18 | machine.cfg << 24
}

/// The machine after setting a state word, or nothing if the word is bad.
pub fn unpack(machine: &Machine, word: u32) -> Option<Machine> {
    let field = |low: u32, bits: u32| u64::from(word >> low) & ((1 << bits) - 1);
    let mvl = field(0, 6) + 1;
    let vl = mvl.min(field(6, 6) + 1);
    let (source, destination, cfg) = (field(12, 6), field(18, 6), field(24, 5));
    if field(29, 3) != 0 || source >= vl || destination >= vl {
        return None;
    }
    Some(Machine { mvl, vl, source, destination, cfg, ..machine.clone() })
}

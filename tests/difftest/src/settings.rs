//! Random setting and reading calls, with good values, bad ones, and ones that would be good if cut to fewer bits.

use crate::machines;
use crate::random::Random;
use crate::words::keys;
use difftest::calls::Call;

pub fn setting(random: &mut Random, word: u32, vl: u64) -> Call {
    match random.below(9) {
        0 => Call::SetVl(wide(random)),
        1 => Call::SetVlImmediate(number(random, 31)),
        2 => Call::SetMvl(number(random, 64)),
        3 => Call::SetCfg(number(random, 31)),
        4 => Call::SetStateWord(state_word(random)),
        5 => Call::SetPc(random.word() >> random.below(64)),
        6 => Call::SetRegister(number(random, 127), random.word() >> random.below(64)),
        7 => Call::SetRegisterEntry(number(random, 15), register_entry(random, word, vl)),
        _ => Call::SetPredicateEntry(number(random, 15), predicate_entry(random, word)),
    }
}

pub fn reading(random: &mut Random) -> Call {
    match random.below(8) {
        0 => Call::ReadVl,
        1 => Call::ReadMvl,
        2 => Call::ReadCfg,
        3 => Call::ReadPc,
        4 => Call::ReadStateWord,
        5 => Call::ReadRegister(number(random, 127)),
        6 => Call::ReadRegisterEntry(number(random, 15)),
        _ => Call::ReadPredicateEntry(number(random, 15)),
    }
}

/// A number that is mostly at most `limit`.
fn number(random: &mut Random, limit: u32) -> u32 {
    match random.below(20) {
        0 => limit + 1,
        1 => limit + 1 + random.below(300) as u32,
        2 => u32::MAX - random.below(3) as u32,
        3 => random.below(u64::from(limit) + 1) as u32 | random.pick(&[1 << 8, 1 << 16, 1 << 31]),
        4 => random.word() as u32,
        5 => 0,
        6 => limit,
        _ => random.below(u64::from(limit) + 1) as u32,
    }
}

/// A number for VL, which has no upper limit.
fn wide(random: &mut Random) -> u64 {
    match random.below(10) {
        0 => 0,
        1 => u64::MAX - random.below(3),
        2 => random.below(64) << 32,
        3 => random.below(64) << 8,
        4 => random.word(),
        _ => random.between(1, 70),
    }
}

/// A state word whose fields mostly fit together, or in which an offset fits VL before it is cut to MVL and not after.
fn state_word(random: &mut Random) -> u32 {
    if random.percent(10) {
        return random.word() as u32;
    }
    let mvl = random.below(64);
    let vl = if random.percent(60) { random.below(mvl + 1) } else { random.between(mvl, 63) };
    let bound = if random.percent(75) { vl.min(mvl) } else { vl };
    let (source, destination) = (random.below(bound + 1), random.below(bound + 1));
    let upper = if random.percent(8) { random.below(8) } else { 0 };
    (mvl | vl << 6 | source << 12 | destination << 18 | random.below(32) << 24 | upper << 29) as u32
}

fn register_entry(random: &mut Random, word: u32, vl: u64) -> u16 {
    let key = random.pick(&keys(word));
    let starts = [random.below(128), random.below(128)];
    match random.below(10) {
        0 => 0,
        1 => random.word() as u16,
        _ => machines::register_entry(random, vl.clamp(1, 64), key, starts),
    }
}

fn predicate_entry(random: &mut Random, word: u32) -> u16 {
    let key = random.pick(&keys(word));
    let starts = [random.below(128), random.below(128)];
    match random.below(10) {
        0 => 0,
        1 => random.word() as u16,
        _ => machines::predicate_entry(random, key, starts),
    }
}

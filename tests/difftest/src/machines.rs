//! Random machines for a word and a memory: in shape with tables that the word meets, or spoiled.

use crate::random::Random;
use crate::words::{accesses_memory, bytes, divides, is_w, keys, offset};
use difftest::machine::{Machine, ENTRIES, REGISTERS};
use difftest::tables::operand;

const EDGES: [u64; 10] =
    [0, 1, u64::MAX, 1 << 63, (1 << 63) - 1, 1 << 31, (1 << 31) - 1, 0xFFFF_FFFF, 0xFFFF_FFFF_8000_0000, 1 << 32];

/// A machine that is mostly in shape.
pub fn any(random: &mut Random, word: u32, size: usize) -> Machine {
    let mut machine = in_shape(random, word, size);
    if random.percent(10) {
        spoil(random, &mut machine);
    }
    machine
}

pub fn in_shape(random: &mut Random, word: u32, size: usize) -> Machine {
    let mut machine = Machine::fresh();
    control(random, &mut machine);
    registers(random, &mut machine, word, size);
    let starts = [random.below(128), random.below(128)];
    register_table(random, &mut machine, word, starts);
    predicate_table(random, &mut machine, word, starts);
    if divides(word) && random.percent(75) {
        corner_operands(random, &mut machine, word);
    }
    masks(random, &mut machine);
    machine
}

/// A size of memory: 0 to 100 bytes, or 4,096.
pub fn memory_size(random: &mut Random) -> usize {
    let size = match random.below(100) {
        0..=2 => 0,
        3..=44 => random.between(1, 100),
        _ => 4096,
    };
    size as usize
}

fn control(random: &mut Random, machine: &mut Machine) {
    machine.pc = match random.below(4) {
        0 => random.below(4096),
        1 => u64::MAX - random.below(5),
        _ => random.word(),
    };
    machine.mvl = match random.below(4) {
        0 => 64,
        1 => random.between(1, 8),
        _ => random.between(1, 64),
    };
    machine.vl = match random.below(4) {
        0 => machine.mvl,
        1 => random.between(1, machine.mvl.min(8)),
        _ => random.between(1, machine.mvl),
    };
    if random.percent(40) {
        machine.source = random.below(machine.vl);
        machine.destination = if random.percent(30) { machine.source } else { random.below(machine.vl) };
    }
    machine.cfg = if random.percent(50) { 24 } else { random.below(32) };
}

fn registers(random: &mut Random, machine: &mut Machine, word: u32, size: usize) {
    let addresses = if accesses_memory(word) { 92 } else { 5 };
    let outside = random.pick(&[0, 0, 2, 10, 50]);
    let misaligned = random.pick(&[0, 0, 0, 2, 10, 50]);
    for register in 1..REGISTERS {
        machine.registers[register] = if random.percent(addresses) {
            let address = address(random, size as u64, outside);
            aligned(random, address, bytes(word), misaligned).wrapping_sub(offset(word))
        } else {
            value(random)
        };
    }
}

fn value(random: &mut Random) -> u64 {
    match random.below(6) {
        0 => random.below(200),
        1 => random.word() & random.word() & random.word(),
        2 => random.word() | random.word(),
        3 => random.pick(&EDGES),
        4 => random.word() as i32 as u64,
        _ => random.word(),
    }
}

/// An address in memory, or with a chance of `outside` one at its end or near 2^64.
fn address(random: &mut Random, size: u64, outside: u64) -> u64 {
    if !random.percent(outside) {
        return random.below(size.saturating_sub(7).max(1));
    }
    match random.below(5) {
        0 => size.wrapping_sub(random.below(9)),
        1 => size + random.below(9),
        2 => 0u64.wrapping_sub(random.below(9)),
        3 => 0u64.wrapping_sub(8 * random.below(16)),
        _ => random.word(),
    }
}

/// The address aligned for an access of so many bytes, or with a chance of `misaligned` as it is, or aligned for half
/// the bytes alone.
fn aligned(random: &mut Random, address: u64, bytes: u64, misaligned: u64) -> u64 {
    let aligned = address & !(bytes - 1);
    if !random.percent(misaligned) {
        aligned
    } else if random.percent(50) {
        address
    } else {
        aligned + bytes / 2
    }
}

/// Puts into the sources of many positions a division by zero, or of the most negative number by -1 or the other way
/// round; for a W form in the low 32 bits.
fn corner_operands(random: &mut Random, machine: &mut Machine, word: u32) {
    let sources = [15, 20].map(|low| operand(machine, word >> low & 31));
    for position in machine.destination..machine.vl {
        if random.percent(50) {
            continue;
        }
        let (least, minus_one, any) = (1 << 63, u64::MAX, random.word());
        let numbers = random.pick(&[[least, minus_one], [least, minus_one], [minus_one, least], [any, 0]]);
        for (source, number) in sources.into_iter().zip(numbers) {
            let value = if is_w(word) { random.word() << 32 | number >> 32 } else { number };
            if source.at(position) < REGISTERS {
                machine.write(source.at(position), value);
            }
        }
    }
}

/// A key that the word names, or any.
fn key(random: &mut Random, word: u32) -> u16 {
    if random.percent(50) {
        random.pick(&keys(word))
    } else {
        random.below(32) as u16
    }
}

/// An index that CFG enables, or any.
fn index(random: &mut Random, machine: &Machine) -> usize {
    if random.percent(70) {
        2 * (machine.cfg as usize & 7) + random.below(2) as usize
    } else {
        random.below(ENTRIES as u64) as usize
    }
}

fn bit(random: &mut Random, chance: u64, place: u32) -> u16 {
    u16::from(random.percent(chance)) << place
}

/// A few entries for the keys of the word, over an empty, sparse or full table of others.
fn register_table(random: &mut Random, machine: &mut Machine, word: u32, starts: [u64; 2]) {
    let density = random.pick(&[0, 0, 20, 100]);
    for i in 0..ENTRIES {
        if random.percent(density) {
            let key = key(random, word);
            machine.register_table[i] = register_entry(random, machine.vl, key, starts) | bit(random, 15, 5);
        }
    }
    for key in keys(word) {
        if random.percent(70) {
            let entry = register_entry(random, machine.vl, key, starts);
            machine.register_table[index(random, machine)] = entry;
        }
    }
    if random.percent(15) && machine.vl > 1 {
        let key = random.pick(&keys(word));
        let entry = past_registers(random, machine.vl, key);
        machine.register_table[index(random, machine)] = entry;
    }
}

/// A vector that ends above the last register.
fn past_registers(random: &mut Random, vl: u64, key: u16) -> u16 {
    let first = 129 - vl;
    let start = if random.percent(50) { first } else { random.between(first, 127) };
    0x8080 | (start as u16) << 8 | key
}

pub fn register_entry(random: &mut Random, vl: u64, key: u16, starts: [u64; 2]) -> u16 {
    let near = random.pick(&starts) + random.below(4);
    let start = if random.percent(60) { near } else { random.below(128) };
    let start = if random.percent(97) { start.min(128 - vl) } else { start.min(127) };
    let width = if random.percent(97) { 0 } else { random.below(4) as u16 };
    bit(random, 65, 15) | (start as u16) << 8 | bit(random, 94, 7) | width << 5 | key
}

fn predicate_table(random: &mut Random, machine: &mut Machine, word: u32, starts: [u64; 2]) {
    let density = random.pick(&[0, 0, 20, 100]);
    for i in 0..ENTRIES {
        if random.percent(density) {
            let key = key(random, word);
            machine.predicate_table[i] = predicate_entry(random, key, starts);
        }
    }
    for key in keys(word) {
        if random.percent(45) {
            machine.predicate_table[index(random, machine)] = predicate_entry(random, key, starts);
        }
    }
}

/// An entry whose mask register is 0, near the start of a vector, or any.
pub fn predicate_entry(random: &mut Random, key: u16, starts: [u64; 2]) -> u16 {
    let register = match random.below(10) {
        0 => 0,
        1..=2 => (random.pick(&starts) + random.below(8)) & 127,
        _ => random.below(128),
    };
    key << 11 | bit(random, 40, 10) | bit(random, 30, 9) | bit(random, 92, 8) | (register as u16) << 1
}

/// Puts masks into most of the mask registers.
fn masks(random: &mut Random, machine: &mut Machine) {
    for entry in machine.predicate_table {
        let register = usize::from(entry >> 1 & 127);
        if register != 0 && entry != 0 && random.percent(75) {
            machine.registers[register] = mask(random, machine.vl);
        }
    }
}

fn mask(random: &mut Random, vl: u64) -> u64 {
    match random.below(8) {
        0 => 0,
        1 => u64::MAX,
        2 => 1 << random.below(vl),
        3 => !(1 << random.below(vl)),
        4 => u64::MAX << random.below(vl),
        5 => random.word() & random.word(),
        6 => random.word() | random.word(),
        _ => random.word(),
    }
}

/// Breaks one of the rules that answer 6 looks at.
pub fn spoil(random: &mut Random, machine: &mut Machine) {
    match random.below(13) {
        0 => machine.mvl = 0,
        1 => machine.mvl = above(random, 64),
        2 => machine.vl = 0,
        3 => machine.vl = above(random, machine.mvl),
        4 => machine.cfg = above(random, 31),
        5 => machine.source = above(random, machine.vl - 1),
        6 => machine.destination = above(random, machine.vl - 1),
        7 => machine.registers[0] = random.word() | 1 << random.below(64),
        8 => machine.predicate_table[random.below(16) as usize] |= 1,
        _ => in_shape_when_cut(random, machine),
    }
}

fn above(random: &mut Random, limit: u64) -> u64 {
    match random.below(4) {
        0 => limit + 1,
        1 => limit + 1 + random.below(300),
        2 => u64::MAX - random.below(3),
        _ => random.word() | 1 << 32,
    }
}

/// A control word that would be in range if its upper bits were not looked at.
fn in_shape_when_cut(random: &mut Random, machine: &mut Machine) {
    let upper = (random.word() | 1) << 32;
    let bits = random.pick(&[1 << 8, 1 << 16, 1 << 32, 1 << 63, upper]);
    let words = [&mut machine.mvl, &mut machine.vl, &mut machine.cfg, &mut machine.source, &mut machine.destination];
    *words.into_iter().nth(random.below(5) as usize).expect("one of five") |= bits;
}

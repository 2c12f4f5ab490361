//! Random instruction words: served ones of every encoding, corrupted ones, 16-bit words and any words.

use crate::random::Random;

const LOAD: u32 = 0x03;
const IMMEDIATE: u32 = 0x13;
const IMMEDIATE_W: u32 = 0x1B;
const STORE: u32 = 0x23;
const REGISTER: u32 = 0x33;
const REGISTER_W: u32 = 0x3B;

/// funct3 and funct7 of the register forms.
const FUNCTIONS: [(u32, u32); 18] = [
    (0, 0),
    (0, 0x20),
    (1, 0),
    (2, 0),
    (3, 0),
    (4, 0),
    (5, 0),
    (5, 0x20),
    (6, 0),
    (7, 0),
    (0, RV64M),
    (1, RV64M),
    (2, RV64M),
    (3, RV64M),
    (4, RV64M),
    (5, RV64M),
    (6, RV64M),
    (7, RV64M),
];
const FUNCTIONS_W: [(u32, u32); 10] =
    [(0, 0), (0, 0x20), (1, 0), (5, 0), (5, 0x20), (0, RV64M), (4, RV64M), (5, RV64M), (6, RV64M), (7, RV64M)];
const RV64M: u32 = 1;

/// A word of any sort.
pub fn any(random: &mut Random) -> u32 {
    match random.below(100) {
        0..=81 => served(random),
        82..=89 => corrupted(random),
        90..=94 => random.word() as u32,
        _ => sixteen(random),
    }
}

/// A word that is served.
pub fn served(random: &mut Random) -> u32 {
    let names = names(random);
    match random.below(12) {
        0..=3 => register_form(random, names),
        4..=5 => immediate_form(random, names),
        6..=7 => moved(random, names),
        8..=9 => load(random, names),
        _ => store(random, names),
    }
}

/// The three register numbers, often 0 or the same.
fn names(random: &mut Random) -> [u32; 3] {
    let mut names = [0; 3];
    for i in 0..3 {
        names[i] = match random.below(20) {
            0..=1 => 0,
            2..=5 => names[random.below(3) as usize],
            _ => random.below(32) as u32,
        };
    }
    names
}

/// Twelve bits, often small or at an end of the range.
fn immediate(random: &mut Random) -> u32 {
    let value = match random.below(10) {
        0..=2 => 0,
        3..=5 => random.below(64) as i32 - 32,
        6 => random.pick(&[-2048, 2047, -1, 1, 31, 32, 63, 64]),
        _ => random.below(4096) as i32,
    };
    value as u32 & 0xFFF
}

/// The immediate of a load or store: in most words divisible by 8, so that x0 is the base of aligned accesses too.
fn access_immediate(random: &mut Random) -> u32 {
    let any = immediate(random);
    if random.percent(70) {
        any & !7
    } else {
        any
    }
}

fn fields(opcode: u32, funct3: u32, [rd, rs1, _]: [u32; 3], upper: u32) -> u32 {
    opcode | rd << 7 | funct3 << 12 | rs1 << 15 | upper << 20
}

fn register_form(random: &mut Random, names: [u32; 3]) -> u32 {
    let (opcode, (funct3, funct7)) =
        if random.percent(60) { (REGISTER, random.pick(&FUNCTIONS)) } else { (REGISTER_W, random.pick(&FUNCTIONS_W)) };
    fields(opcode, funct3, names, funct7 << 5 | names[2])
}

fn immediate_form(random: &mut Random, names: [u32; 3]) -> u32 {
    let w = random.percent(40);
    let opcode = if w { IMMEDIATE_W } else { IMMEDIATE };
    let funct3 = if w { random.pick(&[0, 1, 5]) } else { random.below(8) as u32 };
    let shift = random.below(if w { 32 } else { 64 }) as u32;
    let upper = match funct3 {
        1 => shift,
        5 => shift | random.pick(&[0, 0x400]),
        _ => immediate(random),
    };
    fields(opcode, funct3, names, upper)
}

fn moved(random: &mut Random, [rd, _, rs2]: [u32; 3]) -> u32 {
    let rs2 = if rs2 == 0 { random.between(1, 31) as u32 } else { rs2 };
    0x8002 | rd << 7 | rs2 << 2 | (random.word() as u32) << 16
}

fn load(random: &mut Random, names: [u32; 3]) -> u32 {
    fields(LOAD, random.below(7) as u32, names, access_immediate(random))
}

fn store(random: &mut Random, [_, rs1, rs2]: [u32; 3]) -> u32 {
    let immediate = access_immediate(random);
    let upper = (immediate >> 5) << 5 | rs2;
    fields(STORE, random.below(4) as u32, [immediate & 31, rs1, 0], upper)
}

/// A served word with one or two bits turned, or with other function or opcode bits, or a neighbour of RV64M.
fn corrupted(random: &mut Random) -> u32 {
    let word = served(random);
    match random.below(6) {
        0 => word ^ 1 << random.below(32),
        1 => word ^ 1 << random.below(32) ^ 1 << random.below(32),
        2 => word ^ (random.word() as u32 & 0xFE007000),
        3 => word ^ (random.word() as u32 & 0x7C),
        _ => near_rv64m(random),
    }
}

/// A W form that RV64M doesn't have, or a word of RV64M with one more bit of funct7.
fn near_rv64m(random: &mut Random) -> u32 {
    let names = names(random);
    if random.percent(30) {
        return fields(REGISTER_W, random.between(1, 3) as u32, names, RV64M << 5 | names[2]);
    }
    let funct7 = RV64M | 2 << random.below(6);
    fields(random.pick(&[REGISTER, REGISTER_W]), random.below(8) as u32, names, funct7 << 5 | names[2])
}

/// A 16-bit word: any, or C.MV with one field changed.
fn sixteen(random: &mut Random) -> u32 {
    let any = random.word() as u32;
    match random.below(4) {
        0 => any & !3 | random.below(3) as u32,
        1 => any & 0xFFFF_0F80 | 0x8002,
        2 => any & 0xFFFF_0FFC | (random.below(16) as u32) << 12 | 2,
        _ => any & 0xFFFF_0FFC | 0x8000 | random.below(3) as u32,
    }
}

/// The fields of a word that can name a register.
pub fn keys(word: u32) -> [u16; 4] {
    [7, 15, 20, 2].map(|low| (word >> low & 31) as u16)
}

/// The immediate of a load or store, which addresses are made to fit.
pub fn offset(word: u32) -> u64 {
    let low = if word & 0x7F == STORE { word >> 7 & 31 } else { word >> 20 & 31 };
    let high = (word as i32 >> 25) << 5;
    i64::from(high | low as i32) as u64
}

pub fn accesses_memory(word: u32) -> bool {
    matches!(word & 0x7F, LOAD | STORE)
}

/// The bytes of an access, which addresses are aligned for.
pub fn bytes(word: u32) -> u64 {
    1 << (word >> 12 & 3)
}

/// Whether the word is a W form on two registers.
pub fn is_w(word: u32) -> bool {
    word & 0x7F == REGISTER_W
}

/// Whether the word is a division of RV64M.
pub fn divides(word: u32) -> bool {
    matches!(word & 0x7F, REGISTER | REGISTER_W) && word >> 25 == RV64M && word >> 14 & 1 == 1
}

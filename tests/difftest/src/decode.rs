//! Reading a word into one of the kinds.

use crate::scalar::Function;

#[derive(Clone, Copy, PartialEq, Eq, Debug)]
pub enum Second {
    Register(u32),
    Immediate(u64),
}

#[derive(Clone, Copy, PartialEq, Eq, Debug)]
pub struct Operation {
    pub function: Function,
    /// The 32-bit form.
    pub w: bool,
    pub rd: u32,
    pub rs1: u32,
    pub second: Second,
}

#[derive(Clone, Copy, PartialEq, Eq, Debug)]
pub struct Move {
    pub rd: u32,
    pub rs2: u32,
}

#[derive(Clone, Copy, PartialEq, Eq, Debug)]
pub struct Load {
    pub bytes: u64,
    pub signed: bool,
    pub rd: u32,
    pub rs1: u32,
    pub immediate: u64,
}

#[derive(Clone, Copy, PartialEq, Eq, Debug)]
pub struct Store {
    pub bytes: u64,
    pub rs2: u32,
    pub rs1: u32,
    pub immediate: u64,
}

#[derive(Clone, Copy, PartialEq, Eq, Debug)]
pub enum Instruction {
    Operation(Operation),
    Move(Move),
    Load(Load),
    Store(Store),
}

impl Instruction {
    /// The registers that the word names.
    pub fn named(&self) -> Vec<u32> {
        match *self {
            Instruction::Operation(Operation { rd, rs1, second: Second::Register(rs2), .. }) => vec![rd, rs1, rs2],
            Instruction::Operation(Operation { rd, rs1, .. }) => vec![rd, rs1],
            Instruction::Move(Move { rd, rs2 }) => vec![rd, rs2],
            Instruction::Load(Load { rd, rs1, .. }) => vec![rd, rs1],
            Instruction::Store(Store { rs2, rs1, .. }) => vec![rs2, rs1],
        }
    }

    /// The register that it writes; a store has none.
    pub fn written(&self) -> Option<u32> {
        match *self {
            Instruction::Operation(Operation { rd, .. }) => Some(rd),
            Instruction::Move(Move { rd, .. }) => Some(rd),
            Instruction::Load(Load { rd, .. }) => Some(rd),
            Instruction::Store(_) => None,
        }
    }
}

/// The instruction that a word is, or nothing for an unknown word.
pub fn decode(word: u32) -> Option<Instruction> {
    if word & 3 != 3 {
        return decode_16(word);
    }
    match word & 0x7f {
        0x03 => load(word),
        0x13 => operation_immediate(word),
        0x1b => operation_immediate_w(word),
        0x23 => store(word),
        0x33 => operation(word),
        0x3b => operation_w(word),
        _ => None,
    }
}

/// C.MV is the only one served; the upper half of the word is not looked at.
fn decode_16(word: u32) -> Option<Instruction> {
    let rs2 = field(word, 2, 5);
    if field(word, 12, 4) == 0b1000 && field(word, 0, 2) == 0b10 && rs2 != 0 {
        Some(Instruction::Move(Move { rd: rd(word), rs2 }))
    } else {
        None
    }
}

fn load(word: u32) -> Option<Instruction> {
    let (bytes, signed) = match funct3(word) {
        0 => (1, true),
        1 => (2, true),
        2 => (4, true),
        3 => (8, true),
        4 => (1, false),
        5 => (2, false),
        6 => (4, false),
        _ => return None,
    };
    Some(Instruction::Load(Load { bytes, signed, rd: rd(word), rs1: rs1(word), immediate: immediate_i(word) }))
}

fn store(word: u32) -> Option<Instruction> {
    let bytes = match funct3(word) {
        0 => 1,
        1 => 2,
        2 => 4,
        3 => 8,
        _ => return None,
    };
    Some(Instruction::Store(Store { bytes, rs2: rs2(word), rs1: rs1(word), immediate: immediate_s(word) }))
}

fn operation(word: u32) -> Option<Instruction> {
    let function = match (funct7(word), funct3(word)) {
        (0x00, 0) => Function::Add,
        (0x20, 0) => Function::Sub,
        (0x00, 1) => Function::Sll,
        (0x00, 2) => Function::Slt,
        (0x00, 3) => Function::Sltu,
        (0x00, 4) => Function::Xor,
        (0x00, 5) => Function::Srl,
        (0x20, 5) => Function::Sra,
        (0x00, 6) => Function::Or,
        (0x00, 7) => Function::And,
        (0x01, 0) => Function::Mul,
        (0x01, 1) => Function::Mulh,
        (0x01, 2) => Function::Mulhsu,
        (0x01, 3) => Function::Mulhu,
        (0x01, 4) => Function::Div,
        (0x01, 5) => Function::Divu,
        (0x01, 6) => Function::Rem,
        (0x01, 7) => Function::Remu,
        _ => return None,
    };
    Some(with_register(word, function, false))
}

fn operation_w(word: u32) -> Option<Instruction> {
    let function = match (funct7(word), funct3(word)) {
        (0x00, 0) => Function::Add,
        (0x20, 0) => Function::Sub,
        (0x00, 1) => Function::Sll,
        (0x00, 5) => Function::Srl,
        (0x20, 5) => Function::Sra,
        (0x01, 0) => Function::Mul,
        (0x01, 4) => Function::Div,
        (0x01, 5) => Function::Divu,
        (0x01, 6) => Function::Rem,
        (0x01, 7) => Function::Remu,
        _ => return None,
    };
    Some(with_register(word, function, true))
}

fn operation_immediate(word: u32) -> Option<Instruction> {
    let shift = u64::from(field(word, 20, 6));
    let (function, immediate) = match (funct3(word), field(word, 26, 6)) {
        (0, _) => (Function::Add, immediate_i(word)),
        (1, 0b000000) => (Function::Sll, shift),
        (2, _) => (Function::Slt, immediate_i(word)),
        (3, _) => (Function::Sltu, immediate_i(word)),
        (4, _) => (Function::Xor, immediate_i(word)),
        (5, 0b000000) => (Function::Srl, shift),
        (5, 0b010000) => (Function::Sra, shift),
        (6, _) => (Function::Or, immediate_i(word)),
        (7, _) => (Function::And, immediate_i(word)),
        _ => return None,
    };
    Some(with_immediate(word, function, false, immediate))
}

fn operation_immediate_w(word: u32) -> Option<Instruction> {
    let shift = u64::from(field(word, 20, 5));
    let (function, immediate) = match (funct3(word), funct7(word)) {
        (0, _) => (Function::Add, immediate_i(word)),
        (1, 0x00) => (Function::Sll, shift),
        (5, 0x00) => (Function::Srl, shift),
        (5, 0x20) => (Function::Sra, shift),
        _ => return None,
    };
    Some(with_immediate(word, function, true, immediate))
}

fn with_register(word: u32, function: Function, w: bool) -> Instruction {
    Instruction::Operation(Operation { function, w, rd: rd(word), rs1: rs1(word), second: Second::Register(rs2(word)) })
}

fn with_immediate(word: u32, function: Function, w: bool, immediate: u64) -> Instruction {
    Instruction::Operation(Operation {
        function,
        w,
        rd: rd(word),
        rs1: rs1(word),
        second: Second::Immediate(immediate),
    })
}

fn field(word: u32, low: u32, bits: u32) -> u32 {
    (word >> low) & ((1 << bits) - 1)
}

fn rd(word: u32) -> u32 {
    field(word, 7, 5)
}

fn rs1(word: u32) -> u32 {
    field(word, 15, 5)
}

fn rs2(word: u32) -> u32 {
    field(word, 20, 5)
}

fn funct3(word: u32) -> u32 {
    field(word, 12, 3)
}

fn funct7(word: u32) -> u32 {
    field(word, 25, 7)
}

fn sign_extend_12(bits: u32) -> u64 {
    i64::from(((bits << 20) as i32) >> 20) as u64
}

fn immediate_i(word: u32) -> u64 {
    sign_extend_12(field(word, 20, 12))
}

fn immediate_s(word: u32) -> u64 {
    sign_extend_12(field(word, 25, 7) << 5 | field(word, 7, 5))
}

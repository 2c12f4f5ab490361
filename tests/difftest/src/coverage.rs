//! What the cases have reached: each call with each answer it can give, and the situations worth a test.

use crate::accesses;
use crate::walked::Walked;
use crate::zeroing;
use difftest::calls::{answer, Call, Outcome};
use difftest::decode::{decode, Instruction, Operation, Second};
use difftest::machine::Machine;
use difftest::premise;
use difftest::scalar::Function;
use difftest::tables::{mask, operand, predicate_entry, Operand};
use std::collections::BTreeMap;
use std::fmt::Write;

/// Each call, and the answers that it can give.
const ROWS: [(&str, &[usize]); 28] = [
    ("run operation", &[0, 1, 3, 4, 6]),
    ("run move", &[0, 1, 3, 4, 6]),
    ("run load", &[0, 1, 3, 4, 5, 6, 9]),
    ("run store", &[0, 1, 3, 4, 5, 6, 9]),
    ("run unknown word", &[2, 6]),
    ("step operation", &[0, 1, 3, 4, 6]),
    ("step move", &[0, 1, 3, 4, 6]),
    ("step load", &[0, 1, 3, 4, 5, 6, 9]),
    ("step store", &[0, 1, 3, 4, 5, 6, 9]),
    ("step unknown word", &[2, 6]),
    ("fresh", &[0]),
    ("set VL", &[0, 6, 7]),
    ("set VL immediate", &[0, 6, 7]),
    ("set MVL", &[0, 6, 7]),
    ("set CFG", &[0, 6, 7]),
    ("set state word", &[0, 6, 7]),
    ("set pc", &[0, 6]),
    ("set register", &[0, 6, 8]),
    ("set register entry", &[0, 6, 8]),
    ("set predicate entry", &[0, 6, 7, 8]),
    ("read VL", &[0, 6]),
    ("read MVL", &[0, 6]),
    ("read CFG", &[0, 6]),
    ("read pc", &[0, 6]),
    ("read state word", &[0, 6]),
    ("read register", &[0, 6, 8]),
    ("read register entry", &[0, 6, 8]),
    ("read predicate entry", &[0, 6, 8]),
];

/// Situations of lists, which no single call shows.
pub mod lists {
    pub const ONE_CALL: &str = "list of allowances compared with one call";
    pub const ENDED: &str = "list that a refusal or fault ends";
    pub const COPY: &str = "copy through another machine";
}

/// A situation, and whether a call was in it.
pub type Seen = (&'static str, bool);

pub struct Coverage {
    pub calls: u64,
    pub answers: [u64; answer::COUNT],
    rows: [[u64; answer::COUNT]; ROWS.len()],
    situations: BTreeMap<&'static str, u64>,
    cfg: [u64; 32],
    vl: [u64; 65],
    mvl: [u64; 65],
    sizes: [u64; 102],
}

/// What a call did.
pub struct Made<'a> {
    pub before: &'a Machine,
    pub after: &'a Machine,
    pub call: &'a Call,
    pub outcome: Outcome,
    pub size: usize,
    pub memory_changed: bool,
}

impl Made<'_> {
    /// Registers and memory are as before.
    pub fn kept(&self) -> bool {
        self.after.registers == self.before.registers && !self.memory_changed
    }
}

impl Coverage {
    pub fn new() -> Coverage {
        Coverage {
            calls: 0,
            answers: [0; answer::COUNT],
            rows: [[0; answer::COUNT]; ROWS.len()],
            situations: [lists::ONE_CALL, lists::ENDED, lists::COPY].map(|name| (name, 0)).into(),
            cfg: [0; 32],
            vl: [0; 65],
            mvl: [0; 65],
            sizes: [0; 102],
        }
    }

    pub fn count(&mut self, made: &Made) {
        let answer = made.outcome.answer as usize;
        self.calls += 1;
        self.answers[answer] += 1;
        self.rows[row(made.call)][answer] += 1;
        if let (Some(word), 0 | 1 | 5 | 9) = (word(made.call), answer) {
            self.cfg[made.before.cfg as usize] += 1;
            self.vl[made.before.vl as usize] += 1;
            self.mvl[made.before.mvl as usize] += 1;
            self.sizes[made.size.min(101)] += 1;
            let instruction = decode(word).expect("a served word");
            self.add(&operand_situations(made, &instruction));
            if let Some(walked) = Walked::of(made, &instruction) {
                self.add(&transfer_situations(made, &walked));
                self.add(&accesses::situations(made, &instruction, &walked));
                self.add(&zeroing::situations(made, &instruction, &walked));
            }
            if let Instruction::Operation(operation) = instruction {
                self.add(&operation_situations(made, &instruction));
                self.add(&division_situations(made, &operation));
            }
        }
        if let (Some(word), 2) = (word(made.call), answer) {
            self.add(&unknown_situations(word));
        }
        if answer == 6 {
            self.add(&shape_situations(made.before));
        }
    }

    pub fn saw(&mut self, situation: &'static str) {
        self.add(&[(situation, true)]);
    }

    fn add(&mut self, seen: &[Seen]) {
        for &(name, yes) in seen {
            *self.situations.entry(name).or_insert(0) += u64::from(yes);
        }
    }

    /// What was never reached, a line each.
    pub fn missing(&self) -> Vec<String> {
        let mut missing = Vec::new();
        for (number, count) in self.answers.iter().enumerate() {
            if *count == 0 {
                missing.push(format!("answer {number}"));
            }
        }
        for ((name, answers), counts) in ROWS.iter().zip(&self.rows) {
            for &answer in answers.iter().filter(|&&answer| counts[answer] == 0) {
                missing.push(format!("{name} with answer {answer}"));
            }
        }
        missing.extend(self.situations.iter().filter(|(_, &count)| count == 0).map(|(name, _)| name.to_string()));
        missing.extend(unseen("CFG", &self.cfg, 0));
        missing.extend(unseen("VL", &self.vl, 1));
        missing.extend(unseen("MVL", &self.mvl, 1));
        missing.extend(unseen("memory size (101 for 4096)", &self.sizes, 0));
        missing
    }

    /// The counts as a table.
    pub fn table(&self) -> String {
        let mut text = String::new();
        let _ = writeln!(text, "{:22} {}", "answer", columns(&std::array::from_fn(|number| number as u64)));
        for ((name, _), counts) in ROWS.iter().zip(&self.rows) {
            let _ = writeln!(text, "{name:22} {}", columns(counts));
        }
        for (name, count) in &self.situations {
            let _ = writeln!(text, "{name:48} {count:9}");
        }
        text
    }
}

fn columns(counts: &[u64; answer::COUNT]) -> String {
    counts.iter().map(|count| format!("{count:9}")).collect()
}

fn unseen(name: &str, counts: &[u64], from: usize) -> Vec<String> {
    (from..counts.len()).filter(|&value| counts[value] == 0).map(|value| format!("{name} {value}")).collect()
}

fn word(call: &Call) -> Option<u32> {
    match *call {
        Call::Run { word, .. } | Call::Step { word } => Some(word),
        _ => None,
    }
}

fn kind(word: u32) -> usize {
    match decode(word) {
        Some(Instruction::Operation(_)) => 0,
        Some(Instruction::Move(_)) => 1,
        Some(Instruction::Load(_)) => 2,
        Some(Instruction::Store(_)) => 3,
        None => 4,
    }
}

fn row(call: &Call) -> usize {
    match *call {
        Call::Run { word, .. } => kind(word),
        Call::Step { word } => 5 + kind(word),
        Call::Fresh => 10,
        Call::SetVl(..) => 11,
        Call::SetVlImmediate(..) => 12,
        Call::SetMvl(..) => 13,
        Call::SetCfg(..) => 14,
        Call::SetStateWord(..) => 15,
        Call::SetPc(..) => 16,
        Call::SetRegister(..) => 17,
        Call::SetRegisterEntry(..) => 18,
        Call::SetPredicateEntry(..) => 19,
        Call::ReadVl => 20,
        Call::ReadMvl => 21,
        Call::ReadCfg => 22,
        Call::ReadPc => 23,
        Call::ReadStateWord => 24,
        Call::ReadRegister(..) => 25,
        Call::ReadRegisterEntry(..) => 26,
        Call::ReadPredicateEntry(..) => 27,
    }
}

fn operation_situations(made: &Made, instruction: &Instruction) -> Vec<Seen> {
    let rd = instruction.written().expect("an operation writes a register");
    let mask = mask(made.before, rd);
    let masked = predicate_entry(made.before, rd).is_some();
    let ran = made.after != made.before;
    vec![
        ("operation that writes a masked element as zero", ran && mask.zeroing && !mask.on(made.before.destination)),
        ("operation with a scalar destination and a mask", ran && masked && !operand(made.before, rd).is_vector()),
    ]
}

/// The operands of the elements that an operation on two registers computed, where it left both as they were.
fn elements(made: &Made, operation: &Operation) -> Vec<(u64, u64)> {
    let Second::Register(rs2) = operation.second else {
        return Vec::new();
    };
    let [rd, first, second] = [operation.rd, operation.rs1, rs2].map(|key| operand(made.before, key));
    let mask = mask(made.before, operation.rd);
    let end = if made.outcome.answer == 1 { made.after.destination } else { made.before.vl };
    let most = if rd.is_vector() { usize::MAX } else { 1 };
    let kept = |register: usize| {
        let value = made.before.read(register);
        (made.after.read(register) == value).then_some(value)
    };
    let on = (made.before.destination..end).filter(|&position| mask.on(position)).take(most);
    on.filter_map(|position| Some((kept(first.at(position))?, kept(second.at(position))?))).collect()
}

/// Divisions at which the manual gives the result by a rule of its own.
fn division_situations(made: &Made, operation: &Operation) -> Vec<Seen> {
    let elements = elements(made, operation);
    let by_zero = elements.iter().any(|&(_, b)| if operation.w { b as u32 == 0 } else { b == 0 });
    let overflows = elements.iter().any(|&(a, b)| {
        if operation.w {
            a as i32 == i32::MIN && b as i32 == -1
        } else {
            a as i64 == i64::MIN && b as i64 == -1
        }
    });
    let signed = matches!(operation.function, Function::Div | Function::Rem);
    let is = |function, w| operation.function == function && operation.w == w;
    vec![
        ("DIV by zero", is(Function::Div, false) && by_zero),
        ("DIVU by zero", is(Function::Divu, false) && by_zero),
        ("REM by zero", is(Function::Rem, false) && by_zero),
        ("REMU by zero", is(Function::Remu, false) && by_zero),
        ("DIVW by zero", is(Function::Div, true) && by_zero),
        ("DIVUW by zero", is(Function::Divu, true) && by_zero),
        ("REMW by zero", is(Function::Rem, true) && by_zero),
        ("REMUW by zero", is(Function::Remu, true) && by_zero),
        ("DIV or REM of the most negative by -1", signed && !operation.w && overflows),
        ("DIVW or REMW of the most negative by -1", signed && operation.w && overflows),
    ]
}

/// Neighbours of RV64M, by opcode, funct3 and funct7.
fn unknown_situations(word: u32) -> Vec<Seen> {
    let (opcode, funct3, funct7) = (word & 0x7F, word >> 12 & 7, word >> 25);
    let near = (funct7 ^ 1).count_ones() == 1;
    vec![
        ("unknown: MULH, MULHSU or MULHU as a W form", opcode == 0x3B && funct7 == 1 && (1..=3).contains(&funct3)),
        ("unknown: RV64M with another bit of funct7", opcode == 0x33 && near),
        ("unknown: a W form of RV64M with another bit of funct7", opcode == 0x3B && near),
    ]
}

fn transfer_situations(made: &Made, walked: &Walked) -> Vec<Seen> {
    let (source, destination) = (&walked.transfer.source, &walked.transfer.destination);
    let skips = walked.first().is_some_and(|pair| {
        source.walks && pair.source > made.before.source
            || destination.walks && pair.destination > made.before.destination
    });
    vec![
        ("transfer on which both sides walk", walked.first().is_some() && source.walks && destination.walks),
        ("transfer that skips", skips),
        ("transfer that ends with nothing done", made.outcome.answer == answer::DONE && walked.done.is_empty()),
    ]
}

fn operand_situations(made: &Made, instruction: &Instruction) -> Vec<Seen> {
    let named = instruction.named();
    let entries: Vec<u16> = named.iter().filter_map(|&key| predicate_entry(made.before, key)).collect();
    let vectors: Vec<usize> =
        named.iter().map(|&key| operand(made.before, key)).filter(|it| it.is_vector()).map(|it| it.first()).collect();
    let overlap = |a: usize, b: usize| a != b && a.abs_diff(b) < made.before.vl as usize;
    let written = premise::may_write(made.before, instruction);
    let scalar = |key: &u32| matches!(operand(made.before, *key), Operand::Scalar(_));
    let ran = made.after != made.before;
    vec![
        ("mask register 0", ran && entries.iter().any(|entry| entry >> 1 & 127 == 0)),
        ("inverted mask", ran && entries.iter().any(|entry| entry >> 9 & 1 == 1)),
        (
            "mask among the registers written",
            ran && entries.iter().any(|entry| written.contains(&usize::from(entry >> 1 & 127))),
        ),
        ("redirected scalar", ran && named.iter().any(scalar)),
        ("two vectors that overlap", ran && vectors.iter().any(|&a| vectors.iter().any(|&b| overlap(a, b)))),
        ("start at an offset", ran && (made.before.source != 0 || made.before.destination != 0)),
        ("pause", ran && made.outcome.answer == 1),
        ("program counter that wraps", made.outcome.answer == 0 && made.after.pc < made.before.pc),
    ]
}

/// The reasons of answer 6.
fn shape_situations(machine: &Machine) -> Vec<Seen> {
    let control = [machine.mvl, machine.vl, machine.cfg, machine.source, machine.destination];
    vec![
        ("refused: MVL 0", machine.mvl == 0),
        ("refused: MVL above 64", machine.mvl > 64),
        ("refused: VL 0", machine.vl == 0),
        ("refused: VL above MVL", machine.vl > machine.mvl),
        ("refused: CFG above 31", machine.cfg > 31),
        ("refused: source offset not below VL", machine.source >= machine.vl),
        ("refused: destination offset not below VL", machine.destination >= machine.vl),
        ("refused: register 0 not 0", machine.registers[0] != 0),
        ("refused: bit 0 of a predicate entry", machine.predicate_table.iter().any(|entry| entry & 1 == 1)),
        (
            "refused: control word in shape in its low 32 bits",
            control.iter().any(|&it| it >> 32 != 0 && it << 32 >> 32 < 65),
        ),
    ]
}

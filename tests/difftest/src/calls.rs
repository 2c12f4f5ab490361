//! Every call on a machine, and what it says.

use crate::machine::{Machine, ELEMENTS, ENTRIES, LAST_CFG, REGISTERS};
use crate::state_word;
use crate::walk;

pub mod answer {
    pub const DONE: u32 = 0;
    pub const PAUSED: u32 = 1;
    pub const UNKNOWN_WORD: u32 = 2;
    pub const PAST_REGISTERS: u32 = 3;
    pub const BAD_WIDTH: u32 = 4;
    pub const FAULT: u32 = 5;
    pub const OUT_OF_SHAPE: u32 = 6;
    pub const BAD_VALUE: u32 = 7;
    pub const NO_SUCH: u32 = 8;
    pub const MISALIGNED: u32 = 9;

    /// How many there are.
    pub const COUNT: usize = 10;

    /// Whether an access was refused; the value is its address then.
    pub fn is_memory_fault(number: u32) -> bool {
        matches!(number, FAULT | MISALIGNED)
    }
}

#[derive(Clone, Copy, PartialEq, Eq, Debug)]
pub struct Outcome {
    pub answer: u32,
    /// The value that a setting or reading call returns, or the address of a memory fault.
    pub value: u64,
}

impl Outcome {
    pub fn of(answer: u32) -> Outcome {
        Outcome { answer, value: 0 }
    }
}

#[derive(Clone, Copy, PartialEq, Eq, Debug)]
pub enum Call {
    Fresh,
    Run { word: u32, allowance: u16 },
    Step { word: u32 },
    SetVl(u64),
    SetVlImmediate(u32),
    SetMvl(u32),
    SetCfg(u32),
    SetStateWord(u32),
    SetPc(u64),
    SetRegister(u32, u64),
    SetRegisterEntry(u32, u16),
    SetPredicateEntry(u32, u16),
    ReadVl,
    ReadMvl,
    ReadCfg,
    ReadPc,
    ReadStateWord,
    ReadRegister(u32),
    ReadRegisterEntry(u32),
    ReadPredicateEntry(u32),
}

/// The value that an accepted call returns, or the number of a refusal.
type Said = Result<u64, u32>;

pub fn call(machine: &mut Machine, memory: &mut [u8], call: &Call) -> Outcome {
    match *call {
        Call::Fresh => {
            *machine = Machine::fresh();
            Outcome::of(answer::DONE)
        }
        Call::Run { word, allowance } => walk::run(machine, memory, word, allowance),
        Call::Step { word } => walk::run(machine, memory, word, 1),
        _ if !machine.in_shape() => Outcome::of(answer::OUT_OF_SHAPE),
        _ => match set_or_read(machine, call) {
            Ok(value) => Outcome { answer: answer::DONE, value },
            Err(refusal) => Outcome::of(refusal),
        },
    }
}

fn set_or_read(machine: &mut Machine, call: &Call) -> Said {
    match *call {
        Call::SetVl(n) => set_vl(machine, n),
        Call::SetVlImmediate(n) => set_vl_immediate(machine, n),
        Call::SetMvl(n) => set_mvl(machine, n),
        Call::SetCfg(n) => set_cfg(machine, n),
        Call::SetStateWord(word) => set_state_word(machine, word),
        Call::SetPc(pc) => {
            machine.pc = pc;
            Ok(0)
        }
        Call::SetRegister(index, value) => {
            let register = below(index, REGISTERS)?;
            machine.write(register, value);
            Ok(0)
        }
        Call::SetRegisterEntry(index, entry) => {
            machine.register_table[below(index, ENTRIES)?] = entry;
            Ok(0)
        }
        Call::SetPredicateEntry(index, entry) => set_predicate_entry(machine, index, entry),
        Call::ReadVl => Ok(machine.vl),
        Call::ReadMvl => Ok(machine.mvl),
        Call::ReadCfg => Ok(machine.cfg),
        Call::ReadPc => Ok(machine.pc),
        Call::ReadStateWord => Ok(state_word::pack(machine)),
        Call::ReadRegister(index) => Ok(machine.read(below(index, REGISTERS)?)),
        Call::ReadRegisterEntry(index) => Ok(u64::from(machine.register_table[below(index, ENTRIES)?])),
        Call::ReadPredicateEntry(index) => Ok(u64::from(machine.predicate_table[below(index, ENTRIES)?])),
        Call::Fresh | Call::Run { .. } | Call::Step { .. } => unreachable!("neither a setting nor a reading"),
    }
}

fn below(index: u32, count: usize) -> Result<usize, u32> {
    let index = index as usize;
    if index < count {
        Ok(index)
    } else {
        Err(answer::NO_SUCH)
    }
}

fn good(condition: bool) -> Result<(), u32> {
    if condition {
        Ok(())
    } else {
        Err(answer::BAD_VALUE)
    }
}

fn set_vl(machine: &mut Machine, n: u64) -> Said {
    good(n >= 1)?;
    machine.vl = n.min(machine.mvl);
    machine.source = 0;
    machine.destination = 0;
    Ok(machine.vl)
}

fn set_vl_immediate(machine: &mut Machine, n: u32) -> Said {
    good(n <= 31)?;
    set_vl(machine, u64::from(n) + 1)
}

fn set_mvl(machine: &mut Machine, n: u32) -> Said {
    let n = u64::from(n);
    good((1..=ELEMENTS).contains(&n))?;
    machine.mvl = n;
    machine.vl = machine.vl.min(n);
    machine.source = 0;
    machine.destination = 0;
    Ok(0)
}

fn set_cfg(machine: &mut Machine, n: u32) -> Said {
    good(u64::from(n) <= LAST_CFG)?;
    machine.cfg = u64::from(n);
    Ok(0)
}

fn set_state_word(machine: &mut Machine, word: u32) -> Said {
    *machine = state_word::unpack(machine, word).ok_or(answer::BAD_VALUE)?;
    Ok(0)
}

fn set_predicate_entry(machine: &mut Machine, index: u32, entry: u16) -> Said {
    let index = below(index, ENTRIES)?;
    good(entry & 1 == 0)?;
    machine.predicate_table[index] = entry;
    Ok(0)
}

//! One random case: a run, a list of cuts, or a row of calls of every sort.

use crate::coverage::lists;
use crate::dump;
use crate::machines;
use crate::pair::{Bench, Difference, Pair};
use crate::random::Random;
use crate::settings;
use crate::words;
use difftest::calls::{answer, Call, Outcome};
use difftest::machine::{Machine, ENTRIES, REGISTERS};
use difftest::premise;

pub fn case(bench: &mut Bench, seed: u64, number: u64) -> Result<(), Difference> {
    let random = &mut Random::new(seed, number);
    match random.below(100) {
        0..=59 => one_run(bench, random),
        60..=79 => list(bench, random),
        _ => row(bench, random),
    }
}

fn memory(random: &mut Random) -> Vec<u8> {
    let mut memory = vec![0; machines::memory_size(random)];
    random.fill(&mut memory);
    memory
}

fn allowance(random: &mut Random, vl: u64) -> u16 {
    let units = match random.below(10) {
        0 => 0,
        1 => 1,
        2 => random.between(2, 6),
        3 => vl.wrapping_sub(1),
        4 => vl,
        5 => random.below(80),
        6 => random.word(),
        _ => 65535,
    };
    units as u16
}

fn run_or_step(random: &mut Random, word: u32, vl: u64) -> Call {
    if random.percent(30) {
        Call::Step { word }
    } else {
        Call::Run { word, allowance: allowance(random, vl) }
    }
}

fn one_run(bench: &mut Bench, random: &mut Random) -> Result<(), Difference> {
    let word = words::any(random);
    let memory = memory(random);
    let machine = machines::any(random, word, memory.len());
    let call = run_or_step(random, word, machine.vl);
    Pair::new(&machine, &memory).call(bench, &call).map(|_| ())
}

/// A row of settings, readings and runs on one machine.
fn row(bench: &mut Bench, random: &mut Random) -> Result<(), Difference> {
    let word = words::any(random);
    let memory = memory(random);
    let machine = machines::any(random, word, memory.len());
    let mut pair = Pair::new(&machine, &memory);
    if random.percent(10) {
        pair.call(bench, &Call::Fresh)?;
    }
    for _ in 0..random.between(1, 12) {
        let call = match random.below(10) {
            0..=4 => settings::setting(random, word, pair.machine.vl),
            5..=7 => settings::reading(random),
            _ => run_or_step(random, word, pair.machine.vl),
        };
        pair.call(bench, &call)?;
    }
    Ok(())
}

/// A list of allowances, called while the last call paused; then one call with their sum, if demand 3 speaks of it.
fn list(bench: &mut Bench, random: &mut Random) -> Result<(), Difference> {
    let word = if random.percent(97) { words::served(random) } else { words::any(random) };
    let memory = memory(random);
    let start = machines::in_shape(random, word, memory.len());
    let allowances: Vec<u16> =
        (0..random.between(2, 7)).map(|_| random.below(1 + start.vl.min(24)) as u16 * 2 / 3).collect();
    let mut pair = Pair::new(&start, &memory);
    let mut outcome = Outcome::of(answer::PAUSED);
    for &allowance in &allowances {
        outcome = pair.call(bench, &Call::Run { word, allowance })?;
        if outcome.answer != answer::PAUSED {
            break;
        }
        if random.percent(25) {
            pair = copied(bench, random, pair, word)?;
        }
    }
    if !matches!(outcome.answer, answer::DONE | answer::PAUSED) {
        bench.coverage.saw(lists::ENDED);
    }
    if premise::holds(&start, word) {
        bench.coverage.saw(lists::ONE_CALL);
        let sum = allowances.iter().sum();
        let mut whole = Pair::new(&start, &memory);
        let said = whole.call(bench, &Call::Run { word, allowance: sum })?;
        same_end((&pair, outcome), (&whole, said), &allowances)?;
    }
    Ok(())
}

fn same_end(cut: (&Pair, Outcome), whole: (&Pair, Outcome), allowances: &[u16]) -> Result<(), Difference> {
    if cut.1 == whole.1 && cut.0.machine == whole.0.machine && cut.0.memory == whole.0.memory {
        return Ok(());
    }
    let numbers = dump::numbers("after", "cut", &cut.0.machine, "one call", &whole.0.machine);
    let said = format!("cut {:X?}, one call {:X?}", cut.1, whole.1);
    Err(Difference(format!("the allowances {allowances:?} do not give what their sum gives\n{said}\n{numbers}")))
}

/// Every register, the program counter, both tables and the state word, read by calls and set by calls in another
/// machine in shape.
fn copied(bench: &mut Bench, random: &mut Random, mut from: Pair, word: u32) -> Result<Pair, Difference> {
    bench.coverage.saw(lists::COPY);
    let host: Machine = machines::in_shape(random, word, from.memory.len());
    let mut to = Pair::new(&host, &from.memory);
    let state = from.call(bench, &Call::ReadStateWord)?.value;
    to.call(bench, &Call::SetStateWord(state as u32))?;
    for index in 0..REGISTERS as u32 {
        let value = from.call(bench, &Call::ReadRegister(index))?.value;
        to.call(bench, &Call::SetRegister(index, value))?;
    }
    for index in 0..ENTRIES as u32 {
        let entry = from.call(bench, &Call::ReadRegisterEntry(index))?.value;
        to.call(bench, &Call::SetRegisterEntry(index, entry as u16))?;
        let entry = from.call(bench, &Call::ReadPredicateEntry(index))?.value;
        to.call(bench, &Call::SetPredicateEntry(index, entry as u16))?;
    }
    let pc = from.call(bench, &Call::ReadPc)?.value;
    to.call(bench, &Call::SetPc(pc))?;
    if to.machine == from.machine {
        return Ok(to);
    }
    let numbers = dump::numbers("after", "read out", &from.machine, "written back", &to.machine);
    Err(Difference(format!("a copy by the calls changed the machine\n{numbers}")))
}

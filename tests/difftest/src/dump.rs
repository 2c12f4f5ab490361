//! A difference, written for a reader.

use crate::coverage::Made;
use difftest::calls::{Call, Outcome};
use difftest::decode::decode;
use difftest::machine::Machine;
use std::fmt::Write;

/// The machine before the call, the call, and what differs after it; memories are before, model and library.
pub fn of(made: &Made, (said, lent): (Outcome, Machine), memories: [&[u8]; 3]) -> String {
    let mut text = String::new();
    let _ = writeln!(text, "call: {:X?}", made.call);
    if let Call::Run { word, .. } | Call::Step { word } = *made.call {
        let _ = writeln!(text, "word {word:08X}: {:X?}", decode(word));
    }
    let _ = writeln!(text, "memory: {} bytes", memories[0].len());
    let _ = write!(text, "before:\n{}", machine(made.before));
    let _ = writeln!(text, "model:   {:X?}", made.outcome);
    let _ = writeln!(text, "library: {said:X?}");
    text += &numbers("after", "model", made.after, "library", &lent);
    text += &bytes(memories);
    text
}

fn machine(it: &Machine) -> String {
    let mut text = String::new();
    let _ = writeln!(
        text,
        "  pc {:X} MVL {} VL {} CFG {} source {} destination {}",
        it.pc, it.mvl, it.vl, it.cfg, it.source, it.destination
    );
    for (name, table) in [("register entry", it.register_table), ("predicate entry", it.predicate_table)] {
        for (index, entry) in table.iter().enumerate().filter(|(_, &entry)| entry != 0) {
            let _ = writeln!(text, "  {name} {index}: {entry:04X}");
        }
    }
    for (index, value) in it.registers.iter().enumerate().filter(|(_, &value)| value != 0) {
        let _ = writeln!(text, "  x{index} {value:X}");
    }
    text
}

/// Every number of a machine with its name.
fn named(it: &Machine) -> Vec<(String, u64)> {
    let mut all = vec![
        ("pc".to_string(), it.pc),
        ("MVL".to_string(), it.mvl),
        ("VL".to_string(), it.vl),
        ("CFG".to_string(), it.cfg),
        ("source offset".to_string(), it.source),
        ("destination offset".to_string(), it.destination),
    ];
    all.extend(it.registers.iter().enumerate().map(|(i, &value)| (format!("x{i}"), value)));
    all.extend(it.register_table.iter().enumerate().map(|(i, &entry)| (format!("register entry {i}"), entry.into())));
    all.extend(it.predicate_table.iter().enumerate().map(|(i, &entry)| (format!("predicate entry {i}"), entry.into())));
    all
}

/// The numbers in which two machines differ.
pub fn numbers(when: &str, left: &str, a: &Machine, right: &str, b: &Machine) -> String {
    let mut text = String::new();
    for ((name, x), (_, y)) in named(a).into_iter().zip(named(b)).filter(|(x, y)| x.1 != y.1) {
        let _ = writeln!(text, "{when}: {name} is {x:X} ({left}), {y:X} ({right})");
    }
    text
}

fn bytes([before, model, library]: [&[u8]; 3]) -> String {
    let mut text = String::new();
    for (at, ((a, b), c)) in before.iter().zip(model).zip(library).enumerate().filter(|(_, ((_, b), c))| b != c) {
        let _ = writeln!(text, "memory {at}: {a:02X} before, {b:02X} (model), {c:02X} (library)");
    }
    text
}

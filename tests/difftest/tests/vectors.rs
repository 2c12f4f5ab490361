//! The results of a real RV64 implementation, on the model: a word on x5, x6 and x7, the two values, the result.

use difftest::calls::{call, Call};
use difftest::machine::Machine;

const FOLDER: &str = concat!(env!("CARGO_MANIFEST_DIR"), "/../../crates/test_vectors/data");

fn agrees(line: &str) -> bool {
    let numbers: Vec<u64> = line.split(' ').map(|text| u64::from_str_radix(text, 16).expect("a number")).collect();
    let [word, first, second, result] = numbers[..] else {
        panic!("not a vector: {line}");
    };
    let mut machine = Machine::fresh();
    machine.registers[6] = first;
    machine.registers[7] = second;
    let outcome = call(&mut machine, &mut [], &Call::Step { word: word as u32 });
    outcome.answer == 0 && machine.registers[5] == result
}

fn every_result(name: &str, count: usize) {
    let text = std::fs::read_to_string(format!("{FOLDER}/{name}")).expect("the vectors of the repository");
    let wrong: Vec<&str> = text.lines().filter(|line| !agrees(line)).collect();
    assert!(wrong.is_empty(), "{} differ, the first: {}", wrong.len(), wrong[0]);
    assert_eq!(text.lines().count(), count);
}

#[test]
fn rv64i() {
    every_result("rv64i.txt", 9254);
}

#[test]
fn rv64m() {
    every_result("rv64m.txt", 6149);
}

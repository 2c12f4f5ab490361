//! The bench readings P1 to P12 of the requirements, and why demand 3 has its premise, on the model.

mod common;

use common::{ALL, DONE, PAUSED};
use difftest::calls::{call, Call, Outcome};
use difftest::machine::Machine;
use difftest::tables::enabled;

const ADD: u32 = 0x007302B3; // ADD x5, x6, x7
const MOVE: u32 = 0x829A; // C.MV x5, x6
const LOAD: u32 = 0x00833283; // LD x5, 8(x6)

/// The machine of the readings before its run: x5 is the vector 40.., x6 the vector 50.., VL is 4.
fn base() -> Machine {
    let mut machine = Machine::fresh();
    let settings = [
        Call::SetStateWord(0x180000C3),
        Call::SetRegisterEntry(0, 0xA885),
        Call::SetRegisterEntry(1, 0xB286),
        Call::SetRegister(7, 10),
        Call::SetRegister(50, 1),
        Call::SetRegister(51, 2),
        Call::SetRegister(52, 3),
        Call::SetRegister(53, 4),
    ];
    for setting in settings {
        assert_eq!(call(&mut machine, &mut [], &setting), DONE);
    }
    machine
}

fn run(machine: &mut Machine, word: u32, allowance: u16) -> Outcome {
    call(machine, &mut [], &Call::Run { word, allowance })
}

/// The base with a predicate entry, its mask register x3, and old values in the destination.
fn masked(entry: u16, bits: u64, old: u64) -> Machine {
    let mut machine = base();
    machine.predicate_table[0] = entry;
    machine.registers[3] = bits;
    machine.registers[40..44].fill(old);
    machine
}

#[test]
fn p1_all_elements() {
    let mut machine = base();
    assert_eq!(run(&mut machine, ADD, ALL), DONE);
    assert_eq!(machine.registers[40..44], [11, 12, 13, 14]);
    assert_eq!((machine.pc, machine.source, machine.destination), (4, 0, 0));
}

#[test]
fn p2_masked_elements_stay() {
    let mut machine = masked(0x2906, 5, 9);
    assert_eq!(run(&mut machine, ADD, ALL), DONE);
    assert_eq!(machine.registers[40..44], [11, 9, 13, 9]);
}

#[test]
fn p3_masked_elements_become_zero() {
    let mut machine = masked(0x2D06, 5, 9);
    assert_eq!(run(&mut machine, ADD, ALL), DONE);
    assert_eq!(machine.registers[40..44], [11, 0, 13, 0]);
}

#[test]
fn p4_paused_after_two() {
    let mut machine = base();
    assert_eq!(run(&mut machine, ADD, 2), PAUSED);
    assert_eq!(machine.registers[40..44], [11, 12, 0, 0]);
    assert_eq!((machine.pc, machine.source, machine.destination), (0, 2, 2));
}

#[test]
fn p5_untagged_destination_obeys_its_mask() {
    let mut machine = masked(0x2906, 4, 0);
    machine.register_table[0] = 0;
    assert_eq!(run(&mut machine, ADD, ALL), DONE);
    assert_eq!(machine.registers[5], 13);
}

#[test]
fn p6_source_mask_compresses() {
    let mut machine = masked(0x3106, 0b1010, 0);
    assert_eq!(run(&mut machine, MOVE, ALL), DONE);
    assert_eq!(machine.registers[40..44], [2, 4, 0, 0]);
    assert_eq!(machine.pc, 2);
}

#[test]
fn p7_destination_mask_expands() {
    let mut machine = masked(0x2906, 0b1000, 0);
    assert_eq!(run(&mut machine, MOVE, ALL), DONE);
    assert_eq!(machine.registers[40..44], [0, 0, 0, 1]);
}

#[test]
fn p8_empty_destination_mask_ends() {
    let mut machine = masked(0x2906, 0, 9);
    assert_eq!(run(&mut machine, MOVE, 1), DONE);
    assert_eq!(machine.registers[40..44], [9; 4]);
    assert_eq!(machine.pc, 2);
}

#[test]
fn p9_fault_stands_at_the_failing_pair() {
    let mut start = base();
    start.register_table[1] = 0;
    start.registers[6] = 16;
    start.vl = 3;
    let load = Call::Run { word: LOAD, allowance: ALL };
    let mut memory: Vec<u8> = (0..48).collect();
    let mut machine = start.clone();
    assert_eq!(call(&mut machine, &mut memory[..40], &load), Outcome { answer: 5, value: 40 });
    assert_eq!((machine.pc, machine.source, machine.destination), (0, 2, 2));
    assert_eq!(machine.registers[40..43], [0x1F1E1D1C1B1A1918, 0x2726252423222120, 0]);
    let mut machine = start;
    assert_eq!(call(&mut machine, &mut memory, &load), DONE);
    assert_eq!(machine.registers[42], 0x2F2E2D2C2B2A2928);
}

#[test]
fn p10_state_word() {
    let mut machine = Machine { mvl: 64, vl: 10, source: 3, destination: 5, ..Machine::fresh() };
    let read = call(&mut machine, &mut [], &Call::ReadStateWord);
    assert_eq!(read, Outcome { answer: 0, value: 0x1814327F });
    let mut written = Machine::fresh();
    assert_eq!(call(&mut written, &mut [], &Call::SetStateWord(0x1814327F)), DONE);
    assert_eq!(written, machine);
}

#[test]
fn p11_enabled_entries() {
    assert_eq!(enabled(9), 2..6);
    assert_eq!(enabled(15), 14..16);
    assert!(enabled(31).is_empty());
    assert_eq!(enabled(24), 0..16);
}

#[test]
fn p12_last_vector_that_fits() {
    let mut machine = base();
    (machine.mvl, machine.vl) = (64, 64);
    machine.register_table[1] = 0;
    machine.register_table[0] = 0x8085 | 64 << 8;
    assert_eq!(run(&mut machine, ADD, ALL), DONE);
    assert_eq!(machine.registers[64..128], [10; 64]);
    machine.register_table[0] = 0x8085 | 65 << 8;
    let before = machine.clone();
    assert_eq!(run(&mut machine, ADD, ALL).answer, 3);
    assert_eq!(machine, before);
}

/// The mask register is among the registers written: cut after 2, elements 2 and 3 are off.
#[test]
fn why_the_premise_is_there() {
    let mut start = masked(0x2900 | 41 << 1, 0, 0);
    start.registers[7] = 1;
    start.registers[41] = 15;
    let mut uncut = start.clone();
    assert_eq!(run(&mut uncut, ADD, ALL), DONE);
    assert_eq!(uncut.registers[40..44], [2, 3, 4, 5]);
    let mut cut = start;
    assert_eq!(run(&mut cut, ADD, 2), PAUSED);
    assert_eq!(run(&mut cut, ADD, ALL), DONE);
    assert_eq!(cut.registers[40..44], [2, 3, 0, 0]);
}

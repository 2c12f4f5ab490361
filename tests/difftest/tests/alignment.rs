//! The alignment rule, on the model: which accesses are misaligned, what comes first, and what a call leaves behind.

mod common;

use common::{load, misaligned, outside, store, ALL, DONE, PAUSED};
use difftest::calls::{call, Call, Outcome};
use difftest::machine::Machine;

/// A word on a fresh machine, whose x6 is the base.
fn scalar(word: u32, base: u64, size: usize) -> Outcome {
    let mut machine = Machine::fresh();
    machine.registers[6] = base;
    call(&mut machine, &mut vec![0; size], &Call::Step { word })
}

/// x5 is the vector 40.., x6 the vector 50.. with these addresses, VL is 4.
fn vector(addresses: [u64; 4]) -> Machine {
    let mut machine = Machine { mvl: 4, vl: 4, ..Machine::fresh() };
    machine.register_table[..2].copy_from_slice(&[0xA885, 0xB286]);
    machine.registers[50..54].copy_from_slice(&addresses);
    machine
}

#[test]
fn every_width_at_every_address() {
    for (funct3, bytes) in [(0, 1), (1, 2), (2, 4), (3, 8), (4, 1), (5, 2), (6, 4)] {
        for address in 0..24 {
            let wanted = if address % bytes == 0 { DONE } else { misaligned(address) };
            assert_eq!(scalar(load(funct3, 0), address, 32), wanted, "load {funct3} at {address}");
            if funct3 < 4 {
                assert_eq!(scalar(store(funct3, 0), address, 32), wanted, "store {funct3} at {address}");
            }
        }
    }
}

#[test]
fn misaligned_comes_before_outside() {
    assert_eq!(scalar(load(3, 0), 28, 32), misaligned(28));
    assert_eq!(scalar(load(3, 0), 32, 32), outside(32));
    assert_eq!(scalar(store(1, 0), u64::MAX, 32), misaligned(u64::MAX));
    assert_eq!(scalar(store(1, 0), u64::MAX - 1, 32), outside(u64::MAX - 1));
    assert_eq!(scalar(load(0, 0), u64::MAX, 32), outside(u64::MAX));
    assert_eq!(scalar(load(3, 0), 4, 0), misaligned(4));
}

#[test]
fn the_wrapped_sum_is_tested() {
    assert_eq!(scalar(load(3, 3), u64::MAX - 2, 32), DONE);
    assert_eq!(scalar(load(3, 11), u64::MAX - 2, 32), DONE);
    assert_eq!(scalar(load(3, 7), u64::MAX - 2, 32), misaligned(4));
    assert_eq!(scalar(load(3, 4), 8, 32), misaligned(12));
    assert_eq!(scalar(load(3, 4), 4, 32), DONE);
}

#[test]
fn an_earlier_element_comes_first() {
    let mut machine = vector([0, 32, 1, 40]);
    let word = load(3, 0);
    let mut memory = [7; 32];
    let mut run = |machine: &mut Machine| call(machine, &mut memory, &Call::Run { word, allowance: ALL });
    assert_eq!(run(&mut machine), outside(32));
    machine.registers[51] = 8;
    assert_eq!(run(&mut machine), misaligned(1));
    machine.registers[52] = 16;
    assert_eq!(run(&mut machine), outside(40));
}

#[test]
fn a_misaligned_element_keeps_those_before_it() {
    let mut machine = vector([8, 0, 20, 16]);
    let mut memory: Vec<u8> = (0..24).collect();
    let word = load(3, 0);
    for (allowance, wanted) in [(0, PAUSED), (1, PAUSED), (ALL, misaligned(20)), (1, misaligned(20))] {
        assert_eq!(call(&mut machine, &mut memory, &Call::Run { word, allowance }), wanted);
    }
    assert_eq!(machine.registers[40..44], [0x0F0E0D0C0B0A0908, 0x0706050403020100, 0, 0]);
    assert_eq!((machine.pc, machine.source, machine.destination), (0, 2, 2));
    machine.registers[52] = 8;
    assert_eq!(call(&mut machine, &mut memory, &Call::Run { word, allowance: ALL }), DONE);
    assert_eq!(machine.registers[42..44], [0x0F0E0D0C0B0A0908, 0x1716151413121110]);
    assert_eq!((machine.pc, machine.source, machine.destination), (4, 0, 0));
}

#[test]
fn a_misaligned_store_writes_nothing() {
    let mut machine = vector([0, 9, 16, 24]);
    machine.registers[40..44].fill(u64::MAX);
    let mut memory = [7; 32];
    let before = (machine.registers, machine.pc);
    assert_eq!(call(&mut machine, &mut memory, &Call::Run { word: store(3, 0), allowance: ALL }), misaligned(9));
    assert_eq!((machine.registers, machine.pc), before);
    assert_eq!((machine.source, machine.destination), (1, 1));
    assert_eq!(memory[..8], [255; 8]);
    assert_eq!(memory[8..], [7; 24]);
}

#[test]
fn a_position_that_is_skipped_is_not_tested() {
    let mut machine = vector([1, 8, 3, 12]);
    machine.predicate_table[0] = 0x3106;
    machine.registers[3] = 0b1010;
    let mut memory = [7; 32];
    let run = Call::Run { word: load(3, 0), allowance: ALL };
    assert_eq!(call(&mut machine, &mut memory, &run), misaligned(12));
    assert_eq!((machine.source, machine.destination), (3, 1));
}

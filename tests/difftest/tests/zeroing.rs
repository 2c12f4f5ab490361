//! Zeroing on moves, loads and stores, on the model: what is written at an off position, what is accessed, and where it
//! ends.

mod common;

use common::{load, misaligned, outside, store, ALL, DONE, PAUSED};
use difftest::calls::{call, Call, Outcome};
use difftest::machine::Machine;

const MOVE: u32 = 0x829A; // C.MV x5, x6

/// Predicate entries: x5 with mask x3, x6 with mask x4.
const X5: u16 = 0x2906;
const X6: u16 = 0x3108;
const ZEROING: u16 = 0x0400;

/// x5 is the vector 40.. of nines, x6 the vector 50.. of 1, 2, 3, 4, VL is 4; with these masks.
fn masked(entries: [u16; 2], masks: [u64; 2]) -> Machine {
    let mut machine = Machine { mvl: 4, vl: 4, ..Machine::fresh() };
    machine.register_table[..2].copy_from_slice(&[0xA885, 0xB286]);
    machine.registers[40..44].fill(9);
    machine.registers[50..54].copy_from_slice(&[1, 2, 3, 4]);
    machine.predicate_table[..2].copy_from_slice(&entries);
    machine.registers[3..5].copy_from_slice(&masks);
    machine
}

fn run(machine: &mut Machine, memory: &mut [u8], word: u32) -> Outcome {
    call(machine, memory, &Call::Run { word, allowance: ALL })
}

/// The four destination registers after a move.
fn moved(mut machine: Machine) -> [u64; 4] {
    assert_eq!(run(&mut machine, &mut [], MOVE), DONE);
    assert_eq!((machine.pc, machine.source, machine.destination), (2, 0, 0));
    machine.registers[40..44].try_into().expect("four")
}

/// Offsets, source first.
fn offsets(machine: &Machine) -> (u64, u64) {
    (machine.source, machine.destination)
}

#[test]
fn an_off_destination_receives_0() {
    assert_eq!(moved(masked([X5 | ZEROING, 0], [0b0101, 0])), [1, 0, 3, 0]);
    assert_eq!(moved(masked([X5, 0], [0b0101, 0])), [1, 9, 2, 9]);
}

#[test]
fn an_off_source_supplies_0() {
    assert_eq!(moved(masked([X6 | ZEROING, 0], [0, 0b1010])), [0, 2, 0, 4]);
    assert_eq!(moved(masked([X6, 0], [0, 0b1010])), [2, 4, 9, 9]);
}

#[test]
fn both_sides_zeroing() {
    assert_eq!(moved(masked([X5 | ZEROING, X6 | ZEROING], [0b0011, 0b0110])), [0, 2, 0, 0]);
}

#[test]
fn the_other_side_skips() {
    // destinations 1 and 3 get source positions 0, which is off, and 1
    assert_eq!(moved(masked([X5, X6 | ZEROING], [0b1010, 0b1010])), [9, 0, 9, 2]);
    // source positions 1, 2 and 3 go to destinations 0, 1, which is off, and 2
    assert_eq!(moved(masked([X5 | ZEROING, X6], [0b0101, 0b1110])), [2, 0, 4, 9]);
}

#[test]
fn nothing_is_zeroed_once_the_other_side_has_run_out() {
    assert_eq!(moved(masked([X5 | ZEROING, X6], [0, 0])), [9, 9, 9, 9]);
    assert_eq!(moved(masked([X5 | ZEROING, X6], [0b0010, 0b1000])), [0, 9, 9, 9]);
    assert_eq!(moved(masked([X5, X6 | ZEROING], [0, 0])), [9, 9, 9, 9]);
    assert_eq!(moved(masked([X5, X6 | ZEROING], [0b0100, 0])), [9, 9, 0, 9]);
}

#[test]
fn inverted_masks_and_mask_register_0() {
    assert_eq!(moved(masked([X5 | ZEROING | 0x200, 0], [0b0101, 0])), [0, 2, 0, 4]);
    let mut machine = masked([0x2D00, 0], [0, 0]);
    machine.registers[50] = 7;
    assert_eq!(moved(machine), [0, 0, 0, 0]);
}

#[test]
fn a_side_that_does_not_walk_ignores_its_zeroing() {
    let mut machine = masked([X5 | ZEROING, X6 | ZEROING], [0b0101, 0]);
    machine.register_table[1] = 0;
    machine.registers[6] = 7;
    assert_eq!(moved(machine), [7, 0, 7, 0]);
    let mut machine = masked([X5 | ZEROING, X6 | ZEROING], [0, 0b0001]);
    machine.register_table[0] = 0;
    assert_eq!(run(&mut machine, &mut [], MOVE), DONE);
    assert_eq!(machine.registers[5], 1);
    // two scalars: neither mask is looked at
    let mut machine = masked([X5 | ZEROING, X6 | ZEROING], [0, 0]);
    machine.register_table = [0; 16];
    machine.registers[6] = 7;
    assert_eq!(run(&mut machine, &mut [], MOVE), DONE);
    assert_eq!(machine.registers[5], 7);
}

#[test]
fn a_scalar_destination_ends_with_a_0() {
    let mut machine = masked([X6 | ZEROING, 0], [0, 0b1110]);
    machine.register_table[0] = 0;
    machine.registers[5] = 8;
    let mut loaded = machine.clone();
    assert_eq!(call(&mut machine, &mut [], &Call::Step { word: MOVE }), DONE);
    assert_eq!((machine.registers[5], machine.pc, offsets(&machine)), (0, 2, (0, 0)));
    assert_eq!(call(&mut loaded, &mut [], &Call::Step { word: load(3, 0) }), DONE);
    assert_eq!((loaded.registers[5], loaded.pc, offsets(&loaded)), (0, 4, (0, 0)));
    // from position 1 on it gets what is there
    machine.source = 1;
    assert_eq!(run(&mut machine, &mut [], MOVE), DONE);
    assert_eq!(machine.registers[5], 2);
}

#[test]
fn a_load_of_0_has_no_access() {
    // addresses 1 to 4 of no memory are outside, and misaligned but for those of bytes
    for funct3 in 0..7 {
        for masks in [[0, 15], [15, 0], [0, 0]] {
            let mut machine = masked([X5 | ZEROING, X6 | ZEROING], masks);
            assert_eq!(run(&mut machine, &mut [], load(funct3, 0)), DONE);
            assert_eq!(machine.registers[40..44], [0; 4]);
            assert_eq!((machine.pc, offsets(&machine)), (4, (0, 0)));
        }
    }
}

#[test]
fn a_load_reads_where_both_are_on() {
    let mut memory: Vec<u8> = (0x80..0xA0).collect();
    let mut machine = masked([X5 | ZEROING, X6 | ZEROING], [0b1011, 0b1101]);
    machine.registers[50..54].copy_from_slice(&[8, 1 << 63, 3, 0]);
    // position 1 has its source off, 2 its destination
    assert_eq!(run(&mut machine, &mut memory, load(1, 0)), DONE);
    assert_eq!(machine.registers[40..44], [0xFFFFFFFFFFFF8988, 0, 0, 0xFFFFFFFFFFFF8180]);
}

#[test]
fn a_load_is_refused_where_both_are_on() {
    let mut machine = masked([X5 | ZEROING, 0], [0b1000, 0]);
    machine.registers[50..54].copy_from_slice(&[1, 2, 3, 40]);
    assert_eq!(run(&mut machine, &mut [0; 40], load(3, 0)), outside(40));
    assert_eq!(machine.registers[40..44], [0, 0, 0, 9]);
    assert_eq!((machine.pc, offsets(&machine)), (0, (3, 3)));
    machine.registers[53] = 41;
    assert_eq!(run(&mut machine, &mut [0; 40], load(3, 0)), misaligned(41));
}

#[test]
fn a_scalar_address_walks_so_its_zeroing_counts() {
    let mut machine = masked([X6 | ZEROING, 0], [0, 0b0110]);
    machine.register_table[1] = 0;
    let mut memory = [5; 32];
    assert_eq!(run(&mut machine, &mut memory, load(3, 0)), DONE);
    assert_eq!(machine.registers[40..44], [0, 0x0505050505050505, 0x0505050505050505, 0]);
    // vector data: bytes of 255, but for the off positions
    machine.registers[40..44].fill(u64::MAX);
    assert_eq!(run(&mut machine, &mut memory, store(0, 0)), DONE);
    assert_eq!(memory[..5], [0, 255, 255, 0, 5]);
    // no vector at all: the address is off, nothing is accessed, and x5 gets a 0
    machine.register_table[0] = 0;
    machine.registers[5] = 8;
    machine.registers[6] = 1;
    assert_eq!(run(&mut machine, &mut [], load(3, 0)), DONE);
    assert_eq!(machine.registers[5], 0);
}

#[test]
fn a_store_of_0_writes_the_bytes_of_its_access() {
    for (funct3, bytes) in [(0, 1), (1, 2), (2, 4), (3, 8)] {
        for masks in [[0, 15], [15, 0], [0, 0]] {
            let mut machine = masked([X5 | ZEROING, X6 | ZEROING], masks);
            machine.registers[50..54].copy_from_slice(&[24, 0, 16, 8]);
            let mut memory = [7; 40];
            let before = machine.registers;
            assert_eq!(run(&mut machine, &mut memory, store(funct3, 0)), DONE);
            assert_eq!(machine.registers, before);
            for place in 0..40 {
                let zeroed = place < 32 && place % 8 < bytes;
                assert_eq!(memory[place], if zeroed { 0 } else { 7 }, "byte {place} of {bytes}");
            }
        }
    }
}

#[test]
fn a_store_of_0_is_at_the_address_of_its_destination() {
    // data positions 0, which is off, and 1 go to addresses 1 and 3
    let mut machine = masked([X5 | ZEROING, X6], [0b0010, 0b1010]);
    machine.registers[50..54].copy_from_slice(&[0, 8, 16, 24]);
    let mut memory = [7; 32];
    assert_eq!(run(&mut machine, &mut memory, store(0, 0)), DONE);
    assert_eq!([0, 8, 16, 24].map(|place| memory[place]), [7, 0, 7, 9]);
}

#[test]
fn a_store_of_0_is_refused_as_any_store() {
    for masks in [[0, 15], [15, 0], [0, 0]] {
        let mut machine = masked([X5 | ZEROING, X6 | ZEROING], masks);
        machine.registers[50..54].copy_from_slice(&[0, 8, 20, 16]);
        let before = machine.registers;
        let mut memory = [7; 24];
        assert_eq!(run(&mut machine, &mut memory, store(3, 0)), misaligned(20));
        assert_eq!((machine.registers, machine.pc, offsets(&machine)), (before, 0, (2, 2)));
        assert_eq!((&memory[..16], &memory[16..]), (&[0; 16][..], &[7; 8][..]));
        machine.registers[52] = 24;
        assert_eq!(run(&mut machine, &mut memory, store(3, 0)), outside(24));
        assert_eq!(offsets(&machine), (2, 2));
        assert_eq!(memory[16..], [7; 8]);
        machine.registers[52] = 8;
        assert_eq!(run(&mut machine, &mut memory, store(3, 0)), DONE);
        assert_eq!(memory, [0; 24]);
        assert_eq!((machine.pc, offsets(&machine)), (4, (0, 0)));
    }
    // the first of an empty memory
    assert_eq!(run(&mut masked([X6 | ZEROING, 0], [0, 0]), &mut [], store(0, 0)), outside(1));
}

#[test]
fn a_store_of_two_scalars_ends_with_a_0() {
    let mut machine = masked([X6 | ZEROING, 0], [0, 0b1110]);
    machine.register_table = [0; 16];
    (machine.registers[5], machine.registers[6]) = (8, 0);
    let mut memory = [7; 32];
    assert_eq!(call(&mut machine, &mut memory, &Call::Step { word: store(3, 0) }), DONE);
    assert_eq!((&memory[..8], &memory[8..]), (&[0; 8][..], &[7; 24][..]));
    // one scalar alone goes on: x5 to each address that is on
    machine.register_table[1] = 0xB286;
    machine.registers[50..54].copy_from_slice(&[0, 8, 16, 24]);
    memory.fill(7);
    assert_eq!(run(&mut machine, &mut memory, store(0, 0)), DONE);
    assert_eq!([0, 8, 16, 24].map(|place| memory[place]), [0, 8, 8, 8]);
}

#[test]
fn a_write_of_0_to_register_0_vanishes() {
    let mut machine = masked([X5 | ZEROING, 0], [0b0100, 0]);
    machine.register_table[0] = 0x8085;
    machine.registers[1..5].copy_from_slice(&[6, 6, 0b0100, 6]);
    assert_eq!(run(&mut machine, &mut [], MOVE), DONE);
    assert_eq!(machine.registers[..5], [0, 0, 3, 0, 6]);
}

#[test]
fn the_mask_is_read_when_a_call_starts() {
    // the mask register of x5 is its element 1, which is on; elements 0 and 2 are off
    let mut machine = masked([0x2C00 | 0x100 | 41 << 1, 0], [0, 0]);
    machine.registers[41] = 0b1010;
    assert_eq!(moved(machine), [0, 2, 0, 4]);
}

#[test]
fn a_0_counts_against_the_allowance() {
    let mut machine = masked([X5 | ZEROING, X6 | ZEROING], [0b0011, 0b0110]);
    let mut ended = machine.clone();
    for (unit, wanted) in [[0, 9, 9, 9], [0, 2, 9, 9], [0, 2, 0, 9]].into_iter().enumerate() {
        assert_eq!(call(&mut machine, &mut [], &Call::Run { word: MOVE, allowance: 0 }), PAUSED);
        assert_eq!(call(&mut machine, &mut [], &Call::Run { word: MOVE, allowance: 1 }), PAUSED);
        assert_eq!(machine.registers[40..44], wanted);
        let next = unit as u64 + 1;
        assert_eq!((machine.pc, offsets(&machine)), (0, (next, next)));
    }
    assert_eq!(call(&mut machine, &mut [], &Call::Run { word: MOVE, allowance: 1 }), DONE);
    assert_eq!(call(&mut ended, &mut [], &Call::Run { word: MOVE, allowance: 4 }), DONE);
    assert_eq!(machine, ended);
    assert_eq!(ended.registers[40..44], [0, 2, 0, 0]);
}

//! The C interface of the proved library, and a machine to lend to it.

use difftest::calls::{Call, Outcome};
use difftest::machine::{Machine, ENTRIES, REGISTERS};

#[link(name = "simplev", kind = "static")]
extern "C" {
    fn simplev_fresh(r: *mut u64, c: *mut u64, t: *mut u16, p: *mut u16);
    #[rustfmt::skip]
    fn simplev_run(
        r: *mut u64,
        c: *mut u64,
        t: *const u16,
        p: *const u16,
        word: u32,
        allowance: u16,
        memory: *mut u8,
        size: usize,
        address: *mut u64,
    ) -> u32;
    #[rustfmt::skip]
    fn simplev_step(
        r: *mut u64,
        c: *mut u64,
        t: *const u16,
        p: *const u16,
        word: u32,
        memory: *mut u8,
        size: usize,
        address: *mut u64,
    ) -> u32;

    fn simplev_set_vl(r: *const u64, c: *mut u64, t: *const u16, p: *const u16, n: u64, value: *mut u64) -> u32;
    #[rustfmt::skip]
    fn simplev_set_vl_immediate(
        r: *const u64,
        c: *mut u64,
        t: *const u16,
        p: *const u16,
        n: u32,
        value: *mut u64,
    ) -> u32;
    fn simplev_set_mvl(r: *const u64, c: *mut u64, t: *const u16, p: *const u16, n: u32, value: *mut u64) -> u32;
    fn simplev_set_cfg(r: *const u64, c: *mut u64, t: *const u16, p: *const u16, n: u32, value: *mut u64) -> u32;
    #[rustfmt::skip]
    fn simplev_set_state_word(
        r: *const u64,
        c: *mut u64,
        t: *const u16,
        p: *const u16,
        word: u32,
        value: *mut u64,
    ) -> u32;
    fn simplev_set_pc(r: *const u64, c: *mut u64, t: *const u16, p: *const u16, pc: u64, value: *mut u64) -> u32;
    #[rustfmt::skip]
    fn simplev_set_register(
        r: *mut u64,
        c: *const u64,
        t: *const u16,
        p: *const u16,
        index: u32,
        value_in: u64,
        value: *mut u64,
    ) -> u32;
    #[rustfmt::skip]
    fn simplev_set_register_entry(
        r: *const u64,
        c: *const u64,
        t: *mut u16,
        p: *const u16,
        index: u32,
        entry: u16,
        value: *mut u64,
    ) -> u32;
    #[rustfmt::skip]
    fn simplev_set_predicate_entry(
        r: *const u64,
        c: *const u64,
        t: *const u16,
        p: *mut u16,
        index: u32,
        entry: u16,
        value: *mut u64,
    ) -> u32;

    fn simplev_read_vl(r: *const u64, c: *const u64, t: *const u16, p: *const u16, value: *mut u64) -> u32;
    fn simplev_read_mvl(r: *const u64, c: *const u64, t: *const u16, p: *const u16, value: *mut u64) -> u32;
    fn simplev_read_cfg(r: *const u64, c: *const u64, t: *const u16, p: *const u16, value: *mut u64) -> u32;
    fn simplev_read_pc(r: *const u64, c: *const u64, t: *const u16, p: *const u16, value: *mut u64) -> u32;
    fn simplev_read_state_word(r: *const u64, c: *const u64, t: *const u16, p: *const u16, value: *mut u64) -> u32;
    #[rustfmt::skip]
    fn simplev_read_register(
        r: *const u64,
        c: *const u64,
        t: *const u16,
        p: *const u16,
        index: u32,
        value: *mut u64,
    ) -> u32;
    #[rustfmt::skip]
    fn simplev_read_register_entry(
        r: *const u64,
        c: *const u64,
        t: *const u16,
        p: *const u16,
        index: u32,
        value: *mut u64,
    ) -> u32;
    #[rustfmt::skip]
    fn simplev_read_predicate_entry(
        r: *const u64,
        c: *const u64,
        t: *const u16,
        p: *const u16,
        index: u32,
        value: *mut u64,
    ) -> u32;
}

const GUARD: [u64; 4] = [0x5A5A_1111_A5A5_2222, 0x5A5A_3333_A5A5_4444, 0x5A5A_5555_A5A5_6666, 0x5A5A_7777_A5A5_8888];

/// The arrays of a machine, each between guard words that no call may write.
#[repr(C)]
pub struct Lent {
    guard_0: [u64; 4],
    registers: [u64; REGISTERS],
    guard_1: [u64; 4],
    control: [u64; 6],
    guard_2: [u64; 4],
    register_table: [u16; ENTRIES],
    guard_3: [u64; 4],
    predicate_table: [u16; ENTRIES],
    guard_4: [u64; 4],
}

impl Lent {
    pub fn new(machine: &Machine) -> Lent {
        Lent {
            guard_0: GUARD,
            registers: machine.registers,
            guard_1: GUARD,
            control: [machine.pc, machine.mvl, machine.vl, machine.cfg, machine.source, machine.destination],
            guard_2: GUARD,
            register_table: machine.register_table,
            guard_3: GUARD,
            predicate_table: machine.predicate_table,
            guard_4: GUARD,
        }
    }

    pub fn machine(&self) -> Machine {
        let [pc, mvl, vl, cfg, source, destination] = self.control;
        let (registers, register_table, predicate_table) = (self.registers, self.register_table, self.predicate_table);
        Machine { registers, pc, mvl, vl, cfg, source, destination, register_table, predicate_table }
    }

    pub fn guards_kept(&self) -> bool {
        [self.guard_0, self.guard_1, self.guard_2, self.guard_3, self.guard_4].iter().all(|guard| *guard == GUARD)
    }

    /// Makes a call of the library. The out-parameter begins with a value that no call leaves.
    pub fn call(&mut self, memory: &mut [u8], call: &Call) -> Outcome {
        let mut value = 0xBAD0_BAD1_BAD2_BAD3;
        let answer = match *call {
            Call::Fresh => {
                self.fresh();
                value = 0;
                0
            }
            Call::Run { word, allowance } => self.run(memory, word, allowance, &mut value),
            Call::Step { word } => self.step(memory, word, &mut value),
            _ => self.set_or_read(call, &mut value),
        };
        Outcome { answer, value }
    }

    fn fresh(&mut self) {
        let (r, c) = (self.registers.as_mut_ptr(), self.control.as_mut_ptr());
        let (t, p) = (self.register_table.as_mut_ptr(), self.predicate_table.as_mut_ptr());
        // SAFETY: four arrays of their sizes that do not overlap.
        unsafe { simplev_fresh(r, c, t, p) }
    }

    fn run(&mut self, memory: &mut [u8], word: u32, allowance: u16, address: &mut u64) -> u32 {
        let (r, c) = (self.registers.as_mut_ptr(), self.control.as_mut_ptr());
        let (t, p) = (self.register_table.as_ptr(), self.predicate_table.as_ptr());
        let (memory, size) = (memory.as_mut_ptr(), memory.len());
        // SAFETY: four arrays of their sizes, the memory and the address do not overlap.
        unsafe { simplev_run(r, c, t, p, word, allowance, memory, size, address) }
    }

    fn step(&mut self, memory: &mut [u8], word: u32, address: &mut u64) -> u32 {
        let (r, c) = (self.registers.as_mut_ptr(), self.control.as_mut_ptr());
        let (t, p) = (self.register_table.as_ptr(), self.predicate_table.as_ptr());
        let (memory, size) = (memory.as_mut_ptr(), memory.len());
        // SAFETY: four arrays of their sizes, the memory and the address do not overlap.
        unsafe { simplev_step(r, c, t, p, word, memory, size, address) }
    }

    fn set_or_read(&mut self, call: &Call, value: &mut u64) -> u32 {
        let (r, c) = (self.registers.as_mut_ptr(), self.control.as_mut_ptr());
        let (t, p) = (self.register_table.as_mut_ptr(), self.predicate_table.as_mut_ptr());
        // SAFETY: four arrays of their sizes and the value do not overlap.
        unsafe {
            match *call {
                Call::SetVl(n) => simplev_set_vl(r, c, t, p, n, value),
                Call::SetVlImmediate(n) => simplev_set_vl_immediate(r, c, t, p, n, value),
                Call::SetMvl(n) => simplev_set_mvl(r, c, t, p, n, value),
                Call::SetCfg(n) => simplev_set_cfg(r, c, t, p, n, value),
                Call::SetStateWord(word) => simplev_set_state_word(r, c, t, p, word, value),
                Call::SetPc(pc) => simplev_set_pc(r, c, t, p, pc, value),
                Call::SetRegister(index, new) => simplev_set_register(r, c, t, p, index, new, value),
                Call::SetRegisterEntry(index, entry) => simplev_set_register_entry(r, c, t, p, index, entry, value),
                Call::SetPredicateEntry(index, entry) => simplev_set_predicate_entry(r, c, t, p, index, entry, value),
                Call::ReadVl => simplev_read_vl(r, c, t, p, value),
                Call::ReadMvl => simplev_read_mvl(r, c, t, p, value),
                Call::ReadCfg => simplev_read_cfg(r, c, t, p, value),
                Call::ReadPc => simplev_read_pc(r, c, t, p, value),
                Call::ReadStateWord => simplev_read_state_word(r, c, t, p, value),
                Call::ReadRegister(index) => simplev_read_register(r, c, t, p, index, value),
                Call::ReadRegisterEntry(index) => simplev_read_register_entry(r, c, t, p, index, value),
                Call::ReadPredicateEntry(index) => simplev_read_predicate_entry(r, c, t, p, index, value),
                Call::Fresh | Call::Run { .. } | Call::Step { .. } => unreachable!("neither a setting nor a reading"),
            }
        }
    }
}

//! The machine, and when it is in shape.

pub const REGISTERS: usize = 128;
pub const ELEMENTS: u64 = 64;
pub const ENTRIES: usize = 16;
pub const LAST_CFG: u64 = 31;

#[derive(Clone, PartialEq, Eq, Debug)]
pub struct Machine {
    pub registers: [u64; REGISTERS],
    pub pc: u64,
    pub mvl: u64,
    pub vl: u64,
    pub cfg: u64,
    pub source: u64,
    pub destination: u64,
    pub register_table: [u16; ENTRIES],
    pub predicate_table: [u16; ENTRIES],
}

impl Machine {
    pub fn fresh() -> Machine {
        Machine {
            registers: [0; REGISTERS],
            pc: 0,
            mvl: 1,
            vl: 1,
            cfg: 24,
            source: 0,
            destination: 0,
            register_table: [0; ENTRIES],
            predicate_table: [0; ENTRIES],
        }
    }

    /// None of the reasons of answer 6 applies.
    pub fn in_shape(&self) -> bool {
        (1..=ELEMENTS).contains(&self.mvl)
            && (1..=self.mvl).contains(&self.vl)
            && self.cfg <= LAST_CFG
            && self.source < self.vl
            && self.destination < self.vl
            && self.registers[0] == 0
            && self.predicate_table.iter().all(|entry| entry & 1 == 0)
    }

    pub fn read(&self, register: usize) -> u64 {
        self.registers[register]
    }

    /// A write to register 0 vanishes.
    pub fn write(&mut self, register: usize, value: u64) {
        if register != 0 {
            self.registers[register] = value;
        }
    }
}

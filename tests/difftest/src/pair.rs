//! A machine and a memory twice, once for the model and once lent to the library, and calls made on both.

use crate::coverage::{Coverage, Made};
use crate::dump;
use crate::interface::Lent;
use crate::laws;
use difftest::calls::{call, Call, Outcome};
use difftest::machine::Machine;

/// Bytes on each side of the lent memory, which no call may write.
const MARGIN: usize = 64;

pub struct Bench {
    pub coverage: Coverage,
    /// Print each call and what it said.
    pub trace: bool,
}

/// What differed, for a reader.
pub struct Difference(pub String);

pub struct Pair {
    pub machine: Machine,
    pub memory: Vec<u8>,
    lent: Lent,
    around: Vec<u8>,
}

fn margin_byte(index: usize) -> u8 {
    0xC3 ^ index as u8
}

impl Pair {
    pub fn new(machine: &Machine, memory: &[u8]) -> Pair {
        let mut around: Vec<u8> = (0..memory.len() + 2 * MARGIN).map(margin_byte).collect();
        around[MARGIN..MARGIN + memory.len()].copy_from_slice(memory);
        Pair { machine: machine.clone(), memory: memory.to_vec(), lent: Lent::new(machine), around }
    }

    fn lent_memory(&self) -> &[u8] {
        &self.around[MARGIN..MARGIN + self.memory.len()]
    }

    fn margins_kept(&self) -> bool {
        let kept = |index: usize| self.around[index] == margin_byte(index);
        (0..MARGIN).all(kept) && (MARGIN + self.memory.len()..self.around.len()).all(kept)
    }

    /// Makes a call on both sides and compares answer, value, machine, memory and the guards around them.
    pub fn call(&mut self, bench: &mut Bench, made_call: &Call) -> Result<Outcome, Difference> {
        let before = self.machine.clone();
        let memory_before = self.memory.clone();
        let outcome = call(&mut self.machine, &mut self.memory, made_call);
        let size = self.memory.len();
        let said = self.lent.call(&mut self.around[MARGIN..MARGIN + size], made_call);
        if bench.trace {
            println!("{made_call:X?}: model {outcome:X?}, library {said:X?}");
        }
        let memory_changed = self.memory != memory_before;
        let made = Made { before: &before, after: &self.machine, call: made_call, outcome, size, memory_changed };
        let wrong = self.wrong(said, outcome).or_else(|| laws::broken(&made));
        if let Some(reason) = wrong {
            let lent = (said, self.lent.machine());
            let memories = [&memory_before[..], &self.memory, self.lent_memory()];
            return Err(Difference(format!("{reason}\n{}", dump::of(&made, lent, memories))));
        }
        bench.coverage.count(&made);
        Ok(outcome)
    }

    fn wrong(&self, said: Outcome, outcome: Outcome) -> Option<&'static str> {
        if said != outcome {
            return Some("the answer or the value differs");
        }
        if self.lent.machine() != self.machine {
            return Some("the machine differs");
        }
        if self.lent_memory() != self.memory {
            return Some("the memory differs");
        }
        if !self.lent.guards_kept() || !self.margins_kept() {
            return Some("the library wrote outside of what was lent");
        }
        None
    }
}

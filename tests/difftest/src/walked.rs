//! The pairs of positions that a move, load or store came to in a call.

use crate::coverage::Made;
use crate::laws::allowance;
use difftest::calls::answer;
use difftest::decode::Instruction;
use difftest::transfer::{of_load, of_move, of_store, Positions, Transfer};

pub struct Walked {
    pub transfer: Transfer,
    /// The pairs whose elements were done.
    pub done: Vec<Positions>,
    /// The pair at which an access was refused.
    pub refused: Option<Positions>,
    /// The pairs that were left.
    pub left: Vec<Positions>,
    /// The offsets at which it ended, or would have, since a side had run out.
    pub run_out: Option<Positions>,
}

impl Walked {
    /// None for an operation.
    pub fn of(made: &Made, instruction: &Instruction) -> Option<Walked> {
        let transfer = match *instruction {
            Instruction::Operation(_) => return None,
            Instruction::Move(it) => of_move(made.before, it),
            Instruction::Load(it) => of_load(made.before, it),
            Instruction::Store(it) => of_store(made.before, it),
        };
        let (mut done, run_out) = pairs(&transfer, Positions::offsets(made.before), made.before.vl);
        let count = match made.outcome.answer {
            answer::DONE => done.len(),
            answer::PAUSED => allowance(made.call).expect("a run or a step") as usize,
            _ => done.iter().position(|&pair| pair == Positions::offsets(made.after)).expect("a pair of the walk"),
        };
        let mut left = done.split_off(count);
        let refused = answer::is_memory_fault(made.outcome.answer).then(|| left.remove(0));
        Some(Walked { transfer, done, refused, left, run_out })
    }

    /// The first pair that it came to.
    pub fn first(&self) -> Option<Positions> {
        self.done.first().copied().or(self.refused)
    }
}

/// The pairs of a walk that nothing stops, and the offsets at which a side has run out.
fn pairs(transfer: &Transfer, start: Positions, vl: u64) -> (Vec<Positions>, Option<Positions>) {
    let mut pairs = Vec::new();
    let mut next = Some(start);
    while let Some(offsets) = next {
        let Some(pair) = transfer.find(offsets, vl) else {
            return (pairs, next);
        };
        pairs.push(pair);
        next = transfer.after(pair, vl);
    }
    (pairs, None)
}

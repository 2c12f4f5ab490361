//! What holds of every call, whatever its definition: a check on both sides at once.

use crate::coverage::Made;
use difftest::calls::{answer, Call};

/// How many units a run is allowed; none for another call.
pub fn allowance(call: &Call) -> Option<u64> {
    match *call {
        Call::Run { allowance, .. } => Some(u64::from(allowance)),
        Call::Step { .. } => Some(1),
        _ => None,
    }
}

fn refused(number: u32) -> bool {
    !matches!(number, answer::DONE | answer::PAUSED) && !answer::is_memory_fault(number)
}

/// The law that a call broke.
pub fn broken(made: &Made) -> Option<&'static str> {
    let changed = made.after != made.before || made.memory_changed;
    let said = made.outcome.answer;
    let allowance = allowance(made.call);
    if refused(said) && (changed || made.outcome.value != 0) {
        return Some("a refusal changed something or returned a value");
    }
    if made.before.in_shape() && !made.after.in_shape() {
        return Some("a machine in shape is no longer in shape");
    }
    if said == answer::PAUSED && allowance.is_some_and(|units| units >= made.before.vl) {
        return Some("a call allowed VL elements paused");
    }
    if allowance == Some(0) && changed {
        return Some("a run with allowance 0 changed something");
    }
    if (said == answer::PAUSED || answer::is_memory_fault(said)) && made.after.pc != made.before.pc {
        return Some("the program counter moved before the end");
    }
    if said == answer::MISALIGNED && made.outcome.value % 8 == 0 {
        return Some("an access at a multiple of 8 was misaligned");
    }
    None
}

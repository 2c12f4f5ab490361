//! Which elements of a move, load or store were 0, since a side with zeroing was at an off position.

use crate::accesses::Accesses;
use crate::coverage::{Made, Seen};
use crate::walked::Walked;
use difftest::calls::answer;
use difftest::decode::Instruction;
use difftest::tables::operand;
use difftest::transfer::{Positions, Side};

pub fn situations(made: &Made, instruction: &Instruction, walked: &Walked) -> Vec<Seen> {
    let mut seen = sides_off(instruction, walked);
    seen.extend(ends(made, instruction, walked));
    seen.extend(cuts(made, walked));
    if let Some(accesses) = Accesses::of(made.before, instruction) {
        seen.extend(if accesses.loads { loads(made, &accesses, walked) } else { stores(made, &accesses, walked) });
    }
    seen
}

/// Whether an element was done at a pair of which these are off: the source, the destination.
fn done_at(walked: &Walked, off: (bool, bool)) -> bool {
    let (source, destination) = (&walked.transfer.source, &walked.transfer.destination);
    walked.done.iter().any(|pair| (source.off(pair.source), destination.off(pair.destination)) == off)
}

/// Each kind with the source, the destination or both off, and an off position 0 of a side that doesn't walk.
fn sides_off(instruction: &Instruction, walked: &Walked) -> Vec<Seen> {
    let [source, destination, both] = [(true, false), (false, true), (true, true)].map(|off| done_at(walked, off));
    let is_move = matches!(instruction, Instruction::Move(_));
    let is_load = matches!(instruction, Instruction::Load(_));
    let is_store = matches!(instruction, Instruction::Store(_));
    let ignored = |side: &Side| !side.walks && side.mask.zeroing && !side.mask.on(0);
    let ignored = ignored(&walked.transfer.source) || ignored(&walked.transfer.destination);
    vec![
        ("zeroing: move, source off", is_move && source),
        ("zeroing: move, destination off", is_move && destination),
        ("zeroing: move, both off", is_move && both),
        ("zeroing: load, source off", is_load && source),
        ("zeroing: load, destination off", is_load && destination),
        ("zeroing: load, both off", is_load && both),
        ("zeroing: store, source off", is_store && source),
        ("zeroing: store, destination off", is_store && destination),
        ("zeroing: store, both off", is_store && both),
        ("zeroing: a side that doesn't walk", ignored && !walked.done.is_empty()),
    ]
}

/// How an instruction ended: on a 0 with positions left, or since the other side ran out before an off position.
fn ends(made: &Made, instruction: &Instruction, walked: &Walked) -> Vec<Seen> {
    let done = made.outcome.answer == answer::DONE;
    let last = walked.done.last().copied().filter(|&pair| walked.transfer.zeroes(pair));
    let more = |pair: Positions| pair.source.max(pair.destination) + 1 < made.before.vl;
    let single = done && walked.transfer.single && last.is_some_and(more);
    let register = |pair: &Positions| {
        let written = instruction.written().map(|rd| operand(made.before, rd).at(pair.destination));
        walked.transfer.zeroes(*pair) && written == Some(0)
    };
    let waits = |side: &Side, offset: u64| side.mask.zeroing && side.off(offset);
    let run_out = walked.run_out.filter(|_| done);
    vec![
        ("zeroing: scalar ends a move with a 0", single && matches!(instruction, Instruction::Move(_))),
        ("zeroing: scalar ends a load with a 0", single && matches!(instruction, Instruction::Load(_))),
        ("zeroing: two scalars end a store with a 0", single && matches!(instruction, Instruction::Store(_))),
        (
            "zeroing: source runs out before an off destination",
            run_out.is_some_and(|at| waits(&walked.transfer.destination, at.destination)),
        ),
        (
            "zeroing: destination runs out before an off source",
            run_out.is_some_and(|at| waits(&walked.transfer.source, at.source)),
        ),
        ("zeroing: a 0 for register 0", walked.done.iter().any(register)),
    ]
}

/// Calls that end after a 0, or begin with one.
fn cuts(made: &Made, walked: &Walked) -> Vec<Seen> {
    let zero = |pair: Option<&Positions>| pair.is_some_and(|&pair| walked.transfer.zeroes(pair));
    let begun = made.before.source != 0 || made.before.destination != 0;
    vec![
        ("zeroing: pause after a 0", made.outcome.answer == answer::PAUSED && zero(walked.done.last())),
        ("zeroing: start at an offset with a 0", begun && zero(walked.done.first())),
    ]
}

/// A load that had no access at a pair, though the address there could not be accessed.
fn loads(made: &Made, accesses: &Accesses, walked: &Walked) -> Vec<Seen> {
    let first = walked.done.first().copied().filter(|&pair| walked.transfer.zeroes(pair));
    let misaligned = first.is_some_and(|pair| accesses.misaligned_at(made.before, pair.source));
    let outside = first.is_some_and(|pair| !accesses.inside_at(made.before, pair.source, made.size));
    let scalar = !accesses.register.is_vector();
    vec![
        ("zeroing: load of a 0, address misaligned", misaligned),
        ("zeroing: load of a 0, address aligned, outside memory", outside && !misaligned),
        ("zeroing: load, scalar address off", scalar && done_at(walked, (true, false))),
        ("zeroing: memory fault of a load after a 0", walked.refused.is_some() && first.is_some()),
    ]
}

/// A store of 0, by its bytes and by what was answered.
fn stores(made: &Made, accesses: &Accesses, walked: &Walked) -> Vec<Seen> {
    let stored = |bytes| accesses.bytes == bytes && walked.done.iter().any(|&pair| walked.transfer.zeroes(pair));
    let refused = walked.refused.is_some_and(|pair| walked.transfer.zeroes(pair));
    let answered = |answer| refused && made.outcome.answer == answer;
    let scalar = !accesses.register.is_vector();
    vec![
        ("zeroing: store of 0, 1 byte", stored(1)),
        ("zeroing: store of 0, 2 bytes", stored(2)),
        ("zeroing: store of 0, 4 bytes", stored(4)),
        ("zeroing: store of 0, 8 bytes", stored(8)),
        ("zeroing: store of 0, misaligned", answered(answer::MISALIGNED)),
        ("zeroing: store of 0, outside memory", answered(answer::FAULT)),
        ("zeroing: store of 0 refused after an element", refused && !walked.done.is_empty()),
        ("zeroing: store, scalar address off", scalar && done_at(walked, (false, true))),
    ]
}

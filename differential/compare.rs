//! Whether the library leaves in every buffer what the Rust's answer says, and nothing else.

use crate::library::{Buffers, Reply, calibrate};
use oracle::call::{Belief, Call, Outcome, PartEnding};

/// What stands in the four answer buffers, as bits.
struct Answers {
    belief_numbers: Vec<u32>,
    belief_floats: Vec<u32>,
    ending_numbers: Vec<u32>,
    ending_floats: Vec<u32>,
}

fn answers(beliefs: &[Belief], endings: &[PartEnding]) -> Answers {
    let numbers = |p: &PartEnding| [p.part, p.ending.number(), p.steps, p.beliefs];
    Answers {
        belief_numbers: beliefs.iter().map(|b| b.grade).collect(),
        belief_floats: beliefs.iter().flat_map(|b| [b.absent.to_bits(), b.present.to_bits()]).collect(),
        ending_numbers: endings.iter().flat_map(numbers).collect(),
        ending_floats: endings.iter().map(|p| p.ending.residual().to_bits()).collect(),
    }
}

fn expected_reply(outcome: &Outcome) -> Reply {
    match outcome {
        Outcome::Refused(refusal) => Reply { refusal: refusal.number, place: refusal.place, beliefs: 0, endings: 0 },
        Outcome::Answered { beliefs, endings } => {
            Reply { refusal: 0, place: 0, beliefs: beliefs.len() as u32, endings: endings.len() as u32 }
        }
    }
}

/// The work that document 01 has the caller lend.
pub fn work_needed(call: &Call) -> usize {
    64 * (call.grades as usize + call.marker_count() + call.pair_count()) + 4096
}

fn buffers_agree(call: &Call, outcome: &Outcome, lent: &Buffers) -> bool {
    let (answers, work) = match outcome {
        Outcome::Refused(_) => (answers(&[], &[]), 0),
        Outcome::Answered { beliefs, endings } => (answers(beliefs, endings), work_needed(call)),
    };
    let zeros = vec![0; work];
    lent.intact()
        && lent.work_floats.begins_with(&zeros)
        && lent.work_numbers.begins_with(&zeros)
        && lent.belief_numbers.begins_with(&answers.belief_numbers)
        && lent.belief_floats.begins_with(&answers.belief_floats)
        && lent.ending_numbers.begins_with(&answers.ending_numbers)
        && lent.ending_floats.begins_with(&answers.ending_floats)
}

pub fn agrees_with(call: &Call, outcome: &Outcome) -> bool {
    let mut lent = Buffers::lent(call);
    let reply = calibrate(call, &mut lent);
    reply == expected_reply(outcome) && buffers_agree(call, outcome, &lent)
}

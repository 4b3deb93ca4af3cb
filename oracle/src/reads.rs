//! Strong and weak reads, by document 02: what all patterns and the made-up bales
//! share.

use std::collections::HashMap;

use crate::call::{call, Call, Lent, Outcome};

/// Absent, then present.
pub const STRONG: [f32; 2] = [0.0625, 0.9375];
pub const WEAK: [f32; 2] = [0.9375, 0.0625];

fn needed(call: &Call) -> Lent {
    Lent::needed(call.grades as usize, call.marker_count(), call.pair_count())
}

/// The least work that check 2 takes, and nothing for answers.
pub fn work_alone(call: &Call) -> Lent {
    Lent { belief_numbers: 0, belief_floats: 0, ending_numbers: 0, ending_floats: 0, ..needed(call) }
}

pub fn is_work_short(call: &Call) -> bool {
    call.lent.work_floats.min(call.lent.work_words) < needed(call).work_words
}

/// The plain call with these reads, which lends enough.
pub fn with_reads(graph: &Call, reads: &[[f32; 2]]) -> Call {
    Call { evidence: reads.as_flattened().to_vec(), lent: needed(graph), ..graph.clone() }
}

/// The plain call with weak reads only.
pub fn all_weak(graph: &Call) -> Call {
    with_reads(graph, &vec![WEAK; graph.marker_count()])
}

/// By grade; a grade in no pair has none.
pub fn present_beliefs(request: &Call) -> HashMap<u32, f32> {
    match call(request) {
        Outcome::Answered { beliefs, .. } => beliefs.iter().map(|belief| (belief.grade, belief.present)).collect(),
        Outcome::Refused(refusal) => panic!("a call with reads is refused {} at {}", refusal.number, refusal.place),
    }
}

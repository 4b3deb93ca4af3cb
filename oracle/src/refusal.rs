//! Document 01's checks 1 to 8, in their order; within a number the lowest
//! place wins.

use std::collections::HashSet;

use crate::call::Call;
use crate::limits::*;

#[derive(Clone, Copy, Debug, PartialEq, Eq)]
pub struct Refusal {
    pub number: u32,
    pub place: u32,
}

fn refusal(number: u32, place: usize) -> Option<Refusal> {
    Some(Refusal { number, place: place as u32 })
}

/// The first check that the call fails.
pub fn first_refusal(call: &Call) -> Option<Refusal> {
    too_many(call)
        .or_else(|| too_little_lent(call))
        .or_else(|| bad_setting(call))
        .or_else(|| bad_run(call))
        .or_else(|| bad_evidence(call))
        .or_else(|| unknown_end(call))
        .or_else(|| pair_again(call))
        .or_else(|| crowded_marker(call))
}

fn too_many(call: &Call) -> Option<Refusal> {
    let over = call.grades as usize > MOST_GRADES
        || call.marker_count() > MOST_MARKERS
        || call.pair_count() > MOST_PAIRS;
    if over { refusal(1, 0) } else { None }
}

fn too_little_lent(call: &Call) -> Option<Refusal> {
    let lent = &call.lent;
    let needed = crate::call::Lent::needed(call.grades as usize, call.marker_count(), call.pair_count());
    let enough = lent.work_floats >= needed.work_floats
        && lent.work_words >= needed.work_words
        && lent.belief_numbers >= needed.belief_numbers
        && lent.belief_floats >= needed.belief_floats
        && lent.ending_numbers >= needed.ending_numbers
        && lent.ending_floats >= needed.ending_floats;
    if enough { None } else { refusal(2, 0) }
}

fn bad_setting(call: &Call) -> Option<Refusal> {
    let settings = [call.settings.alpha, call.settings.beta, call.settings.prior];
    let bad = |setting: &f32| !(LEAST_SETTING..=LARGEST_SETTING).contains(setting);
    refusal(3, settings.iter().position(bad)?)
}

fn bad_run(call: &Call) -> Option<Refusal> {
    let tolerance = call.settings.tolerance;
    if !(tolerance >= 0.0 && tolerance.is_finite()) {
        return refusal(4, 0);
    }
    if call.settings.loop_limit > MOST_LOOPS {
        return refusal(4, 1);
    }
    None
}

fn bad_evidence(call: &Call) -> Option<Refusal> {
    let bad = |entry: &f32| !(LEAST_EVIDENCE..=1.0).contains(entry);
    let mut markers = call.evidence.chunks_exact(2);
    refusal(5, markers.position(|entries| entries.iter().any(bad))?)
}

fn unknown_end(call: &Call) -> Option<Refusal> {
    let markers = call.marker_count() as u32;
    let mut pairs = call.pairs.chunks_exact(2);
    refusal(6, pairs.position(|pair| pair[0] >= call.grades || pair[1] >= markers)?)
}

fn pair_again(call: &Call) -> Option<Refusal> {
    let mut seen = HashSet::new();
    let mut pairs = call.pairs.chunks_exact(2);
    refusal(7, pairs.position(|pair| !seen.insert((pair[0], pair[1])))?)
}

fn crowded_marker(call: &Call) -> Option<Refusal> {
    let mut grades_of = vec![0; call.marker_count()];
    for pair in call.pairs.chunks_exact(2) {
        grades_of[pair[1] as usize] += 1;
    }
    refusal(8, grades_of.iter().position(|&grades| grades > MOST_GRADES_OF_A_MARKER)?)
}

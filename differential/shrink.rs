//! The smallest failing call that leaving things out leads to.

use oracle::call::{Call, Lent};
use std::ops::Range;
use std::time::{Duration, Instant};

/// A call at the limits could be made smaller for hours.
const LONGEST: Duration = Duration::from_secs(60);

/// Runs of a list: long ones first, else a full list takes long; of a huge count no short ones.
pub fn runs(count: usize) -> impl Iterator<Item = Range<usize>> {
    let lengths = (0..=12).map(move |i| count >> i).take_while(|&length| length > 0);
    lengths.flat_map(move |length| (0..count).step_by(length).map(move |first| first..count.min(first + length)))
}

/// The pairs whose grade (end 0) or marker (end 1) is not gone, numbered anew.
fn pairs_left(call: &Call, end: usize, gone: &Range<usize>) -> Vec<u32> {
    let kept = call.pairs.chunks_exact(2).filter(|pair| !gone.contains(&(pair[end] as usize)));
    let renumbered = |pair: &[u32]| {
        let mut ends = [pair[0], pair[1]];
        ends[end] -= if ends[end] as usize >= gone.end { gone.len() as u32 } else { 0 };
        ends
    };
    kept.flat_map(renumbered).collect()
}

fn without_pairs(call: &Call, gone: Range<usize>) -> Call {
    let mut less = call.clone();
    less.pairs.drain(2 * gone.start..2 * gone.end);
    less
}

fn without_markers(call: &Call, gone: Range<usize>) -> Call {
    let mut less = Call { pairs: pairs_left(call, 1, &gone), ..call.clone() };
    less.evidence.drain(2 * gone.start..2 * gone.end);
    less
}

fn without_grades(call: &Call, gone: Range<usize>) -> Call {
    let grades = call.grades - gone.len() as u32;
    Call { grades, pairs: pairs_left(call, 0, &gone), ..call.clone() }
}

/// Without odd last entries.
fn without_odd(call: &Call) -> Option<Call> {
    let mut less = call.clone();
    less.evidence.truncate(2 * call.marker_count());
    less.pairs.truncate(2 * call.pair_count());
    let odd = call.evidence.len() % 2 + call.pairs.len() % 2;
    (odd > 0).then_some(less)
}

fn with_lower_limit(call: &Call) -> impl Iterator<Item = Call> {
    let limit = call.settings.loop_limit;
    let lower = [limit / 2, limit.saturating_sub(1)].into_iter().filter(move |&lower| lower < limit);
    lower.map(|loop_limit| {
        let mut less = call.clone();
        less.settings.loop_limit = loop_limit;
        less
    })
}

/// The buffers keep what they have over, or lack of, the sizes that the counts need.
fn resized(mut call: Call, from: &Call) -> Call {
    let old = Lent::needed(from.grades as usize, from.marker_count(), from.pair_count());
    let new = Lent::needed(call.grades as usize, call.marker_count(), call.pair_count());
    let fit = |lent: usize, old: usize, new: usize| (lent + new).saturating_sub(old);
    call.lent = Lent {
        work_floats: fit(from.lent.work_floats, old.work_floats, new.work_floats),
        work_words: fit(from.lent.work_words, old.work_words, new.work_words),
        belief_numbers: fit(from.lent.belief_numbers, old.belief_numbers, new.belief_numbers),
        belief_floats: fit(from.lent.belief_floats, old.belief_floats, new.belief_floats),
        ending_numbers: fit(from.lent.ending_numbers, old.ending_numbers, new.ending_numbers),
        ending_floats: fit(from.lent.ending_floats, old.ending_floats, new.ending_floats),
    };
    call
}

fn smaller(call: &Call) -> impl Iterator<Item = Call> {
    let pairs = runs(call.pair_count()).map(|gone| without_pairs(call, gone));
    let markers = runs(call.marker_count()).map(|gone| without_markers(call, gone));
    let grades = runs(call.grades as usize).map(|gone| without_grades(call, gone));
    let all = pairs.chain(markers).chain(grades).chain(without_odd(call)).chain(with_lower_limit(call));
    all.map(move |less| resized(less, call))
}

pub fn shrink(call: &Call, fails: impl Fn(&Call) -> bool) -> Call {
    let begun = Instant::now();
    let mut least = call.clone();
    loop {
        let found = smaller(&least).take_while(|_| begun.elapsed() < LONGEST).find(&fails);
        let Some(less) = found else {
            return least;
        };
        least = less;
    }
}

//! Faults put into an accepted call, one kind for each of the checks 1 to 8.

use crate::call::{Call, Lent};
use crate::limits::*;
use crate::random::Random;
use crate::reads::work_alone;

/// One to three of these checks, the later ones first: the earlier ones' faults change the counts.
pub(crate) fn some_of(random: &mut Random, checks: &[u32]) -> Vec<u32> {
    let mut places: Vec<usize> = (0..checks.len()).collect();
    random.shuffle(&mut places);
    places.truncate(random.within(1, 3));
    places.sort_by(|left, right| right.cmp(left));
    places.into_iter().map(|place| checks[place]).collect()
}

/// Puts in a fault that check `number` refuses, if the call has room for one.
pub fn put_in(random: &mut Random, call: &mut Call, number: u32) {
    match number {
        1 => too_many(random, call),
        2 => too_little_lent(random, &mut call.lent),
        3 => bad_setting(random, call),
        4 => bad_run(random, call),
        5 => bad_evidence(random, call),
        6 => unknown_end(random, call),
        7 => pair_again(random, call),
        8 => crowded_marker(random, call),
        _ => panic!("no check {number}"),
    }
}

fn too_many(random: &mut Random, call: &mut Call) {
    match random.below(4) {
        0 => call.grades = MOST_GRADES as u32 + 1,
        1 => call.grades = random.pick(&[u32::MAX, 1 << 31, 4096]),
        2 => call.evidence.resize(2 * MOST_MARKERS + 2, 0.5),
        _ => call.pairs.resize(2 * MOST_PAIRS + 2, 0),
    }
}

fn too_little_lent(random: &mut Random, lent: &mut Lent) {
    let size = match random.below(6) {
        0 => &mut lent.work_floats,
        1 => &mut lent.work_words,
        2 => &mut lent.belief_numbers,
        3 => &mut lent.belief_floats,
        4 => &mut lent.ending_numbers,
        _ => &mut lent.ending_floats,
    };
    *size = if random.once_in(3) { 0 } else { size.saturating_sub(1) };
}

/// Of a call that lends work and a report which needs so many numbers.
pub(crate) fn too_little_reported(random: &mut Random, call: &mut Call, report: &mut usize, needed: usize) {
    let work = work_alone(call);
    let (size, needed) = match random.below(3) {
        0 => (&mut call.lent.work_floats, work.work_floats),
        1 => (&mut call.lent.work_words, work.work_words),
        _ => (report, needed),
    };
    *size = random.pick(&[needed.saturating_sub(1), needed.saturating_sub(1), needed / 2, 0]);
}

fn bad_setting(random: &mut Random, call: &mut Call) {
    let values = [
        0.0, -0.0, -0.5, 1.0, 2.0, 1.0 / 2048.0, f32::NAN, f32::INFINITY, f32::NEG_INFINITY,
        LEAST_SETTING.next_down(), LARGEST_SETTING.next_up(),
    ];
    let value = random.pick(&values);
    match random.below(3) {
        0 => call.settings.alpha = value,
        1 => call.settings.beta = value,
        _ => call.settings.prior = value,
    }
}

fn bad_run(random: &mut Random, call: &mut Call) {
    let tolerances = [-1.0, (-0.0f32).next_down(), f32::NAN, f32::INFINITY, f32::NEG_INFINITY, f32::MIN];
    if random.once_in(2) {
        call.settings.tolerance = random.pick(&tolerances);
    } else {
        call.settings.loop_limit = random.pick(&[MOST_LOOPS + 1, u32::MAX, 1 << 31]);
    }
}

fn bad_evidence(random: &mut Random, call: &mut Call) {
    let values = [
        0.0, -0.0, -0.5, 2.0, f32::NAN, f32::INFINITY, f32::NEG_INFINITY,
        LEAST_EVIDENCE.next_down(), 1.0f32.next_up(),
    ];
    let read = call.evidence.len() / 2 * 2;
    if read > 0 {
        call.evidence[random.below(read)] = random.pick(&values);
    }
}

fn unknown_end(random: &mut Random, call: &mut Call) {
    let past = |known: u32, random: &mut Random| random.pick(&[known, known + 1, u32::MAX, 1 << 31]);
    if call.pair_count() == 0 {
        call.pairs = vec![0, 0];
        lend_for_a_pair(&mut call.lent);
    }
    let pair = random.below(call.pair_count());
    if random.once_in(2) {
        call.pairs[2 * pair] = past(call.grades, random);
    } else {
        call.pairs[2 * pair + 1] = past(call.marker_count() as u32, random);
    }
}

fn pair_again(random: &mut Random, call: &mut Call) {
    if call.pair_count() == 0 {
        return;
    }
    let from = random.below(call.pair_count());
    let to = random.within(from + 1, call.pair_count());
    let pair = [call.pairs[2 * from], call.pairs[2 * from + 1]];
    call.pairs.splice(2 * to..2 * to, pair);
    lend_for_a_pair(&mut call.lent);
}

/// So that an added pair is no fault of check 2 as well.
fn lend_for_a_pair(lent: &mut Lent) {
    let work = Lent::needed(0, 0, 1).work_words - Lent::needed(0, 0, 0).work_words;
    lent.work_words += work;
    lent.work_floats += work;
}

fn crowded_marker(random: &mut Random, call: &mut Call) {
    if call.marker_count() == 0 {
        return;
    }
    let marker = random.below(call.marker_count()) as u32;
    let grades = MOST_GRADES_OF_A_MARKER as u32 + 1;
    call.grades = call.grades.max(grades);
    let joined = |call: &Call, grade| call.pairs.chunks_exact(2).any(|pair| pair == [grade, marker]);
    call.pairs.truncate(call.pair_count() * 2);
    for grade in 0..grades {
        if !joined(call, grade) {
            call.pairs.extend([grade, marker]);
        }
    }
    call.lent = Lent::needed(call.grades as usize, call.marker_count(), call.pair_count());
}

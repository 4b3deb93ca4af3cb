//! General calls by seed.

use crate::call::{Call, Lent, Settings};
use crate::faults;
use crate::limits::*;
use crate::random::Random;
use crate::shapes::{any_graph, chain, complete, cycle, random_pairs, wide, Graph, Room};

pub(crate) const SMALL: Room = Room { grades: 134, markers: 40, pairs: 280, grades_of_a_marker: MOST_GRADES_OF_A_MARKER };

fn setting(random: &mut Random) -> f32 {
    match random.below(6) {
        0 => LEAST_SETTING,
        1 => LARGEST_SETTING,
        2 => 0.5,
        3 => random.float_within(LEAST_SETTING, LARGEST_SETTING),
        _ => random.within(1, 1023) as f32 / 1024.0,
    }
}

fn tolerance(random: &mut Random) -> f32 {
    match random.below(6) {
        0 => random.pick(&[0.0, -0.0, f32::from_bits(1), f32::MAX, 1.0, 1e-6]),
        1 => random.float_within(f32::from_bits(1), f32::MAX),
        2 => random.float_within(1e-6, 1.0),
        _ => PROGRAM_TOLERANCE,
    }
}

fn loop_limit(random: &mut Random) -> u32 {
    match random.below(5) {
        0 => random.below(8) as u32,
        1 => random.within(8, 100) as u32,
        2 => random.pick(&[1000, MOST_LOOPS]),
        _ => PROGRAM_LOOPS,
    }
}

/// Settings under which marks matter, so that the loop has work to do.
fn telling_settings(random: &mut Random) -> Settings {
    Settings {
        alpha: random.float_within(0.5, LARGEST_SETTING),
        beta: random.float_within(LEAST_SETTING, 0.125),
        prior: random.float_within(0.0625, 0.75),
        regularised: random.once_in(3),
        tolerance: random.float_within(1e-6, 0.01),
        loop_limit: random.within(6, 1000) as u32,
    }
}

fn settings(random: &mut Random) -> Settings {
    if random.once_in(2) {
        return telling_settings(random);
    }
    let mut settings = Settings {
        alpha: setting(random),
        beta: setting(random),
        prior: setting(random),
        regularised: random.once_in(2),
        tolerance: tolerance(random),
        loop_limit: loop_limit(random),
    };
    // A tiny tolerance may never settle; its run is kept short.
    if settings.tolerance < 1e-4 {
        settings.loop_limit = settings.loop_limit.min(2000);
    }
    settings
}

fn evidence(random: &mut Random) -> [f32; 2] {
    let e = random.within(1, 16383) as f32;
    let mut any = || match random.below(4) {
        0 => LEAST_EVIDENCE,
        1 => 1.0,
        _ => random.float_within(LEAST_EVIDENCE, 1.0),
    };
    let (first, second) = (any(), any());
    match random.below(4) {
        0 => [first, second],
        1 => random.pick(&[[LEAST_EVIDENCE, 1.0 - LEAST_EVIDENCE], [1.0 - LEAST_EVIDENCE, LEAST_EVIDENCE]]),
        _ => [(16384.0 - e) / 16384.0, e / 16384.0],
    }
}

/// A graph as a call that no check refuses.
pub(crate) fn call_of(random: &mut Random, graph: &Graph) -> Call {
    let mut call = Call {
        settings: settings(random),
        grades: graph.grades as u32,
        evidence: (0..graph.markers).flat_map(|_| evidence(random)).collect(),
        pairs: graph.pairs.iter().flat_map(|&(g, m)| [g as u32, m as u32]).collect(),
        lent: Lent::needed(graph.grades, graph.markers, graph.pairs.len()),
    };
    // An odd last entry is not read, whatever it is.
    if random.once_in(6) {
        call.evidence.push(random.pick(&[f32::NAN, 0.0, 0.5]));
    }
    if random.once_in(6) {
        call.pairs.push(random.pick(&[0, u32::MAX]));
    }
    if random.once_in(3) {
        call.lent.work_floats += random.within(1, 100);
        call.lent.work_words += random.within(1, 100);
        call.lent.belief_numbers += random.within(1, 9);
        call.lent.belief_floats += random.within(1, 9);
        call.lent.ending_numbers += random.within(1, 9);
        call.lent.ending_floats += random.within(1, 9);
    }
    call
}

pub fn accepted_call(random: &mut Random) -> Call {
    let graph = if random.once_in(12) { wide(random, SMALL) } else { any_graph(random, SMALL) };
    call_of(random, &graph)
}

/// With a marker on over 64 grades; now and then on one too many.
pub fn wide_call(random: &mut Random) -> Call {
    let graph = wide(random, SMALL);
    let mut call = call_of(random, &graph);
    if random.once_in(16) {
        faults::put_in(random, &mut call, 8);
    }
    call
}

/// Accepted, or with one to three faults, so that their order shows.
pub fn any_call(random: &mut Random) -> Call {
    let mut call = accepted_call(random);
    if random.once_in(2) {
        let numbers = faults::some_of(random, &[1, 2, 3, 4, 5, 6, 7, 8]);
        numbers.iter().for_each(|&number| faults::put_in(random, &mut call, number));
    }
    call
}

/// At the library's limits; now and then with one grade too many on a marker.
pub(crate) fn limits_graph(random: &mut Random) -> Graph {
    let full = Room {
        grades: MOST_GRADES,
        markers: MOST_MARKERS,
        pairs: MOST_PAIRS,
        grades_of_a_marker: MOST_GRADES_OF_A_MARKER,
    };
    let few = random.pick(&[64, 128]);
    match random.below(8) {
        0 | 1 => random_pairs(random, full),
        2 => random_pairs(random, Room { markers: few, ..full }),
        3 => chain(2 * MOST_GRADES),
        4 => cycle(MOST_GRADES),
        5 => complete(MOST_GRADES_OF_A_MARKER, MOST_PAIRS / MOST_GRADES_OF_A_MARKER),
        6 => complete(8, MOST_MARKERS),
        _ => complete(MOST_GRADES_OF_A_MARKER + random.below(2), 2),
    }
}

/// At the library's limits, or one past them.
pub fn limits_call(random: &mut Random) -> Call {
    let graph = limits_graph(random);
    let mut call = call_of(random, &graph);
    call.settings.loop_limit = random.pick(&[0, 5, 6, 300, PROGRAM_LOOPS]);
    if random.once_in(4) {
        let number = random.within(1, 2) as u32;
        faults::put_in(random, &mut call, number);
    }
    call
}

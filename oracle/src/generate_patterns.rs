//! Small graphs by seed, whose read patterns are all run.

use crate::call::Call;
use crate::faults;
use crate::faults_of_patterns::{self, CHECKS};
use crate::generate::call_of;
use crate::limits::*;
use crate::patterns::Patterns;
use crate::random::Random;
use crate::shapes::{chain, complete, cycle, random_pairs, tree, wide, Graph, Room};

/// Mostly few: each marker doubles the runs.
fn marker_count(random: &mut Random) -> usize {
    match random.below(100) {
        0..=2 => random.within(8, MOST_PATTERN_MARKERS),
        3..=14 => random.within(5, 7),
        15..=18 => 0,
        _ => random.within(1, 4),
    }
}

fn room(grades: usize, markers: usize, pairs: usize) -> Room {
    Room { grades, markers, pairs, grades_of_a_marker: MOST_GRADES_OF_A_MARKER }
}

fn usual_graph(random: &mut Random) -> Graph {
    let (grades, markers) = (random.within(1, 6), marker_count(random));
    let pairs = random.below(grades * markers + 1);
    match random.below(24) {
        0 => Graph { markers, ..Graph::default() },
        1..=3 => chain(2 * markers),
        4..=6 => cycle(markers.max(2)),
        7..=9 => complete(grades, markers),
        10..=12 => tree(random, markers.max(1) + 1),
        _ => random_pairs(random, room(grades, markers, pairs)),
    }
}

/// Many grades, on few markers.
fn large_graph(random: &mut Random) -> Graph {
    let (markers, pairs) = (random.within(2, 3), random.within(1, 150));
    match random.below(3) {
        0 => random_pairs(random, room(MOST_GRADES, markers, pairs)),
        _ => wide(random, room(MOST_GRADES_OF_A_MARKER, markers, 280)),
    }
}

/// A graph, and grades and markers in no pair of it.
pub(crate) fn any_graph(random: &mut Random) -> Graph {
    let mut graph = if random.once_in(60) { large_graph(random) } else { usual_graph(random) };
    if random.once_in(3) {
        graph.grades = MOST_GRADES.min(graph.grades + random.within(1, 3));
    }
    if random.once_in(6) {
        graph.markers = MOST_PATTERN_MARKERS.min(graph.markers + 1);
    }
    if !random.once_in(4) {
        graph.shuffle(random);
    }
    graph
}

/// About where the mark says nothing of one grade, and a belief is exactly 1/2.
fn halved(random: &mut Random) -> Patterns {
    let graph = complete(random.within(20, 40), random.within(1, 2));
    let mut call = call_of(random, &graph);
    (call.settings.alpha, call.settings.beta, call.settings.prior) = (LARGEST_SETTING, LEAST_SETTING, 0.5);
    Patterns::new(call)
}

/// A call of the graph that may be run so many times: what may never settle is kept short.
pub(crate) fn repeated_call(random: &mut Random, graph: &Graph, times: u32) -> Call {
    let mut call = call_of(random, graph);
    let settings = &mut call.settings;
    if random.once_in(3) {
        settings.tolerance = random.pick(&[0.0, PROGRAM_TOLERANCE, 0.5, 2.0]);
        settings.loop_limit = random.pick(&[0, 1, 5, 6, 7, 20, PROGRAM_LOOPS]);
    }
    if settings.tolerance < 1e-3 {
        settings.loop_limit = settings.loop_limit.min(10 + 4000 / times);
    }
    call
}

fn usual(random: &mut Random) -> Patterns {
    let graph = any_graph(random);
    Patterns::new(repeated_call(random, &graph, 1 << graph.markers))
}

const STRANGE: [f32; 8] = [f32::NAN, f32::INFINITY, f32::NEG_INFINITY, 0.25, 2.0, 0.0, -0.0, -1.0];

/// Other evidence, and room behind what is needed: neither makes a difference.
pub(crate) fn vary_what_is_unread(random: &mut Random, call: &mut Call, report: &mut usize) {
    if random.once_in(3) {
        call.evidence.fill_with(|| random.pick(&STRANGE));
    }
    if random.once_in(3) {
        call.lent.work_floats += random.within(1, 100);
        call.lent.work_words += random.within(1, 100);
        *report += random.within(1, 9);
    }
}

/// A request that no check refuses, whatever its evidence is.
pub fn accepted_patterns(random: &mut Random) -> Patterns {
    let mut request = if random.once_in(50) { halved(random) } else { usual(random) };
    vary_what_is_unread(random, &mut request.call, &mut request.report);
    request
}

/// Accepted, or with one to three faults, so that their order shows.
pub fn any_patterns(random: &mut Random) -> Patterns {
    let mut request = accepted_patterns(random);
    if random.once_in(3) {
        let numbers = faults::some_of(random, &CHECKS);
        numbers.iter().for_each(|&number| faults_of_patterns::put_in(random, &mut request, number));
    }
    request
}

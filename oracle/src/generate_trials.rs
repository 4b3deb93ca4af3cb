//! Graphs, settings and seeds, by seed, for trials on made-up bales.

use crate::faults;
use crate::faults_of_trials::{self, CHECKS};
use crate::generate::{call_of, limits_graph, SMALL};
use crate::generate_patterns::{any_graph, repeated_call, vary_what_is_unread};
use crate::limits::*;
use crate::random::Random;
use crate::shapes::{self, complete, wide, Graph};
use crate::trials::Trials;

fn graph(random: &mut Random) -> Graph {
    match random.below(30) {
        0 => wide(random, SMALL),
        1 => complete(random.within(126, MOST_GRADES_OF_A_MARKER), 1),
        2 | 3 => shapes::any_graph(random, SMALL),
        _ => any_graph(random),
    }
}

/// How many settings and bales: few of a large graph, now and then all that may be.
fn counts(random: &mut Random, graph: &Graph) -> (usize, u32) {
    let large = graph.pairs.len() > 40 || graph.grades > 100;
    match random.below(60) {
        0 => (MOST_SETTINGS, random.below(2) as u32),
        1 if graph.pairs.len() < 10 => (1, MOST_BALES),
        2 => (0, random.pick(&[0, 1, MOST_BALES])),
        3 => (random.within(0, MOST_SETTINGS), 0),
        _ if large => (random.within(1, 2), random.within(1, 2) as u32),
        4..=8 => (random.within(1, 2), random.within(20, 40) as u32),
        _ => (random.within(1, 4), random.within(1, 8) as u32),
    }
}

fn part(random: &mut Random) -> u32 {
    match random.below(6) {
        0 => 1,
        1 => 1023,
        2 => 512,
        _ => random.within(1, 1023) as u32,
    }
}

/// Half of them such that marks matter.
fn setting(random: &mut Random) -> [u32; 3] {
    match random.below(2) {
        0 => [random.within(512, 1023), random.within(1, 128), random.within(64, 768)].map(|part| part as u32),
        _ => [part(random), part(random), part(random)],
    }
}

/// Now and then one that was there before, which is to be reported as it was.
fn settings(random: &mut Random, count: usize) -> Vec<u32> {
    let mut settings: Vec<[u32; 3]> = (0..count).map(|_| setting(random)).collect();
    if count > 1 && random.once_in(3) {
        settings[count - 1] = settings[0];
    }
    settings.concat()
}

fn seed(random: &mut Random) -> u32 {
    match random.below(6) {
        0 => 1,
        1 => u32::MAX,
        2 => random.pick(&[2, 1 << 31, u32::MAX >> 1, 1 << 19, 1 << 27]),
        _ => (random.next() as u32).max(1),
    }
}

/// About where the mark says nothing of one grade, and a belief is exactly 1/2.
fn halved(random: &mut Random) -> Trials {
    let graph = complete(random.within(20, 40), random.within(1, 2));
    let call = call_of(random, &graph);
    Trials::new(call, vec![1023, 1, 512], seed(random), random.within(1, 3) as u32)
}

fn usual(random: &mut Random) -> Trials {
    let graph = graph(random);
    let (count, bales) = counts(random, &graph);
    let call = repeated_call(random, &graph, (count as u32 * bales).max(1));
    Trials::new(call, settings(random, count), seed(random), bales)
}

/// A request that no check refuses, whatever its evidence is.
pub fn accepted_trials(random: &mut Random) -> Trials {
    let mut request = if random.once_in(50) { halved(random) } else { usual(random) };
    vary_what_is_unread(random, &mut request.call, &mut request.report);
    if random.once_in(4) {
        let rest = random.within(1, 2);
        request.settings.extend((0..rest).map(|_| random.pick(&[0, 1, 512, 1024, u32::MAX])));
    }
    request
}

/// At the library's limits: one bale at most is run, or as many as may be of no setting.
fn at_limits(random: &mut Random) -> Trials {
    let graph = limits_graph(random);
    let mut call = call_of(random, &graph);
    call.settings.loop_limit = random.pick(&[0, 5, 6, 300]);
    let (count, bales) = random.pick(&[(1, 1), (1, 1), (0, MOST_BALES), (MOST_SETTINGS, 0)]);
    Trials::new(call, settings(random, count), seed(random), bales)
}

/// Accepted, at the limits, or with one to three faults, so that their order shows.
pub fn any_trials(random: &mut Random) -> Trials {
    if random.once_in(500) {
        return at_limits(random);
    }
    let mut request = accepted_trials(random);
    if random.once_in(3) {
        let numbers = faults::some_of(random, &CHECKS);
        numbers.iter().for_each(|&number| faults_of_trials::put_in(random, &mut request, number));
    }
    request
}

//! Requests to try settings whose report or refusal is known.

use crate::limits::*;
use crate::listed_patterns::{of_graph, settings};
use crate::refusal::Refusal;
use crate::shapes::{complete, cycle, Graph};
use crate::trials::Trials;

pub struct Listed {
    pub name: &'static str,
    pub request: Trials,
    /// Agreed and not, of each setting; or the refusal.
    pub outcome: Result<Vec<u32>, Refusal>,
}

/// alpha, beta, prior.
pub const USUAL: [u32; 3] = [700, 50, 400];

/// From seed 1. The call's own alpha, beta and prior would be refused, and are not read.
pub fn of(graph: &Graph, tried: &[[u32; 3]], bales: u32) -> Trials {
    let call = of_graph(settings([f32::NAN; 3]), graph).call;
    Trials::new(call, tried.concat(), 1, bales)
}

pub fn graph(grades: usize, markers: usize, pairs: &[(usize, usize)]) -> Graph {
    Graph { grades, markers, pairs: pairs.to_vec() }
}

/// Two grades, two markers.
pub fn two(tried: &[[u32; 3]], bales: u32) -> Trials {
    of(&graph(2, 2, &[(0, 0), (1, 0), (1, 1)]), tried, bales)
}

/// The request with one change.
pub fn changed(mut request: Trials, change: impl Fn(&mut Trials)) -> Trials {
    change(&mut request);
    request
}

fn answered(name: &'static str, request: Trials, report: &[u32]) -> Listed {
    Listed { name, request, outcome: Ok(report.to_vec()) }
}

fn small() -> Vec<Listed> {
    let two_settings = [[100, 500, 900], USUAL];
    let last_seed = |request: &mut Trials| request.seed = u32::MAX;
    let not_a_number = |request: &mut Trials| request.call.evidence.fill(f32::NAN);
    let with_rest = |request: &mut Trials| request.settings.extend([0; 2]);
    let (apart, idle) = (graph(3, 2, &[(0, 0), (2, 1)]), graph(2, 3, &[(0, 0), (1, 2)]));
    vec![
        answered("one grade on a marker, 1 bale", of(&complete(1, 1), &[[512; 3]], 1), &[1, 0]),
        answered("two grades, two markers, 5 bales", two(&[USUAL], 5), &[10, 0]),
        answered("two settings, both from the seed", two(&two_settings, 5), &[9, 1, 10, 0]),
        answered("evidence is not read", changed(two(&two_settings, 5), not_a_number), &[9, 1, 10, 0]),
        answered("the last seed, 20 bales", changed(two(&[USUAL], 20), last_seed), &[31, 9]),
        answered("a grade without a marker", of(&apart, &[USUAL], 10), &[15, 5]),
        answered("a marker without a grade", of(&idle, &[USUAL], 10), &[17, 3]),
        answered("1,000 bales of one grade", of(&complete(1, 1), &[USUAL], 1000), &[849, 151]),
        answered("no setting", two(&[], 1000), &[]),
        answered("no bale", two(&two_settings, 0), &[0; 4]),
        answered("no grade", of(&graph(0, 2, &[]), &[USUAL], 3), &[0; 2]),
        answered("no marker", of(&graph(3, 0, &[]), &[USUAL], 3), &[0; 2]),
        answered("194 numbers are 64 settings", changed(two(&[USUAL; 64], 0), with_rest), &[0; 128]),
    ]
}

/// Exactly 1/2 whatever is read, so that only absent grades agree.
pub fn halved() -> Trials {
    of(&complete(28, 1), &[[1023, 1, 512]], 1)
}

/// Reports that tolerance, limit or the regularised mark decide on, and crowded markers.
fn telling() -> Vec<Listed> {
    let ring = |setting, bales| of(&cycle(5), &[setting], bales);
    let lax = |request: &mut Trials| request.call.settings.tolerance = 2.0;
    let regularised = |request: &mut Trials| request.call.settings.regularised = true;
    let sixth = |request: &mut Trials| request.call.settings.loop_limit = 6;
    let other_seed = |request: &mut Trials| request.seed = 12345;
    let (even, sure) = ([519, 174, 536], [860, 53, 775]);
    let three = changed(of(&cycle(3), &[USUAL, [300; 3]], 1000), other_seed);
    vec![
        answered("a ring of 3, seed 12345, 1,000 bales", three, &[2330, 670, 2123, 877]),
        answered("a ring of 5", ring(even, 50), &[175, 75]),
        answered("a ring of 5, tolerance 2", changed(ring(even, 50), lax), &[165, 85]),
        answered("a ring of 5, regularised", changed(ring(even, 50), regularised), &[171, 79]),
        answered("another ring of 5", ring(sure, 40), &[152, 48]),
        answered("another ring of 5, limit 6", changed(ring(sure, 40), sixth), &[154, 46]),
        answered("40 grades on a marker", of(&complete(40, 1), &[[1023, 100, 512]], 6), &[124, 116]),
        answered("70 grades on a marker, over 2^16 agree", of(&complete(70, 1), &[[1023, 1, 1]], 1000), &[69934, 66]),
        answered("128 grades on a marker", of(&complete(128, 1), &[USUAL], 4), &[311, 201]),
    ]
}

fn refused() -> Vec<Listed> {
    let listed = |name, request, number, place| Listed { name, request, outcome: Err(Refusal { number, place }) };
    let many = two(&[USUAL; 65], 1);
    let crowd = changed(many.clone(), |request| request.call.grades = MOST_GRADES as u32 + 1);
    let unseeded = changed(crowd.clone(), |request| request.seed = 0);
    let mut last = [USUAL; 64];
    last[63][2] = 1024;
    let no_prior = changed(two(&[[700, 50, 0]], 1), |request| request.call.settings.tolerance = f32::NAN);
    vec![
        listed("seed 0, 65 settings, 1,025 grades", unseeded, 16, 0),
        listed("65 settings, 1,025 grades", crowd, 17, 0),
        listed("65 settings", many, 17, 0),
        listed("1,001 bales, no setting", two(&[], 1001), 17, 0),
        listed("beta and prior of the second setting", two(&[USUAL, [5, 0, 1024], USUAL], 1), 3, 4),
        listed("prior of the 64th setting", two(&last, 0), 3, 191),
        listed("a report of 3 for two settings", changed(two(&[USUAL; 2], 1), |request| request.report = 3), 2, 0),
        listed("prior 0 and a tolerance of NaN", no_prior, 3, 2),
        listed("129 grades on a marker", of(&complete(129, 1), &[USUAL], 0), 8, 0),
    ]
}

pub fn listed() -> Vec<Listed> {
    small().into_iter().chain(telling()).chain(refused()).collect()
}

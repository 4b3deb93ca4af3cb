//! Small graphs with known counts.

use crate::call::{Call, Lent, Settings};
use crate::limits::*;
use crate::patterns::Patterns;
use crate::shapes::{complete, cycle, Graph};

pub struct Listed {
    pub name: &'static str,
    pub request: Patterns,
    /// Above, not above, none, of each grade.
    pub counts: Vec<[u32; 3]>,
}

/// alpha, beta, prior.
const USUAL: [f32; 3] = [0.7, 0.05, 0.4];

pub fn settings([alpha, beta, prior]: [f32; 3]) -> Settings {
    let (tolerance, loop_limit) = (PROGRAM_TOLERANCE, PROGRAM_LOOPS);
    Settings { alpha, beta, prior, regularised: false, tolerance, loop_limit }
}

/// The graph with evidence that is neither strong nor weak.
pub fn of_graph(settings: Settings, graph: &Graph) -> Patterns {
    Patterns::new(Call {
        settings,
        grades: graph.grades as u32,
        evidence: [0.25, 0.75].repeat(graph.markers),
        pairs: graph.pairs.iter().flat_map(|&(g, m)| [g as u32, m as u32]).collect(),
        lent: Lent::needed(0, 0, 0),
    })
}

pub fn usual(grades: usize, markers: usize, pairs: &[(usize, usize)]) -> Patterns {
    of_graph(settings(USUAL), &Graph { grades, markers, pairs: pairs.to_vec() })
}

/// Two grades, two markers.
pub fn two() -> Patterns {
    usual(2, 2, &[(0, 0), (1, 0), (1, 1)])
}

/// Five grades and five markers.
fn ring(settings: Settings) -> Patterns {
    of_graph(settings, &cycle(5))
}

/// So many markers, each on so many grades of its own.
pub fn crowds(markers: usize, width: usize) -> Graph {
    let grades = markers * width;
    Graph { grades, markers, pairs: (0..grades).map(|grade| (grade, grade / width)).collect() }
}

fn small() -> Vec<Listed> {
    let listed = |name, request, counts: &[[u32; 3]]| Listed { name, request, counts: counts.to_vec() };
    vec![
        listed("no marker, no grade", usual(0, 0, &[]), &[]),
        listed("no marker", usual(3, 0, &[]), &[[0, 0, 1]; 3]),
        listed("no grade", usual(0, 2, &[]), &[]),
        listed("one grade on a marker", usual(1, 1, &[(0, 0)]), &[[1, 1, 0]]),
        listed("two grades, two markers", two(), &[[1, 3, 0], [2, 2, 0]]),
        listed("a grade without a marker", usual(3, 2, &[(0, 0), (2, 1)]), &[[2, 2, 0], [0, 0, 4], [2, 2, 0]]),
        listed("a marker without a grade", usual(2, 3, &[(0, 0), (1, 2)]), &[[4, 4, 0]; 2]),
        listed("10 markers on a grade", of_graph(settings(USUAL), &complete(1, 10)), &[[848, 176, 0]]),
        listed("10 markers in no pair", usual(2, 10, &[]), &[[0, 0, 1024]; 2]),
    ]
}

/// Every belief is exactly 1/2.
pub fn halved() -> Patterns {
    of_graph(settings([LARGEST_SETTING, LEAST_SETTING, 0.5]), &complete(28, 1))
}

/// Beliefs that a tolerance decides on, and beliefs of exactly 1/2.
fn telling() -> Vec<Listed> {
    let listed = |name, request, grades, counts| Listed { name, request, counts: vec![counts; grades] };
    let of_ring = settings([0.5069, 0.1696, 0.523]);
    let lax = Settings { tolerance: 2.0, ..of_ring.clone() };
    let regularised = Settings { regularised: true, tolerance: 0.5, ..settings([0.9493, 0.2255, 0.3173]) };
    let full = of_graph(Settings { loop_limit: 100, ..settings([0.7, 0.05, 0.5]) }, &crowds(8, 128));
    vec![
        listed("28 grades on a marker, exactly 1/2", halved(), 28, [0, 2, 0]),
        listed("a ring of 5", ring(of_ring), 5, [16, 16, 0]),
        listed("a ring of 5, tolerance 2", ring(lax), 5, [24, 8, 0]),
        listed("a ring of 5, regularised, tolerance 1/2", ring(regularised), 5, [7, 25, 0]),
        listed("1,024 grades, 8 markers of 128", full, 1024, [0, 256, 0]),
    ]
}

pub fn listed() -> Vec<Listed> {
    small().into_iter().chain(telling()).collect()
}

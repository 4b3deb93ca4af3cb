//! Calls about number 8's end: a marker on 64 to 129 grades.

use crate::call::{Call, Lent, Settings};
use crate::limits::*;
use crate::shapes::{complete, Graph};

fn call_of(graph: &Graph, regularised: bool, e: impl Fn(usize) -> usize) -> Call {
    let of_1024 = |n: f32| n / 1024.0;
    Call {
        settings: Settings {
            alpha: of_1024(16.0),
            beta: of_1024(1.0),
            prior: of_1024(64.0),
            regularised,
            tolerance: PROGRAM_TOLERANCE,
            loop_limit: PROGRAM_LOOPS,
        },
        grades: graph.grades as u32,
        evidence: (0..graph.markers).flat_map(|m| [16384 - e(m), e(m)]).map(|n| n as f32 / 16384.0).collect(),
        pairs: graph.pairs.iter().flat_map(|&(g, m)| [g as u32, m as u32]).collect(),
        lent: Lent::needed(graph.grades, graph.markers, graph.pairs.len()),
    }
}

/// Marker 0 on all grades, and each grade on a marker of its own besides.
pub fn shared_by(grades: usize, regularised: bool) -> Call {
    let mut graph = complete(grades, 1);
    graph.pairs.extend((0..grades).map(|grade| (grade, grade + 1)));
    graph.markers += grades;
    call_of(&graph, regularised, |m| if m == 0 { 16000 } else { 1 + 251 * (m - 1) % 16383 })
}

/// So many markers, each on all grades.
pub fn crowded(grades: usize, markers: usize) -> Call {
    call_of(&complete(grades, markers), false, |_| 8192)
}

pub fn calls() -> Vec<Call> {
    let shared = (64..=129).flat_map(|grades| [shared_by(grades, false), shared_by(grades, true)]);
    let crowded = (127..=129).flat_map(|grades| [crowded(grades, 1), crowded(grades, 2)]);
    shared.chain(crowded).collect()
}

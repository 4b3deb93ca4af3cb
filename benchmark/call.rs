//! Times the proved call beside the Rust, in one process: the median of several rounds on each shape. Run by benchmark/call.

#[path = "../differential/buffer.rs"]
mod buffer;
#[path = "../differential/compare.rs"]
mod compare;
#[path = "../differential/library.rs"]
mod library;
mod measure;

use library::{Buffers, calibrate};
use measure::{median, milliseconds, peak_stack};
use oracle::call::{Call, Lent, Outcome, Settings, call};
use oracle::random::Random;
use oracle::shapes::{Graph, Room, chain, complete, cycle, random_pairs};
use std::hint::black_box;

const ROUNDS: usize = 7;

/// The program's settings, with evidence that makes the loop work.
fn call_of(graph: &Graph, tolerance: f32) -> Call {
    let mut random = Random::new(5);
    let mut evidence = || {
        let e = random.within(1, 16383) as f32 / 16384.0;
        [1.0 - e, e]
    };
    Call {
        settings: Settings { alpha: 0.75, beta: 0.0625, prior: 0.25, regularised: false, tolerance, loop_limit: 10_000 },
        grades: graph.grades as u32,
        evidence: (0..graph.markers).flat_map(|_| evidence()).collect(),
        pairs: graph.pairs.iter().flat_map(|&(g, m)| [g as u32, m as u32]).collect(),
        lent: Lent::needed(graph.grades, graph.markers, graph.pairs.len()),
    }
}

fn steps_of(outcome: &Outcome) -> u64 {
    match outcome {
        Outcome::Refused(_) => 0,
        Outcome::Answered { endings, .. } => endings.iter().map(|part| u64::from(part.steps)).sum(),
    }
}

/// One line of the table: times, ratio, steps.
fn line(name: &str, request: &Call) -> bool {
    let outcome = call(request);
    assert!(compare::agrees_with(request, &outcome), "{name}: the answers differ");
    let mut lent = Buffers::lent(request);
    let (mut ours, mut rust) = (vec![], vec![]);
    for _ in 0..ROUNDS {
        ours.push(milliseconds(|| {
            black_box(calibrate(black_box(request), &mut lent));
        }));
        rust.push(milliseconds(|| {
            black_box(call(black_box(request)));
        }));
    }
    let (ours, rust, steps) = (median(ours), median(rust), steps_of(&outcome));
    let rate = steps as f64 / ours * 1000.0;
    println!("| {name} | {rust:.3} | {ours:.3} | {:.2} | {steps} | {rate:.0} |", ours / rust);
    ours <= 0.5 * rust
}

fn peak_stack_of(request: &Call) -> usize {
    let mut lent = Buffers::lent(request);
    peak_stack(|| {
        black_box(calibrate(black_box(request), &mut lent));
    })
}

fn room(grades: usize, markers: usize, pairs: usize) -> Room {
    Room { grades, markers, pairs, grades_of_a_marker: 64 }
}

/// So many markers, each on so many of 1,024 grades.
fn crowded(markers: usize, width: usize) -> Graph {
    let pairs = (0..markers).flat_map(|m| (0..width).map(move |i| ((m * 61 + i * 17) % 1024, m))).collect();
    Graph { grades: 1024, markers, pairs }
}

fn main() {
    let random = |pairs| random_pairs(&mut Random::new(7), room(1024, 1024, pairs));
    println!("| shape | Rust, ms | proved, ms | ratio | steps | steps a second |\n|---|---|---|---|---|---|");
    let mut within = true;
    let mut take = |name: &str, graph: &Graph, tolerance| within &= line(name, &call_of(graph, tolerance));
    take("1,024 grades, 1,024 markers, 8,192 pairs at random", &random(8192), 0.006);
    take("the same, tolerance 0", &random(8192), 0.0);
    take("8 grades on each of 1,024 markers", &complete(8, 1024), 0.006);
    take("1 grade on 1,024 markers", &complete(1, 1024), 0.006);
    take("1,024 grades, 128 markers of 64 grades", &crowded(128, 64), 0.006);
    take("64 grades on each of 128 markers, tolerance 0", &complete(64, 128), 0.0);
    take("1,024 grades, 64 markers of 128 grades", &crowded(64, 128), 0.006);
    take("a chain of 1,024 grades and 1,024 markers", &chain(2048), 0.006);
    take("a cycle of 1,024 grades and 1,024 markers", &cycle(1024), 0.006);
    println!("\npeak stack of the call: {} KiB", peak_stack_of(&call_of(&random(8192), 0.006)).div_ceil(1024));
    println!("\nAs the pairs grow, 1,024 grades and 1,024 markers at random:\n");
    println!("| pairs | Rust, ms | proved, ms | ratio | steps | steps a second |\n|---|---|---|---|---|---|");
    for pairs in [256, 512, 1024, 2048, 4096, 8192] {
        take(&pairs.to_string(), &random(pairs), 0.006);
    }
    println!("\n{}", if within { "every ratio is at most 0.5" } else { "a ratio is above 0.5" });
}

//! Times the proved trials of settings beside as many plain calls of the library on the same made-up bales, which draw and tally nothing, and
//! beside the reference, in one process: the median of several rounds on each shape. Run by benchmark/trials.

#[path = "../differential/buffer.rs"]
mod buffer;
mod drawing;
mod graphs;
#[path = "../differential/library.rs"]
mod library;
mod measure;
#[path = "../differential/reporting.rs"]
mod reporting;
#[path = "../differential/trials/library.rs"]
mod trying;

use drawing::draw_and_tally;
use graphs::{at_random, film};
use library::calibrate;
use measure::{median, milliseconds, peak_stack};
use oracle::call::{Belief, Call, Outcome, call};
use oracle::listed_patterns::crowds;
use oracle::listed_trials::of;
use oracle::shapes::{Graph, complete, cycle};
use oracle::trials::{self, Trials, call_of, history, numbers_of};
use reporting::Reporting;
use std::hint::black_box;
use trying::{Reply, try_settings};

fn lent(request: &Trials) -> Reporting {
    Reporting::lent(&request.call.lent, request.report)
}

/// The plain calls that the trials make, in their order.
fn plain_calls(request: &Trials) -> Vec<Call> {
    let graph = &request.call;
    let of_setting = |setting| {
        let bales = history(graph, setting, request.seed, request.bales);
        bales.into_iter().map(move |bale| call_of(graph, setting, &bale))
    };
    request.settings().flat_map(of_setting).collect()
}

fn beliefs_of(request: &Call) -> Vec<Belief> {
    match call(request) {
        Outcome::Answered { beliefs, .. } => beliefs,
        Outcome::Refused(refusal) => panic!("a made-up bale is refused {} at {}", refusal.number, refusal.place),
    }
}

/// The library's report, which is the reference's, and that of the draws and tally alone.
fn compared(name: &str, request: &Trials, beliefs: &[Vec<Belief>]) {
    let wanted = trials::try_settings(request);
    let mut lent = lent(request);
    assert!(try_settings(request, &mut lent) == Reply::of(&wanted), "{name}: the replies differ");
    let numbers = numbers_of(&wanted.expect("an accepted graph"));
    assert!(lent.holds(&numbers, request.call.lent.work_words), "{name}: the reports differ");
    assert!(draw_and_tally(request, beliefs) == numbers, "{name}: the draws and tally differ");
}

/// In milliseconds; a round has one of each.
#[derive(Default)]
struct Times {
    proved: Vec<f64>,
    plain: Vec<f64>,
    rust: Vec<f64>,
    drawing: Vec<f64>,
}

fn times(name: &str, request: &Trials, rounds: usize) -> Times {
    let calls = plain_calls(request);
    let beliefs: Vec<Vec<Belief>> = calls.iter().map(beliefs_of).collect();
    compared(name, request, &beliefs);
    let (mut lent, mut plain) = (lent(request), library::Buffers::lent(&calls[0]));
    let mut times = Times::default();
    for _ in 0..rounds {
        times.proved.push(milliseconds(|| {
            black_box(try_settings(black_box(request), &mut lent));
        }));
        times.plain.push(milliseconds(|| {
            for call in &calls {
                black_box(calibrate(black_box(call), &mut plain));
            }
        }));
        times.rust.push(milliseconds(|| {
            black_box(trials::try_settings(black_box(request))).ok();
        }));
        times.drawing.push(milliseconds(|| {
            black_box(draw_and_tally(black_box(request), black_box(&beliefs)));
        }));
    }
    assert!(plain.intact(), "{name}: a plain call wrote outside its buffers");
    times
}

/// One line of the table.
fn line(name: &str, request: &Trials, rounds: usize) {
    let Times { proved, plain, rust, drawing } = times(name, request, rounds);
    let more = proved.iter().zip(&plain).map(|(proved, plain)| 100.0 * (proved - plain) / proved).collect();
    let (proved, plain, rust, drawing, more) = (median(proved), median(plain), median(rust), median(drawing), median(more));
    let runs = request.setting_count() * request.bales as usize;
    let (ratio, share) = (proved / rust, 100.0 * drawing / proved);
    println!("| {name} | {runs} | {rust:.3} | {plain:.3} | {proved:.3} | {ratio:.2} | {more:.1} % | {share:.2} % |");
}

/// Two settings.
fn usual(graph: &Graph, bales: u32) -> Trials {
    of(graph, &[[768, 64, 256], [960, 16, 512]], bales)
}

const COLUMNS: &str = "\
Milliseconds for all bales of two settings, medians of the rounds.
Rust: the reference. Plain calls: as many calls of the library on the same bales, made up beforehand. Proved: the call that tries settings.
More: how much of the proved call's time is not in the plain calls of the same round, the draws, the tally, and buffers for answers of its
own; the middle one of the rounds. Drawing: the draws and the tally alone in plain Rust, with beliefs at hand, beside the proved call's time.

| shape | runs | Rust | plain calls | proved | ratio to the Rust | more | drawing |
|---|---|---|---|---|---|---|---|";

fn main() {
    println!("{COLUMNS}");
    line("5 grades, no marker", &usual(&complete(5, 0), 100), 101);
    line("examples/film.txt: 5 grades, 4 markers, 6 pairs", &usual(&film(), 100), 101);
    line("a ring of 5 grades and 5 markers", &usual(&cycle(5), 100), 51);
    line("24 grades, 24 markers, 60 pairs at random", &usual(&at_random(24, 24, 60), 30), 31);
    line("8 markers, each on 128 grades of its own", &usual(&crowds(8, 128), 10), 11);
    line("1 grade on 1,024 markers", &usual(&complete(1, 1024), 5), 11);
    line("1,024 grades, 1,024 markers, 1,024 pairs at random", &usual(&at_random(1024, 1024, 1024), 3), 11);
    line("1,024 grades, 1,024 markers, 8,192 pairs at random", &usual(&at_random(1024, 1024, 8192), 1), 11);
    let request = usual(&at_random(24, 24, 60), 5);
    let mut lent = lent(&request);
    let stack = peak_stack(|| {
        black_box(try_settings(black_box(&request), &mut lent));
    });
    println!("\npeak stack of the call: {} KiB", stack.div_ceil(1024));
}

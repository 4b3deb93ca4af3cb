//! Times the proved counting over all read patterns beside as many plain calls of the library, which do no counting, and beside the
//! reference, in one process: the median of several rounds on each shape. Run by benchmark/patterns.

#[path = "../differential/buffer.rs"]
mod buffer;
#[path = "../differential/patterns/library.rs"]
mod counting;
mod graphs;
#[path = "../differential/library.rs"]
mod library;
mod measure;
#[path = "../differential/reporting.rs"]
mod reporting;

use counting::{Reply, count_patterns};
use graphs::{at_random, film};
use library::calibrate;
use measure::{median, milliseconds, peak_stack};
use oracle::call::Call;
use oracle::listed_patterns::{crowds, of_graph, settings};
use oracle::patterns::{self, Patterns, numbers_of, read_lists};
use oracle::reads::with_reads;
use oracle::shapes::{Graph, complete, cycle};
use reporting::Reporting;
use std::hint::black_box;

fn lent(request: &Patterns) -> Reporting {
    Reporting::lent(&request.call.lent, request.report)
}

/// The library's counts, which are the reference's.
fn compared(name: &str, request: &Patterns) {
    let wanted = patterns::count_patterns(request);
    let mut lent = lent(request);
    assert!(count_patterns(request, &mut lent) == Reply::of(&wanted), "{name}: the replies differ");
    let numbers = numbers_of(&wanted.expect("an accepted graph"));
    assert!(lent.holds(&numbers, request.call.lent.work_words), "{name}: the counts differ");
}

/// One line of the table: the three medians, and the counting's ratio to the plain calls and to the Rust.
fn line(name: &str, request: &Patterns) {
    compared(name, request);
    let lists = read_lists(request.call.marker_count());
    let calls: Vec<Call> = lists.iter().map(|reads| with_reads(&request.call, reads)).collect();
    let (mut lent, mut plain) = (lent(request), library::Buffers::lent(&calls[0]));
    let (mut ours, mut same, mut rust) = (vec![], vec![], vec![]);
    for _ in 0..if lists.len() > 100 { 7 } else { 301 } {
        ours.push(milliseconds(|| {
            black_box(count_patterns(black_box(request), &mut lent));
        }));
        same.push(milliseconds(|| {
            for call in &calls {
                black_box(calibrate(black_box(call), &mut plain));
            }
        }));
        rust.push(milliseconds(|| {
            black_box(patterns::count_patterns(black_box(request))).ok();
        }));
    }
    assert!(plain.intact(), "{name}: a plain call wrote outside its buffers");
    let (ours, same, rust) = (median(ours), median(same), median(rust));
    let ratios = format!("{:.2} | {:.2}", ours / same, ours / rust);
    println!("| {name} | {} | {rust:.4} | {same:.4} | {ours:.4} | {ratios} |", lists.len());
}

fn main() {
    let usual = |graph: &Graph| of_graph(settings([0.75, 0.0625, 0.25]), graph);
    println!("Milliseconds for all patterns.\n");
    println!("| shape | patterns | Rust | plain calls | proved | ratio to the plain calls | ratio to the Rust |");
    println!("|---|---|---|---|---|---|---|");
    line("5 grades, no marker", &usual(&complete(5, 0)));
    line("examples/film.txt: 5 grades, 4 markers, 6 pairs", &usual(&film()));
    line("a ring of 5 grades and 5 markers", &usual(&cycle(5)));
    line("a ring of 10 grades and 10 markers", &usual(&cycle(10)));
    line("5 grades, 10 markers, 12 pairs at random", &usual(&at_random(5, 10, 12)));
    line("20 grades, 10 markers, 40 pairs at random", &usual(&at_random(20, 10, 40)));
    line("10 markers, each on 64 grades of its own", &usual(&crowds(10, 64)));
    line("8 markers, each on 128 grades of its own", &usual(&crowds(8, 128)));
    let request = usual(&at_random(20, 10, 40));
    let mut lent = lent(&request);
    let stack = peak_stack(|| {
        black_box(count_patterns(black_box(&request), &mut lent));
    });
    println!("\npeak stack of the call: {} KiB", stack.div_ceil(1024));
}

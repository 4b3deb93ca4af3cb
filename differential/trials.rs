//! Compares the proved trials of settings with trials by the Rust: the reply, every entry of the report, and the work that is to be zero or
//! to stay.

mod library;
mod shrink;
mod totals;

use crate::compare::work_needed;
use crate::reporting::Reporting;
use crate::seeds::Kind;
use crate::small;
use library::{Reply, try_settings};
use oracle::generate_trials::any_trials;
use oracle::listed_trials;
use oracle::refusal::Refusal;
use oracle::trials::{self, Agreement, Trials, numbers_of};
use totals::Totals;

type Outcome = Result<Vec<Agreement>, Refusal>;

fn lent(request: &Trials) -> Reporting {
    Reporting::lent(&request.call.lent, request.report)
}

fn agrees_with(request: &Trials, outcome: &Outcome) -> bool {
    let mut lent = lent(request);
    let reply = try_settings(request, &mut lent);
    let (numbers, work) = match outcome {
        Ok(agreements) => (numbers_of(agreements), work_needed(&request.call)),
        Err(_) => (vec![], 0),
    };
    reply == Reply::of(outcome) && lent.holds(&numbers, work)
}

fn compared(request: &Trials, totals: &mut Totals) -> bool {
    let outcome = trials::try_settings(request);
    totals.take(request, &outcome);
    agrees_with(request, &outcome)
}

/// A request that fails, and what both sides make of it.
fn report(request: &Trials) {
    let least = shrink::shrink(request, |less| !compared(less, &mut Totals::default()));
    let outcome = trials::try_settings(&least);
    let mut lent = lent(&least);
    let reply = try_settings(&least, &mut lent);
    let wanted = outcome.map(|agreements| numbers_of(&agreements));
    println!("differs:\n{least}the reference: {wanted:?}\nthe library: {reply:?}\n{lent}");
}

const TRIALS: Kind<Trials, Totals> = Kind {
    name: "trials",
    draw: any_trials,
    compared,
    add: Totals::add,
    count: |totals| totals.requests,
    report,
};

/// Each small graph once with each way to run it, and another seed each time.
fn small_graphs() -> impl Iterator<Item = Trials> {
    const TRIED: [u32; 9] = [700, 50, 400, 1023, 512, 700, 300, 1, 512];
    let once = small::calls().step_by(small::EVIDENCE.len());
    (1..).zip(once).map(|(seed, call)| Trials::new(call, TRIED.to_vec(), seed, 3))
}

pub fn listed() -> bool {
    let known = listed_trials::listed().into_iter().map(|known| known.request);
    TRIALS.listed("requests with known reports and refusals", known)
        && TRIALS.listed("all graphs of up to 3 grades and 3 markers, three settings, three bales", small_graphs())
}

pub fn random(seed: u64, count: u64) -> bool {
    TRIALS.random(seed, count)
}

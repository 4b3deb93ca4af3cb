//! Compares the proved counts over all read patterns with counts over the Rust's answers: the reply, every entry of the report, and the
//! work that is to be zero or to stay.

mod library;
mod totals;

use crate::compare::work_needed;
use crate::reporting::Reporting;
use crate::seeds::Kind;
use crate::{shrink, small};
use library::{Reply, count_patterns};
use oracle::call::Call;
use oracle::generate_patterns::any_patterns;
use oracle::listed_patterns;
use oracle::patterns::{self, Patterns, Standing, numbers_of};
use oracle::refusal::Refusal;
use totals::Totals;

type Outcome = Result<Vec<Standing>, Refusal>;

fn lent(request: &Patterns) -> Reporting {
    Reporting::lent(&request.call.lent, request.report)
}

fn agrees_with(request: &Patterns, outcome: &Outcome) -> bool {
    let mut lent = lent(request);
    let reply = count_patterns(request, &mut lent);
    let (numbers, work) = match outcome {
        Ok(standings) => (numbers_of(standings), work_needed(&request.call)),
        Err(_) => (vec![], 0),
    };
    reply == Reply::of(outcome) && lent.holds(&numbers, work)
}

fn compared(request: &Patterns, totals: &mut Totals) -> bool {
    let outcome = patterns::count_patterns(request);
    totals.take(request, &outcome);
    agrees_with(request, &outcome)
}

/// The smallest that is found; the report keeps what it has over, or lacks of, three numbers a grade.
fn shrunk(request: &Patterns) -> Patterns {
    let fitted = |call: &Call| {
        let mut less = Patterns { call: call.clone(), report: 0 };
        less.report = (request.report + less.report_needed()).saturating_sub(request.report_needed());
        less
    };
    fitted(&shrink::shrink(&request.call, |less| !compared(&fitted(less), &mut Totals::default())))
}

/// A request that fails, and what both sides make of it.
fn report(request: &Patterns) {
    let least = shrunk(request);
    let outcome = patterns::count_patterns(&least);
    let mut lent = lent(&least);
    let reply = count_patterns(&least, &mut lent);
    let wanted = outcome.map(|standings| numbers_of(&standings));
    println!("differs:\n{least}the reference: {wanted:?}\nthe library: {reply:?}\n{lent}");
}

const PATTERNS: Kind<Patterns, Totals> = Kind {
    name: "patterns",
    draw: any_patterns,
    compared,
    add: Totals::add,
    count: |totals| totals.requests,
    report,
};

pub fn listed() -> bool {
    let known = listed_patterns::listed().into_iter().map(|known| known.request);
    PATTERNS.listed("graphs with known counts", known)
        && PATTERNS.listed("all graphs of up to 3 grades and 3 markers", small::calls().map(Patterns::new))
}

pub fn random(seed: u64, count: u64) -> bool {
    PATTERNS.random(seed, count)
}

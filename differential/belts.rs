//! Compares the proved matching of reads with the reference, belt by belt: the reply, every entry of the buffer, and that no list of
//! matches is longer.

mod library;
mod shrink;
mod small;
mod totals;

use crate::buffer::{Buffer, UNTOUCHED};
use crate::seeds::Kind;
use library::{Reply, match_reads};
use oracle::belt::{Belt, Match, matches, reads_of};
use oracle::generate_belts::any_belt;
use oracle::longest::longest;
use oracle::refusal::Refusal;
use totals::Totals;

type Outcome = Result<Vec<Match>, Refusal>;

fn agrees_with(belt: &Belt, outcome: &Outcome) -> bool {
    let mut lent = Buffer::new(belt.lent);
    let reply = match_reads(belt, &mut lent);
    let written = outcome.as_deref().unwrap_or(&[]);
    reply == Reply::of(outcome) && lent.intact() && lent.begins_with(written.as_flattened())
}

/// The longest list of an answered belt, where it is small enough to be searched for one.
fn longest_list(belt: &Belt, outcome: &Outcome) -> Option<usize> {
    let searched = outcome.is_ok() && belt.upper_count().max(belt.lower_count()) <= 64;
    searched.then(|| longest(&reads_of(&belt.upper), &reads_of(&belt.lower), belt.window))
}

fn compared(belt: &Belt, totals: &mut Totals) -> bool {
    let outcome = matches(belt);
    let longest = longest_list(belt, &outcome);
    totals.take(belt, &outcome, longest.is_some());
    let count = outcome.as_ref().map_or(0, Vec::len);
    longest.is_none_or(|length| length == count) && agrees_with(belt, &outcome)
}

/// A belt that fails: the smallest that is found, and what both sides make of it.
fn report(belt: &Belt) {
    let least = shrink::shrink(belt, |less| !compared(less, &mut Totals::default()));
    let outcome = matches(&least);
    let mut lent = Buffer::new(least.lent);
    let reply = match_reads(&least, &mut lent);
    let word = |&word: &u32| if word == UNTOUCHED { " -".to_string() } else { format!(" {word}") };
    let entries: String = lent.entries().iter().map(word).collect();
    println!("differs:\n{least}the reference: {outcome:?}\nthe library: {reply:?}\nits buffer:{entries}");
    if !lent.intact() {
        println!("the library wrote outside its buffer");
    }
    if let Some(length) = longest_list(&least, &outcome) {
        println!("the longest list has {length}");
    }
}

const BELTS: Kind<Belt, Totals> = Kind {
    name: "belts",
    draw: any_belt,
    compared,
    add: Totals::add,
    count: |totals| totals.belts,
    report,
};

pub fn all_small() -> bool {
    BELTS.listed("all belts of up to 3 reads a side, ticks and windows 0 to 3, 2 markers", small::belts())
}

pub fn random(seed: u64, count: u64) -> bool {
    BELTS.random(seed, count)
}

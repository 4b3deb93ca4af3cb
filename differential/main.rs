//! Compares the proved library with the Rust, call by call, in one process. Run by differential/run.

mod belts;
mod buffer;
mod compare;
mod hostile;
mod library;
mod patterns;
mod reporting;
mod seeds;
mod shrink;
mod small;
mod threads;
mod totals;
mod trials;

use compare::agrees_with;
use oracle::alone::{entered_alone, parts_of};
use oracle::call::{Call, Outcome, call, call_with_bounds};
use oracle::generate::{accepted_call, any_call, limits_call, wide_call};
use oracle::random::Random;
use std::time::{Duration, Instant};
use threads::on_all_threads;
use totals::Totals;

/// One call compared, and its messages in force if asked: with their bounds the Rust runs slower, so that they are taken of one call in sixteen.
fn compared(request: &Call, with_bounds: bool, totals: &mut Totals) -> bool {
    let (outcome, bounds) = if with_bounds { call_with_bounds(request) } else { (call(request), None) };
    let inside = bounds.as_ref().is_none_or(|bounds| bounds.outside == 0);
    totals.take(request, &outcome, bounds);
    inside && agrees_with(request, &outcome)
}

fn agrees(request: &Call) -> bool {
    agrees_with(request, &call(request))
}

/// A call that fails: the smallest that is found, as a text that `oracle call` reads.
fn report(request: &Call) {
    let least = shrink::shrink(request, |less| !agrees(less));
    let text = oracle::text::write_call(&least);
    let path = "target/differential/failing.call";
    std::fs::write(path, &text).expect("a file can be written");
    println!("differs, written to {path}:\n{text}");
}

fn draw(kind: &str, random: &mut Random) -> Call {
    match kind {
        "limits" => limits_call(random),
        "hostile" => hostile::hostile_call(random),
        "accepted" => accepted_call(random),
        "wide" => wide_call(random),
        _ => any_call(random),
    }
}

/// Seeds from `first` on, every `step`-th, until the count or the time is over.
fn share(kind: &str, first: u64, step: u64, end: u64, until: Option<Instant>) -> (Totals, Option<Call>) {
    let mut totals = Totals::new();
    let mut seed = first;
    while seed < end && until.is_none_or(|at| Instant::now() < at) {
        let request = draw(kind, &mut Random::new(seed));
        if !compared(&request, seed % 16 == 0, &mut totals) {
            return (totals, Some(request));
        }
        seed += step;
    }
    (totals, None)
}

fn random_calls(kind: &str, seed: u64, count: u64, seconds: Option<u64>) -> bool {
    let begun = Instant::now();
    let until = seconds.map(|s| begun + Duration::from_secs(s));
    let shares = on_all_threads(|i, threads| share(kind, seed + i, threads, seed.saturating_add(count), until));
    let mut totals = Totals::new();
    shares.iter().for_each(|(own, _)| totals.add(own));
    let failing = shares.into_iter().find_map(|(_, call)| call);
    let rate = totals.calls as f64 / begun.elapsed().as_secs_f64();
    println!("{kind}, seeds from {seed} on: {} calls, {rate:.0} a second\n{totals}", totals.calls);
    failing.iter().for_each(report);
    failing.is_none()
}

/// Listed calls, all with the bounds of their messages.
fn listed_calls(what: &str, mut calls: impl Iterator<Item = Call>) -> bool {
    let mut totals = Totals::new();
    let failing = calls.find(|request| !compared(request, true, &mut totals));
    println!("{what}\n{totals}");
    failing.iter().for_each(report);
    failing.is_none()
}

/// Each part by itself: the library answers it as the Rust answers it alone, and the Rust answers it alone as in the whole.
fn alone(seed: u64, count: u64) -> bool {
    let (mut parts, mut calls) = (0, 0);
    for seed in seed..seed + count {
        let whole = accepted_call(&mut Random::new(seed));
        if !matches!(call(&whole), Outcome::Answered { .. }) {
            continue;
        }
        calls += 1;
        let alone: Vec<Call> = parts_of(&whole).iter().map(|part| entered_alone(&whole, part)).collect();
        parts += alone.len();
        let same = agrees(&whole) && oracle::alone::parts_answer_alone(&whole) && alone.iter().all(agrees);
        if !same {
            report(&whole);
            return false;
        }
    }
    println!("parts alone: {parts} parts of {calls} calls agree\n");
    true
}

fn number(word: Option<&String>, otherwise: u64) -> u64 {
    word.map_or(otherwise, |w| w.parse().expect("a number"))
}

fn main() {
    let words: Vec<String> = std::env::args().skip(1).collect();
    let (seed, count) = (number(words.get(1), 0), number(words.get(2), 100_000));
    let same = match words.first().map(String::as_str) {
        Some("small") => listed_calls("all graphs of up to 3 grades and 3 markers", small::calls()),
        Some("wide") => {
            listed_calls("markers of 64 to 129 grades", oracle::wide::calls().into_iter()) && random_calls("wide", seed, count, None)
        }
        Some("alone") => alone(seed, count),
        Some("belts") => belts::all_small() && belts::random(seed, count),
        Some("patterns") => patterns::listed() && patterns::random(seed, count),
        Some("trials") => trials::listed() && trials::random(seed, count),
        Some("seconds") => random_calls("any", seed, u64::MAX, Some(number(words.get(2), 60))),
        Some(kind @ ("any" | "accepted" | "hostile" | "limits")) => random_calls(kind, seed, count, None),
        _ => {
            eprintln!("differential small | alone|belts|patterns|trials SEED COUNT | any|accepted|wide|hostile|limits SEED COUNT");
            eprintln!("differential seconds SEED SECONDS");
            std::process::exit(2);
        }
    };
    if !same {
        std::process::exit(1);
    }
}

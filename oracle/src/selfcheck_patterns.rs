//! Checks of the counts over all read patterns: graphs with known counts, every
//! refusal and their order, and what holds of every report.

use std::collections::HashSet;

use crate::call::{call, Outcome};
use crate::generate_patterns::{accepted_patterns, any_patterns};
use crate::limits::*;
use crate::listed_patterns::{halved, listed, of_graph, settings, two, usual};
use crate::patterns::{count_patterns, numbers_of, patterns_refusal, read_lists, Patterns, Standing};
use crate::random::Random;
use crate::reads::{with_reads, STRONG, WEAK};
use crate::selfcheck::Tally;
use crate::shapes::complete;

pub(crate) fn patterns(tally: &mut Tally) {
    lists(tally);
    known_counts(tally);
    known_beliefs(tally);
    evidence_not_read(tally);
    refusals(tally);
    order_of_refusals(tally);
    generated(tally);
}

/// So many lists, each of so many reads that are strong or weak, and no two alike.
fn lists(tally: &mut Tally) {
    let complete = |markers: usize| {
        let lists = read_lists(markers);
        let known = |read: &[f32; 2]| [STRONG, WEAK].contains(read);
        let proper = |reads: &Vec<[f32; 2]>| reads.len() == markers && reads.iter().all(known);
        let strong = |reads: &Vec<[f32; 2]>| reads.iter().map(|&read| read == STRONG).collect::<Vec<bool>>();
        let different: HashSet<Vec<bool>> = lists.iter().map(strong).collect();
        lists.len() == 1 << markers && different.len() == lists.len() && lists.iter().all(proper)
    };
    tally.check("patterns: every list of 0 to 10 reads, once", (0..=MOST_PATTERN_MARKERS).all(complete));
}

fn known_counts(tally: &mut Tally) {
    for known in listed() {
        let as_known = |found: Vec<Standing>| numbers_of(&found) == known.counts.as_flattened();
        tally.check(&format!("patterns: {}", known.name), count_patterns(&known.request).is_ok_and(as_known));
    }
    let halves = |found: Vec<Standing>| found.iter().all(|grade| grade.half == 2);
    tally.check("patterns: exactly 1/2 in both patterns", count_patterns(&halved()).is_ok_and(halves));
}

/// The present beliefs' bits of both grades: both markers weak, the first strong, the second, both.
const TWO: [[u32; 2]; 4] =
    [[0x3E44540E, 0x3DA0C4D6], [0x3F309DBB, 0x3EAF2FF8], [0x3E593642, 0x3F1CD0F8], [0x3EFA3DDE, 0x3F67F874]];

fn known_beliefs(tally: &mut Tally) {
    let graph = two().call;
    for (reads, wanted) in [[WEAK, WEAK], [STRONG, WEAK], [WEAK, STRONG], [STRONG, STRONG]].iter().zip(TWO) {
        let Outcome::Answered { mut beliefs, .. } = call(&with_reads(&graph, reads)) else {
            panic!("an accepted graph");
        };
        beliefs.sort_by_key(|belief| belief.grade);
        let found: Vec<u32> = beliefs.iter().map(|belief| belief.present.to_bits()).collect();
        tally.check(&format!("patterns: the beliefs of two grades by {reads:?}"), found == wanted);
    }
}

/// The request with one change.
fn changed(mut request: Patterns, change: impl Fn(&mut Patterns)) -> Patterns {
    change(&mut request);
    request
}

fn evidence_not_read(tally: &mut Tally) {
    let wanted = count_patterns(&two());
    let mut check = |what: &str, change: fn(&mut Vec<f32>)| {
        let other = changed(two(), |request| change(&mut request.call.evidence));
        let same = wanted.is_ok() && count_patterns(&other) == wanted;
        tally.check(&format!("patterns: evidence is not read, {what}"), same);
    };
    check("NaN", |evidence| evidence.fill(f32::NAN));
    check("an infinity", |evidence| evidence[3] = f32::INFINITY);
    check("2.0", |evidence| evidence[0] = 2.0);
    check("0.25", |evidence| evidence.fill(0.25));
    check("an odd last float", |evidence| evidence.push(f32::NAN));
    let odd = changed(usual(2, 10, &[]), |request| request.call.evidence.push(0.5));
    tally.check("patterns: 21 floats are 10 markers", count_patterns(&odd).is_ok_and(|found| found[1].none == 1024));
}

fn refused_as(request: &Patterns, number: u32, place: u32) -> bool {
    count_patterns(request).is_err_and(|refusal| (refusal.number, refusal.place) == (number, place))
}

fn refusals(tally: &mut Tally) {
    let mut check = |what: &str, number, place, change: fn(&mut Patterns)| {
        let name = format!("patterns: refused {number} at {place}, {what}");
        tally.check(&name, refused_as(&changed(two(), change), number, place));
    };
    check("11 markers", 18, 0, |request| *request = usual(1, 11, &[(0, 0)]));
    check("1,025 markers", 18, 0, |request| *request = usual(1, 1025, &[(0, 0)]));
    check("1,025 grades", 1, 0, |request| *request = usual(1025, 1, &[(0, 0)]));
    check("8,193 pairs", 1, 0, |request| *request = usual(2, 2, &[(0, 0); 8193]));
    check("work floats", 2, 0, |request| request.call.lent.work_floats -= 1);
    check("work numbers", 2, 0, |request| request.call.lent.work_words -= 1);
    check("report", 2, 0, |request| request.report = 5);
    check("alpha", 3, 0, |request| request.call.settings.alpha = f32::INFINITY);
    check("beta NaN, prior 2", 3, 1, |request| {
        (request.call.settings.beta, request.call.settings.prior) = (f32::NAN, 2.0);
    });
    check("prior", 3, 2, |request| request.call.settings.prior = 0.0);
    check("tolerance", 4, 0, |request| request.call.settings.tolerance = f32::NAN);
    check("loop limit", 4, 1, |request| request.call.settings.loop_limit = MOST_LOOPS + 1);
    check("unknown grade", 6, 1, |request| request.call.pairs[2] = 2);
    check("unknown marker", 6, 2, |request| request.call.pairs[5] = 2);
    check("a pair again", 7, 2, |request| request.call.pairs[5] = 0);
    let pairs: Vec<(usize, usize)> = (0..129).map(|grade| (grade, 1)).collect();
    tally.check("patterns: refused 8 at 1, 129 grades", refused_as(&usual(129, 2, &pairs), 8, 1));
    let full = of_graph(settings([0.5; 3]), &complete(128, 1));
    tally.check("patterns: 128 grades on a marker are answered", count_patterns(&full).is_ok());
}

/// From a request with every fault the first is taken away, one after the other.
fn order_of_refusals(tally: &mut Tally) {
    let pairs: Vec<(usize, usize)> = (0..129).map(|grade| (grade, 0)).chain([(3, 0), (9999, 0)]).collect();
    let mut faulty = usual(129, 1, &pairs);
    faulty.call.evidence = vec![f32::NAN; 2050];
    faulty.call.grades = u32::MAX;
    faulty.call.lent.work_floats = 0;
    faulty.report = 386;
    let settings = &mut faulty.call.settings;
    (settings.alpha, settings.tolerance, settings.loop_limit) = (0.0, -1.0, u32::MAX);
    let mut check = |number, place, mend: fn(&mut Patterns)| {
        tally.check(&format!("patterns: of several faults {number} at {place}"), refused_as(&faulty, number, place));
        mend(&mut faulty);
    };
    check(18, 0, |request| request.call.evidence.truncate(22));
    check(18, 0, |request| request.call.evidence.truncate(3));
    check(1, 0, |request| request.call.grades = 129);
    check(2, 0, |request| request.call.lent.work_floats = 1 << 20);
    check(2, 0, |request| request.report = 387);
    check(3, 0, |request| request.call.settings.alpha = 0.5);
    check(4, 0, |request| request.call.settings.tolerance = 0.0);
    check(4, 1, |request| request.call.settings.loop_limit = 7);
    check(6, 130, |request| request.call.pairs.truncate(260));
    check(7, 129, |request| request.call.pairs.truncate(258));
    check(8, 0, |request| request.call.pairs.truncate(256));
    tally.check("patterns: with every fault mended it is answered", count_patterns(&faulty).is_ok());
}

/// The three add up, and just the grades in no pair have no belief, in every pattern.
fn consistent(request: &Patterns) -> bool {
    let all = 1 << request.call.marker_count();
    let paired = |grade: u32| request.call.pairs.chunks_exact(2).any(|pair| pair[0] == grade);
    let none = |grade: u32| if paired(grade) { 0 } else { all };
    count_patterns(request).is_ok_and(|standings| {
        let sound = |(grade, standing): (u32, &Standing)| {
            standing.above + standing.not_above + standing.none == all && standing.none == none(grade)
        };
        standings.len() == request.call.grades as usize && (0..).zip(&standings).all(sound)
    })
}

fn generated(tally: &mut Tally) {
    let mut random = Random::new(17);
    let accepted: Vec<Patterns> = (0..400).map(|_| accepted_patterns(&mut random)).collect();
    tally.check("patterns: generated ones add up, no pair no belief", accepted.iter().all(consistent));
    let any_half = |found: Vec<Standing>| found.iter().any(|grade| grade.half > 0);
    let halves = |request: &&Patterns| count_patterns(request).is_ok_and(any_half);
    tally.check("patterns: beliefs of exactly 1/2 are drawn", accepted.iter().filter(halves).count() > 5);
    let any: Vec<Patterns> = (0..6000).map(|_| any_patterns(&mut random)).collect();
    let number = |request: &Patterns| patterns_refusal(request).map_or(0, |refusal| refusal.number);
    let count = |wanted: u32| any.iter().filter(|request| number(request) == wanted).count();
    let drawn = [18, 1, 2, 3, 4, 6, 7, 8].iter().all(|&wanted| count(wanted) > 50);
    tally.check("patterns: each refusal is drawn, and never 5", drawn && count(5) == 0);
}

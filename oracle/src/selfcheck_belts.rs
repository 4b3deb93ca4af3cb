//! Checks of the matching of reads: belts with known answers, every refusal,
//! and that no list of matches is longer, which lists of other rules are.

use crate::belt::{matches, reads_of, Belt, Match, Read};
use crate::generate_belts::{accepted_belt, any_belt};
use crate::limits::MOST_READS;
use crate::longest::{longest, longest_of_all, may_match};
use crate::random::Random;
use crate::selfcheck::Tally;

pub(crate) fn belts(tally: &mut Tally) {
    windows(tally);
    orders(tally);
    falling_ticks(tally);
    other_refusals(tally);
    searches(tally);
    generated(tally);
}

/// A belt of reads written as tick, marker.
fn belt(window: u32, upper: &[[u32; 2]], lower: &[[u32; 2]]) -> Belt {
    Belt::new(&reads_of(upper.as_flattened()), &reads_of(lower.as_flattened()), window)
}

/// A belt of one marker.
fn ticks(window: u32, upper: &[u32], lower: &[u32]) -> Belt {
    let reads = |ticks: &[u32]| ticks.iter().map(|&tick| Read { tick, marker: 1 }).collect::<Vec<_>>();
    Belt::new(&reads(upper), &reads(lower), window)
}

fn answers(belt: &Belt, wanted: &[Match]) -> bool {
    matches(belt).is_ok_and(|found| found == wanted)
}

fn refused_as(belt: &Belt, number: u32, place: u32) -> bool {
    matches(belt).is_err_and(|refusal| (refusal.number, refusal.place) == (number, place))
}

fn windows(tally: &mut Tally) {
    let mut check = |window: u32, upper: u32, lower: u32, inside: bool| {
        let wanted: &[Match] = if inside { &[[0, 0]] } else { &[] };
        let what = format!("belt: window {window}, ticks {upper} and {lower}");
        tally.check(&what, answers(&ticks(window, &[upper], &[lower]), wanted));
    };
    check(5, 10, 15, true);
    check(5, 10, 16, false);
    check(5, 10, 5, true);
    check(5, 10, 4, false);
    check(0, 7, 7, true);
    check(1, 0, u32::MAX, false);
    check(u32::MAX, 0, u32::MAX, true);
    check(u32::MAX - 1, 0, u32::MAX, false);
    check(u32::MAX, u32::MAX, 0, true);
    check(u32::MAX - 1, u32::MAX, 0, false);
}

fn orders(tally: &mut Tally) {
    let mut check = |what: &str, belt: &Belt, wanted: &[Match]| {
        tally.check(&format!("belt: {what}"), answers(belt, wanted));
    };
    check("the lowest index, not the nearest", &ticks(2, &[5, 6], &[3, 6]), &[[0, 0], [1, 1]]);
    let crossing = belt(10, &[[0, 1], [1, 2]], &[[0, 2], [5, 1]]);
    check("a read of another marker is left for a later one", &crossing, &[[0, 1], [1, 0]]);
    let equal = belt(0, &[[4, 1], [4, 2], [4, 1]], &[[4, 2], [4, 1], [4, 1]]);
    check("equal ticks, window 0", &equal, &[[0, 1], [1, 0], [2, 2]]);
    let top = belt(10, &[[u32::MAX - 3, 7]], &[[2, 7], [u32::MAX, 7]]);
    check("ticks do not wrap around", &top, &[[0, 1]]);
    let alike = belt(1, &[[1, 1024], [1, 0]], &[[1, 0], [1, 2048]]);
    check("markers alike modulo 1,024 are different", &alike, &[[1, 0]]);
    let mut odd = belt(3, &[[1, 1], [2, 2]], &[[1, 1], [2, 2]]);
    odd.upper.push(0);
    check("an odd last number is not read", &odd, &[[0, 0], [1, 1]]);
    odd.lower.push(0);
    check("an odd last number on either side", &odd, &[[0, 0], [1, 1]]);
    check("no upper read", &ticks(9, &[], &[1, 2]), &[]);
    check("no lower read", &ticks(9, &[1, 2], &[]), &[]);
    check("the lists' ends are not compared", &ticks(9, &[50, 60], &[1, 2]), &[]);
    let mut full = ticks(0, &[3; MOST_READS], &[3; MOST_READS]);
    full.upper.push(0);
    let pairs: Vec<Match> = (0..MOST_READS as u32).map(|i| [i, i]).collect();
    check("1,024 reads a side and an odd number", &full, &pairs);
}

fn falling_ticks(tally: &mut Tally) {
    let mut check = |upper: &[u32], lower: &[u32], place: u32| {
        let what = format!("belt: ticks {upper:?} over {lower:?} are refused 10 at {place}");
        tally.check(&what, refused_as(&ticks(3, upper, lower), 10, place));
    };
    check(&[5, 6, 2], &[5, 4], 2);
    check(&[5, 6], &[5, 7, 6], 4);
    check(&[5, 4], &[1, 0], 1);
    check(&[], &[1, 0], 1);
    check(&[5, 5, 4, 3], &[], 2);
    check(&[u32::MAX, 0], &[7], 1);
}

fn other_refusals(tally: &mut Tally) {
    let mut check = |what: &str, belt: &Belt, lent: usize, number: u32| {
        let belt = Belt { lent, ..belt.clone() };
        tally.check(&format!("belt: refused {number}, {what}"), refused_as(&belt, number, 0));
    };
    check("a buffer of 1 for two reads", &ticks(3, &[5], &[5]), 1, 2);
    check("a buffer of 1 where nothing matches", &ticks(3, &[5], &[50]), 1, 2);
    check("a buffer of 3 for the shorter list's two", &ticks(3, &[5, 6], &[5, 6, 7]), 3, 2);
    check("before a falling tick", &ticks(3, &[5, 4], &[5]), 1, 2);
    let falling: Vec<u32> = (0..=MOST_READS as u32).rev().collect();
    check("before a short buffer and falling ticks", &ticks(3, &falling, &falling), 0, 1);
    check("1,025 upper reads alone", &ticks(3, &[1; MOST_READS + 1], &[]), 0, 1);
    check("1,025 lower reads alone", &ticks(3, &[], &[1; MOST_READS + 1]), 0, 1);
    let shorter = Belt { lent: 4, ..ticks(0, &[5, 6], &[5, 6, 7]) };
    tally.check("belt: a buffer for the shorter list does", answers(&shorter, &[[0, 0], [1, 1]]));
}

/// Upper reads in order, each with the least by `key` of the unused lower reads
/// that it may have: a plain reading of the rule, and of others.
fn taken_by<K: Ord>(belt: &Belt, key: impl Fn(Read, usize, Read) -> K) -> Vec<Match> {
    let (upper, lower) = (reads_of(&belt.upper), reads_of(&belt.lower));
    let mut used = vec![false; lower.len()];
    let mut taken = Vec::new();
    for (i, &read) in upper.iter().enumerate() {
        let open = |&j: &usize| !used[j] && may_match(read, lower[j], belt.window);
        let least = (0..lower.len()).filter(open).min_by_key(|&j| key(read, j, lower[j]));
        if let Some(j) = least {
            used[j] = true;
            taken.push([i as u32, j as u32]);
        }
    }
    taken
}

fn by_index(belt: &Belt) -> Vec<Match> {
    taken_by(belt, |_, j, _| j)
}

fn by_distance(belt: &Belt) -> Vec<Match> {
    taken_by(belt, |upper, j, lower| (upper.tick.abs_diff(lower.tick), j))
}

/// Both searches find one length.
fn both(belt: &Belt) -> Option<usize> {
    let (upper, lower) = (reads_of(&belt.upper), reads_of(&belt.lower));
    let length = longest(&upper, &lower, belt.window);
    (longest_of_all(&upper, &lower, belt.window) == length).then_some(length)
}

/// The searches do find a longer list where there is one: without the order of
/// either list, and for another rule.
fn searches(tally: &mut Tally) {
    let mut check = |what: &str, belt: &Belt, rule: fn(&Belt) -> Vec<Match>| {
        let shorter = rule(belt).len() == 1 && both(belt) == Some(2);
        tally.check(&format!("belt: a longer list is found where {what}"), shorter);
    };
    check("lower ticks fall", &ticks(3, &[1, 5], &[4, 0]), by_index);
    check("upper ticks fall", &ticks(3, &[3, 0], &[0, 5]), by_index);
    check("the nearest is taken first", &ticks(2, &[5, 6], &[3, 6]), by_distance);
}

/// Unordered as well: the searches need no order.
fn tiny(random: &mut Random) -> Belt {
    let mut reads = || {
        let count = random.within(0, 6);
        (0..count).map(|_| [random.below(9) as u32, random.below(2) as u32]).collect::<Vec<_>>()
    };
    let (upper, lower) = (reads(), reads());
    belt(random.below(5) as u32, &upper, &lower)
}

fn generated(tally: &mut Tally) {
    let mut random = Random::new(13);
    let tiny: Vec<Belt> = (0..4000).map(|_| tiny(&mut random)).collect();
    tally.check("belts: both searches agree, ticks in any order", tiny.iter().all(|belt| both(belt).is_some()));
    let belts: Vec<Belt> = (0..6000).map(|_| accepted_belt(&mut random)).collect();
    tally.check("belts: generated ones are accepted", belts.iter().all(|belt| matches(belt).is_ok()));
    tally.check("belts: as the rule is written", belts.iter().all(|belt| answers(belt, &by_index(belt))));
    let is_longest = |belt: &Belt| {
        let length = longest(&reads_of(&belt.upper), &reads_of(&belt.lower), belt.window);
        matches(belt).is_ok_and(|found| found.len() == length)
    };
    tally.check("belts: no list is longer", belts.iter().all(is_longest));
    let nearest = |belt: &&Belt| by_distance(belt).len() < by_index(belt).len();
    tally.check("belts: the nearest first is often shorter", belts.iter().filter(nearest).count() > 50);
    let faulty: Vec<Belt> = (0..6000).map(|_| any_belt(&mut random)).collect();
    let number = |belt: &Belt| matches(belt).map_or_else(|refusal| refusal.number, |_| 0);
    let count = |wanted: u32| faulty.iter().filter(|belt| number(belt) == wanted).count();
    tally.check("belts: each refusal is drawn", [1, 2, 10].iter().all(|&wanted| count(wanted) > 20));
}

//! Checks of the trials' refusals and their order, and of what is drawn by seed.

use crate::generate_trials::{accepted_trials, any_trials};
use crate::limits::*;
use crate::listed_trials::{changed, graph, of, two, USUAL};
use crate::random::Random;
use crate::selfcheck::Tally;
use crate::trials::{trials_refusal, try_settings, Trials};

pub(crate) fn trials_refused_and_drawn(tally: &mut Tally) {
    refusals(tally);
    order_of_refusals(tally);
    let mut random = Random::new(19);
    reports(tally, &(0..400).map(|_| accepted_trials(&mut random)).collect::<Vec<Trials>>());
    let any: Vec<Trials> = (0..6000).map(|_| any_trials(&mut random)).collect();
    drawn_refusals(tally, &any);
    drawn_corners(tally, &any);
}

fn refused_as(request: &Trials, number: u32, place: u32) -> bool {
    try_settings(request).is_err_and(|refusal| (refusal.number, refusal.place) == (number, place))
}

fn refusals(tally: &mut Tally) {
    let mut check = |what: &str, number, place, change: fn(&mut Trials)| {
        let request = changed(two(&[USUAL; 2], 1), change);
        tally.check(&format!("trials: refused {number} at {place}, {what}"), refused_as(&request, number, place));
    };
    check("seed 0, nothing to try", 16, 0, |request| (request.seed, request.settings, request.bales) = (0, vec![], 0));
    check("2^32 - 1 bales", 17, 0, |request| request.bales = u32::MAX);
    check("1,025 markers", 1, 0, |request| *request = of(&graph(1, 1025, &[]), &[], 0));
    check("8,193 pairs", 1, 0, |request| *request = of(&graph(2, 2, &[(0, 0); 8193]), &[], 0));
    check("work floats", 2, 0, |request| request.call.lent.work_floats -= 1);
    check("work numbers", 2, 0, |request| request.call.lent.work_words -= 1);
    check("no report", 2, 0, |request| request.report = 0);
    check("alpha 0", 3, 0, |request| request.settings[0] = 0);
    check("beta 1,024", 3, 1, |request| request.settings[1] = 1024);
    check("prior 2^32 - 1", 3, 2, |request| request.settings[2] = u32::MAX);
    check("alpha of the second", 3, 3, |request| request.settings[3] = 1 << 16 | 512);
    check("tolerance, no bale", 4, 0, |request| {
        (request.call.settings.tolerance, request.bales) = (f32::INFINITY, 0);
    });
    check("loop limit, no setting", 4, 1, |request| {
        (request.call.settings.loop_limit, request.settings) = (MOST_LOOPS + 1, vec![]);
    });
    check("unknown grade", 6, 1, |request| request.call.pairs[2] = 2);
    check("unknown marker", 6, 2, |request| request.call.pairs[5] = 2);
    check("a pair again", 7, 2, |request| request.call.pairs[5] = 0);
    let ends = changed(two(&[[1, 1, 1], [1023, 1023, 1023]], 1000), |request| request.call.settings.tolerance = -0.0);
    tally.check("trials: 1 and 1,023, tolerance -0 are answered", try_settings(&ends).is_ok());
}

/// From a request with every fault the first is taken away, one after the other.
fn order_of_refusals(tally: &mut Tally) {
    let pairs: Vec<(usize, usize)> = (0..129).map(|grade| (grade, 0)).chain([(3, 0), (9999, 0)]).collect();
    let mut faulty = of(&graph(129, 1, &pairs), &[[512, 0, 512]; 65], 1001);
    faulty.seed = 0;
    faulty.call.evidence = vec![f32::NAN; 2050];
    faulty.call.grades = u32::MAX;
    faulty.call.lent.work_floats = 0;
    faulty.report = 5;
    (faulty.call.settings.tolerance, faulty.call.settings.loop_limit) = (-1.0, u32::MAX);
    let mut check = |number, place, mend: fn(&mut Trials)| {
        tally.check(&format!("trials: of several faults {number} at {place}"), refused_as(&faulty, number, place));
        mend(&mut faulty);
    };
    check(16, 0, |request| request.seed = 7);
    check(17, 0, |request| request.bales = 1);
    check(17, 0, |request| request.settings.truncate(11));
    check(1, 0, |request| request.call.evidence.truncate(3));
    check(1, 0, |request| request.call.grades = 129);
    check(2, 0, |request| request.call.lent.work_floats = 1 << 20);
    check(2, 0, |request| request.report = 6);
    check(3, 1, |request| request.settings[1] = 1);
    check(3, 4, |request| request.settings[4] = 1023);
    check(3, 7, |request| request.settings[7] = 2);
    check(4, 0, |request| request.call.settings.tolerance = 0.0);
    check(4, 1, |request| request.call.settings.loop_limit = 7);
    check(6, 130, |request| request.call.pairs.truncate(260));
    check(7, 129, |request| request.call.pairs.truncate(258));
    check(8, 0, |request| request.call.pairs.truncate(256));
    tally.check("trials: with every fault mended it is answered", try_settings(&faulty).is_ok());
}

/// Every setting counts each grade that is in a pair once a bale.
fn consistent(request: &Trials) -> bool {
    let paired = |&grade: &u32| request.call.pairs.chunks_exact(2).any(|pair| pair[0] == grade);
    let all = request.bales * (0..request.call.grades).filter(paired).count() as u32;
    try_settings(request).is_ok_and(|found| {
        found.len() == request.setting_count() && found.iter().all(|setting| setting.agreed + setting.not_agreed == all)
    })
}

fn reports(tally: &mut Tally, accepted: &[Trials]) {
    tally.check("trials: generated ones count each grade in a pair", accepted.iter().all(consistent));
    let half = |request: &&Trials| try_settings(request).is_ok_and(|found| found.iter().any(|tried| tried.half > 0));
    tally.check("trials: beliefs of exactly 1/2 are drawn", accepted.iter().filter(half).count() > 5);
}

fn drawn_refusals(tally: &mut Tally, any: &[Trials]) {
    let number = |request: &Trials| trials_refusal(request).map_or(0, |refusal| refusal.number);
    let count = |wanted: u32| any.iter().filter(|request| number(request) == wanted).count();
    let drawn = [16, 17, 1, 2, 3, 4, 6, 7, 8].iter().all(|&wanted| count(wanted) > 50);
    tally.check("trials: each refusal is drawn, and never 5", drawn && count(5) == 0);
}

/// Accepted ones at every edge.
fn drawn_corners(tally: &mut Tally, any: &[Trials]) {
    let accepted: Vec<&Trials> = any.iter().filter(|request| trials_refusal(request).is_none()).collect();
    let mut check = |what: &str, least: usize, holds: fn(&Trials) -> bool| {
        let count = accepted.iter().filter(|request| holds(request)).count();
        tally.check(&format!("trials: drawn are requests with {what}"), count >= least);
    };
    check("no setting", 20, |request| request.setting_count() == 0);
    check("64 settings", 20, |request| request.setting_count() == MOST_SETTINGS);
    check("no bale", 20, |request| request.bales == 0);
    check("1,000 bales", 20, |request| request.bales == MOST_BALES);
    check("a rest of one number", 20, |request| request.settings.len() % 3 == 1);
    check("a rest of two numbers", 20, |request| request.settings.len() % 3 == 2);
    check("numbers 1 and 1,023", 20, |request| request.settings.contains(&1) && request.settings.contains(&1023));
    check("seed 1", 20, |request| request.seed == 1);
    check("the last seed", 20, |request| request.seed == u32::MAX);
    check("evidence of NaN", 20, |request| request.call.evidence.iter().any(|entry| entry.is_nan()));
    check("a tolerance of -0", 5, |request| request.call.settings.tolerance.to_bits() == 1 << 31);
    check("a loop limit below 5", 20, |request| request.call.settings.loop_limit < 5);
    check("1,024 grades", 3, |request| request.call.grades as usize == MOST_GRADES);
    check("1,024 markers", 3, |request| request.call.marker_count() == MOST_MARKERS);
    check("8,192 pairs", 1, |request| request.call.pair_count() == MOST_PAIRS);
    check("128 grades on a marker", 5, |request| {
        let of = |marker| request.call.pairs.chunks_exact(2).filter(|pair| pair[1] == marker).count();
        (0..request.call.marker_count().min(4) as u32).any(|marker| of(marker) == MOST_GRADES_OF_A_MARKER)
    });
}

//! Checks of the call: document 01's bales and every refusal.

use crate::call::{call, parts, Call, Ending, Lent, Outcome, PartEnding, Settings};
use crate::limits::*;
use crate::selfcheck::Tally;
use crate::wide::{crowded, shared_by};

/// A call with half for every setting and [0.5, 0.5] for every marker.
fn plain(grades: u32, markers: usize, pairs: &[u32]) -> Call {
    Call {
        settings: Settings {
            alpha: 0.5,
            beta: 0.5,
            prior: 0.5,
            regularised: false,
            tolerance: PROGRAM_TOLERANCE,
            loop_limit: PROGRAM_LOOPS,
        },
        grades,
        evidence: vec![0.5; 2 * markers],
        pairs: pairs.to_vec(),
        lent: Lent::needed(grades as usize, markers, pairs.len() / 2),
    }
}

/// One marker with this many grades.
fn star(grades: u32) -> Call {
    let pairs: Vec<u32> = (0..grades).flat_map(|grade| [grade, 0]).collect();
    plain(grades, 1, &pairs)
}

fn answers(request: &Call, beliefs: usize, endings: usize) -> bool {
    match call(request) {
        Outcome::Answered { beliefs: found, endings: ends } => found.len() == beliefs && ends.len() == endings,
        Outcome::Refused(_) => false,
    }
}

pub(crate) fn graphs(tally: &mut Tally) {
    let empty = plain(0, 0, &[]);
    tally.check("the empty graph has no part", parts(&empty).is_empty() && answers(&empty, 0, 0));
    let lone = plain(1, 0, &[]);
    tally.check("one grade alone has no belief", parts(&lone).len() == 1 && answers(&lone, 0, 0));
    let marker = plain(0, 1, &[]);
    tally.check("one marker alone has no belief", parts(&marker).len() == 1 && answers(&marker, 0, 0));
    let three = parts(&star(3));
    let counts: Vec<(usize, usize)> = three.iter().map(|part| (part.node_count(), part.edge_count())).collect();
    tally.check("three grades on a marker: one part, 6 nodes, 5 edges", counts == [(6, 5)]);
    tally.check("three grades on a marker: three beliefs", answers(&star(3), 3, 1));
}

fn refused_as(request: &Call, number: u32, place: u32) -> bool {
    match call(request) {
        Outcome::Refused(refusal) => refusal.number == number && refusal.place == place,
        Outcome::Answered { .. } => false,
    }
}

/// The call with one change.
fn changed(mut request: Call, change: impl Fn(&mut Call)) -> Call {
    change(&mut request);
    request
}

pub(crate) fn edges_of_range(tally: &mut Tally) {
    let alpha = |alpha: f32| changed(star(2), |call| call.settings.alpha = alpha);
    tally.check("alpha 1/1024 is accepted", answers(&alpha(1.0 / 1024.0), 2, 1));
    tally.check("alpha 1/2048 is refused", refused_as(&alpha(1.0 / 2048.0), 3, 0));
    tally.check("128 grades on a marker are accepted", answers(&star(128), 128, 1));
    tally.check("129 grades on a marker are refused", refused_as(&star(129), 8, 0));
    let zero = changed(star(2), |call| call.settings.tolerance = -0.0);
    tally.check("a tolerance of -0 is accepted", answers(&zero, 2, 1));
    let odd = changed(star(2), |call| call.evidence.push(f32::NAN));
    tally.check("an odd last evidence entry is not read", answers(&odd, 2, 1));
    let odd = changed(star(2), |call| call.pairs.push(9));
    tally.check("an odd last pair word is not read", answers(&odd, 2, 1));
    let limit = |limit: u32| changed(star(2), |call| call.settings.loop_limit = limit);
    tally.check("a loop limit of 0 is accepted", answers(&limit(0), 2, 1));
    tally.check("a loop limit of 1,000,000 is accepted", answers(&limit(1_000_000), 2, 1));
}

pub(crate) fn refusals(tally: &mut Tally) {
    let mut check = |what: &str, number, place, change: fn(&mut Call)| {
        let name = format!("refused {number} at {place}: {what}");
        tally.check(&name, refused_as(&changed(star(3), change), number, place));
    };
    check("grades", 1, 0, |call| call.grades = 1025);
    check("markers", 1, 0, |call| call.evidence = vec![0.5; 2050]);
    check("pairs", 1, 0, |call| call.pairs = vec![0; 16386]);
    check("work floats", 2, 0, |call| call.lent.work_floats -= 1);
    check("work words", 2, 0, |call| call.lent.work_words -= 1);
    check("belief numbers", 2, 0, |call| call.lent.belief_numbers -= 1);
    check("belief floats", 2, 0, |call| call.lent.belief_floats -= 1);
    check("ending numbers", 2, 0, |call| call.lent.ending_numbers -= 1);
    check("ending floats", 2, 0, |call| call.lent.ending_floats -= 1);
    check("alpha", 3, 0, |call| call.settings.alpha = f32::NAN);
    check("beta", 3, 1, |call| call.settings.beta = 1.0);
    check("prior", 3, 2, |call| call.settings.prior = 0.0);
    check("tolerance", 4, 0, |call| call.settings.tolerance = f32::INFINITY);
    check("loop limit", 4, 1, |call| call.settings.loop_limit = 1_000_001);
    check("evidence", 5, 0, |call| call.evidence[1] = 1.0 / 32768.0);
    check("unknown grade", 6, 1, |call| call.pairs[2] = 3);
    check("unknown marker", 6, 2, |call| call.pairs[5] = 1);
    check("a pair again", 7, 2, |call| call.pairs[4] = 0);
}

/// From a call with every fault the first is taken away, one after the other.
pub(crate) fn order_of_refusals(tally: &mut Tally) {
    let mut faulty = star(129);
    faulty.pairs.extend([3, 0, 9999, 0]);
    faulty.evidence[0] = 2.0;
    faulty.settings.tolerance = -1.0;
    faulty.settings.loop_limit = u32::MAX;
    faulty.settings.alpha = 0.0;
    faulty.settings.prior = 0.0;
    faulty.grades = u32::MAX;
    let mut check = |number, place, mend: fn(&mut Call)| {
        tally.check(&format!("of several faults {number} at {place}"), refused_as(&faulty, number, place));
        mend(&mut faulty);
    };
    check(1, 0, |call| call.grades = 129);
    check(2, 0, |call| call.lent = Lent::needed(129, 1, 131));
    check(3, 0, |call| call.settings.alpha = 0.5);
    check(3, 2, |call| call.settings.prior = 0.5);
    check(4, 0, |call| call.settings.tolerance = 0.0);
    check(4, 1, |call| call.settings.loop_limit = 7);
    check(5, 0, |call| call.evidence[0] = 1.0);
    check(6, 130, |call| call.pairs.truncate(260));
    check(7, 129, |call| call.pairs.truncate(258));
    check(8, 0, |call| call.pairs.truncate(256));
    tally.check("with every fault mended it is answered", answers(&faulty, 128, 1));
}

/// Of a mark on so many grades, regularised or not: the first belief's bits, the last one's, and the sum of all bits modulo 2^32.
const SHARED: [(usize, bool, [u32; 2], [u32; 2], u32); 5] = [
    (64, false, [0x3F6DC1D7, 0x3D91F15C], [0x3F66AFD2, 0x3DCA8180], 0x4128A133),
    (65, false, [0x3F6DCDA9, 0x3D9192C9], [0x3F618BD3, 0x3DF3A18A], 0xBE685E33),
    (128, false, [0x3F6EDCDC, 0x3D891930], [0x3F6A9578, 0x3DAB5456], 0x7F1E0854),
    (65, true, [0x3F6E5B7E, 0x3D8D2416], [0x3F61ACD2, 0x3DF2998F], 0xBD7A333F),
    (128, true, [0x3F6FED82, 0x3D809402], [0x3F6BA51B, 0x3DA2D73D], 0x7B68C415),
];

/// The bits of each belief, in order, if the call has one part that ends empty after no step.
fn belief_bits(request: &Call) -> Option<Vec<[u32; 2]>> {
    match call(request) {
        Outcome::Answered { beliefs, endings } => {
            let empty = matches!(endings[..], [PartEnding { ending: Ending::Empty, steps: 0, .. }]);
            empty.then(|| beliefs.iter().map(|belief| [belief.absent.to_bits(), belief.present.to_bits()]).collect())
        }
        Outcome::Refused(_) => None,
    }
}

pub(crate) fn wide_marks(tally: &mut Tally) {
    for (grades, regularised, first, last, sum) in SHARED {
        let bits = belief_bits(&shared_by(grades, regularised)).unwrap_or_default();
        let summed = bits.as_flattened().iter().fold(0u32, |sum, bits| sum.wrapping_add(*bits));
        let ends = bits.first() == Some(&first) && bits.last() == Some(&last);
        tally.check(&format!("a mark on {grades} grades, regularised {regularised}"), summed == sum && ends);
    }
    let short = changed(star(129), |call| call.lent.work_floats = 20_671);
    tally.check("129 grades with a float too little are refused 2", refused_as(&short, 2, 0));
    tally.check("two markers of 129 grades are refused at the first", refused_as(&crowded(129, 2), 8, 0));
}

//! Checks of tonnage (document 02, S-33), of what the generator makes of it, and that
//! wrong references are told from the right one.

use std::collections::HashSet;

use crate::generate_mornings::any_morning;
use crate::random::Random;
use crate::selfcheck::Tally;
use crate::tonnage::{row, tonnage, tonnage_by_grade, whole_part, Morning, Weighed, GRADES};
use crate::wrong_tonnage::{Outcome, Seen, WRONG};

const MORNINGS: u64 = 4000;

pub(crate) fn tonnages(tally: &mut Tally) {
    whole_parts(tally);
    lines(tally);
    let mornings: Vec<Morning> = (0..MORNINGS).map(|seed| any_morning(&mut Random::new(seed))).collect();
    let outcomes: Vec<Outcome> = mornings.iter().map(tonnage_by_grade).collect();
    generated(tally, &mornings, &outcomes);
    told_apart(tally, &mornings);
}

/// Computed another way: the product of grams and an f32 is exact in f64.
fn whole_parts(tally: &mut Tally) {
    let mut random = Random::new(33);
    let same = |grams: u64, belief: f32| whole_part(grams, belief) == (grams as f64 * f64::from(belief)).floor() as u64;
    let any = (0..200_000).all(|_| same(1000 * random.within(1, 2000) as u64, random.float_within(0.0, 1.0)));
    tally.check("tonnage: the whole part of any belief's share", any);
    let near = (0..200_000).all(|_| same(1000 * random.within(1, 2000) as u64, random.float_within(2f32.powi(-24), 1.0)));
    tally.check("tonnage: the same of beliefs that have whole grams", near);
    let powers = (0..150).all(|e| (1..=2000).all(|kilograms| same(1000 * kilograms, 2f32.powi(-e))));
    tally.check("tonnage: the same of each power of 2", powers);
    tally.check("tonnage: no share of a belief of 0, all of one of 1", whole_part(2_000_000, 0.0) == 0 && whole_part(2_000_000, 1.0) == 2_000_000);
}

/// Every text of up to six of these bytes is a line exactly if it is printed so.
fn lines(tally: &mut Tally) {
    let printed = |bale| (1..1000).map(move |kilograms| format!("{bale},{kilograms}\n").into_bytes());
    let good: HashSet<Vec<u8>> = (0..1000).flat_map(printed).filter(|line| line.len() <= 6).collect();
    let mut texts = vec![Vec::new()];
    let mut same = row(&[]).is_none();
    for _ in 0..6 {
        texts = texts.iter().flat_map(|text: &Vec<u8>| b"0129,\n +".map(|byte| [text.as_slice(), &[byte]].concat())).collect();
        same &= texts.iter().all(|text| row(text).is_some() == good.contains(text));
    }
    tally.check("tonnage: a short line is what is printed of its two numbers", same);
    let is_good = |bale: u64, kilograms: u64| row(format!("{bale},{kilograms}\n").as_bytes()).is_some();
    let ends = [0, 1, 1999, 2000, 2001, 9998, 9999, 10000, 65536, 1 << 32, u64::MAX];
    let ranges = ends.iter().all(|&bale| ends.iter().all(|&kilograms| is_good(bale, kilograms) == (bale < 10000 && 1 <= kilograms && kilograms < 2001)));
    tally.check("tonnage: bales up to 9,999, and 1 to 2,000 kilograms", ranges);
}

fn generated(tally: &mut Tally, mornings: &[Morning], outcomes: &[Outcome]) {
    let refused = |number, least| outcomes.iter().filter(|outcome| matches!(outcome, Err(refusal) if refusal.number == number && refusal.place >= least)).count();
    tally.check("generated mornings: each refusal often", [2, 14, 15].iter().all(|&number| refused(number, 0) > 100));
    tally.check("generated mornings: refusals behind good lines", refused(14, 3) > 10 && refused(15, 3) > 10);
    let answered = || outcomes.iter().filter_map(|outcome| outcome.as_ref().ok());
    tally.check("generated mornings: answered, mostly with lines", answered().filter(|weighed| weighed.lines > 0).count() > 1000);
    let large = |weighed: &Weighed<u64>| weighed.lines > 9000 && weighed.totals.iter().any(|&total| total > 1 << 32);
    tally.check("generated mornings: over 9,000 lines, and a total of over 32 bits", answered().any(large));
    tally.check("generated mornings: number 2 before a malformed line", short_first(mornings));
    let weighed = mornings.iter().zip(outcomes).filter(|(_, outcome)| outcome.is_ok());
    let shifts: Vec<Seen> = weighed.map(|(morning, _)| Seen::of(morning)).collect();
    tally.check("generated mornings: a refused bale that no line names", shifts.iter().any(|seen| seen.bales.iter().any(Option::is_none)));
    let beliefs = || shifts.iter().flat_map(|seen| seen.bales.iter().flatten().flatten()).map(|belief| belief.present);
    let least = 2f32.powi(-21);
    tally.check("generated mornings: a belief of exactly 1", beliefs().any(|belief| belief == 1.0));
    tally.check("generated mornings: a belief without a whole gram", beliefs().any(|belief| belief < least));
    tally.check("generated mornings: a belief with few", beliefs().any(|belief| (least..16.0 * least).contains(&belief)));
}

fn short_first(mornings: &[Morning]) -> bool {
    let malformed = |morning: &&Morning| tonnage(&morning.csv, &morning.shift).is_err_and(|refusal| refusal.number == 14);
    mornings.iter().filter(|morning| morning.lent < GRADES).any(|morning| malformed(&morning))
}

fn told_apart(tally: &mut Tally, mornings: &[Morning]) {
    let all: Vec<Seen> = mornings.iter().map(Seen::of).collect();
    for (what, wrong) in WRONG {
        let count = all.iter().filter(|seen| wrong(seen) != seen.right()).count();
        tally.check(&format!("wrong tonnage, told by {count} mornings: {what}"), count > 0);
    }
}

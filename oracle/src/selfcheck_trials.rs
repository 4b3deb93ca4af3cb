//! Checks of the trials on made-up bales: the numbers drawn, what bales are made of
//! them, and known reports.

use crate::generate_trials::accepted_trials;
use crate::listed_trials::{changed, graph, halved, listed, of, two, USUAL};
use crate::random::Random;
use crate::selfcheck::Tally;
use crate::shapes::{complete, cycle};
use crate::trials::{history, made_up, next_number, numbers_from, numbers_of, try_settings, MadeUp, Setting, Trials};

pub(crate) fn trials(tally: &mut Tally) {
    numbers(tally);
    bales(tally);
    all_drawn(tally);
    step_by_step(tally);
    known_reports(tally);
    each_from_the_seed(tally);
}

fn numbers(tally: &mut Tally) {
    let first: Vec<u32> = numbers_from(1).take(4).collect();
    tally.check("trials: the first numbers from seed 1", first == [270369, 67634689, 2647435461, 307599695]);
    let shifted = |mut x: u32| {
        x ^= x << 13;
        x ^= x >> 17;
        x ^ x << 5
    };
    let mut random = Random::new(5);
    let mut any = (0..100_000).map(|_| random.next() as u32).chain((0..32).map(|bit| 1 << bit)).chain([0, u32::MAX]);
    tally.check("trials: a number is the shifts of the one before", any.all(|x| next_number(x) == shifted(x)));
}

/// The bales of the first setting, and every number that they took.
fn drawn(request: &Trials) -> (Vec<MadeUp>, Vec<u32>) {
    let setting = request.settings().next().expect("a setting");
    let mut taken = vec![];
    let mut numbers = numbers_from(request.seed).inspect(|&number| taken.push(number));
    let bales = (0..request.bales).map(|_| made_up(&request.call, setting, &mut numbers)).collect();
    drop(numbers);
    (bales, taken)
}

fn bales(tally: &mut Tally) {
    let (made, taken) = drawn(&of(&complete(1, 1), &[[512; 3]], 1));
    let parts: Vec<u32> = taken.iter().map(|number| number % 1024).collect();
    let wanted = [MadeUp { present: vec![true], strong: vec![true] }];
    tally.check("trials: a present grade shows its mark", parts == [33, 513, 197] && made == wanted);
    let (made, taken) = drawn(&two(&[USUAL], 5));
    tally.check("trials: five bales take 22 numbers", taken.len() == 22 && taken[21] == 3822316985);
    let strong: Vec<Vec<bool>> = made.into_iter().map(|bale| bale.strong).collect();
    let (none, first) = (vec![false; 2], vec![true, false]);
    tally.check("trials: the reads of five bales", strong == [&first, &none, &none, &first, &none].map(Clone::clone));
    let below = |limit| drawn(&of(&complete(1, 0), &[[512, 512, limit]], 1)).0[0].present[0];
    tally.check("trials: 33 is below 34 and not below 33", below(34) && !below(33));
}

/// A number for each grade, each marker, and each pair of a present grade; what succeeds makes no difference.
fn all_drawn(tally: &mut Tally) {
    let as_many = |request: &Trials| {
        let (made, taken) = drawn(request);
        let pairs = request.call.pairs.chunks_exact(2);
        let present = |bale: &MadeUp| pairs.clone().filter(|pair| bale.present[pair[0] as usize]).count();
        let of_a_bale = |bale: &MadeUp| bale.present.len() + request.call.marker_count() + present(bale);
        taken.len() == made.iter().map(of_a_bale).sum::<usize>()
    };
    let limits = [1, 512, 1023];
    let settings = limits.iter().flat_map(|&alpha| limits.map(|beta| [alpha, beta, 600]));
    let mut requests = settings.map(|setting| of(&cycle(5), &[setting], 20));
    tally.check("trials: no draw is skipped, whatever alpha and beta", requests.all(|request| as_many(&request)));
    let bare = of(&graph(3, 4, &[]), &[USUAL], 7);
    tally.check("trials: without a pair seven numbers a bale", as_many(&bare) && drawn(&bare).1.len() == 49);
    let mut random = Random::new(23);
    let mut any = (0..300).map(|_| accepted_trials(&mut random)).filter(|request| request.setting_count() > 0);
    tally.check("trials: nor of generated ones", any.all(|request| as_many(&request)));
}

/// Bales do not depend on how many follow, and later ones go on from the last number.
fn step_by_step(tally: &mut Tally) {
    let request = two(&[USUAL], 9);
    let (made, _) = drawn(&request);
    let (front, taken) = drawn(&two(&[USUAL], 5));
    let setting = Setting { alpha: 700, beta: 50, prior: 400 };
    let back = history(&request.call, setting, taken[taken.len() - 1], 4);
    tally.check("trials: nine bales are five, then four from there", made == [front, back].concat());
    tally.check("trials: the bales of a setting are its history", made == history(&request.call, setting, 1, 9));
}

fn known_reports(tally: &mut Tally) {
    for known in listed() {
        let found = try_settings(&known.request).map(|found| numbers_of(&found));
        tally.check(&format!("trials: {}", known.name), found == known.outcome);
    }
    let absent = drawn(&halved()).0[0].present.iter().filter(|&&present| !present).count() as u32;
    let found = try_settings(&halved()).map(|found| (found[0].half, found[0].agreed, found[0].not_agreed));
    let telling = 0 < absent && absent < 28;
    tally.check("trials: exactly 1/2 agrees with absent", telling && found == Ok((28, absent, 28 - absent)));
    let odd = changed(two(&[USUAL], 5), |request| request.call.evidence.push(0.5));
    tally.check("trials: an odd last float is no marker", try_settings(&odd) == try_settings(&two(&[USUAL], 5)));
}

/// A setting is reported as by a call with it alone.
fn each_from_the_seed(tally: &mut Tally) {
    let tried = [USUAL, [300; 3], [1, 1023, 1], USUAL];
    let together = try_settings(&two(&tried, 30)).expect("accepted settings");
    let alone = tried.map(|setting| try_settings(&two(&[setting], 30)).expect("an accepted setting")[0]);
    let different = together[0] != together[1] && together[1] != together[2];
    tally.check("trials: each setting starts from the seed", together == alone && different);
}

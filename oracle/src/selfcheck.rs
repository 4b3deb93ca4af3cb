//! Checks of the oracle against documents 01 and 02 and against itself.

use crate::alone::parts_answer_alone;
use crate::bale;
use crate::call::{call, call_with_bounds, first_refusal, parts, Call, Outcome};
use crate::generate::accepted_call;
use crate::log_table;
use crate::pieces::{ln, noisy_or};
use crate::queue::{OrderedFloat, PriorityQueue};
use crate::random::Random;
use crate::selfcheck_base_rates::base_rates;
use crate::selfcheck_belts::belts;
use crate::selfcheck_calls::{edges_of_range, graphs, order_of_refusals, refusals, wide_marks};
use crate::selfcheck_patterns::patterns;
use crate::selfcheck_tonnage::tonnages;
use crate::selfcheck_trial_refusals::trials_refused_and_drawn;
use crate::selfcheck_trials::trials;
use crate::standins::{exp, powi};
use crate::text::{read_call, write_call, write_outcome};
use crate::tree::tree_messages;
use crate::zero_lookahead_belief_propagation::calibrate_all_subgraphs;

pub(crate) struct Tally {
    passed: u32,
    failed: u32,
}

impl Tally {
    pub(crate) fn check(&mut self, what: &str, holds: bool) {
        println!("{} {what}", if holds { "ok" } else { "FAILED" });
        if holds { self.passed += 1 } else { self.failed += 1 }
    }
}

/// Prints one line a check and the tally last; true if all hold.
pub fn run() -> bool {
    let mut tally = Tally { passed: 0, failed: 0 };
    floats(&mut tally);
    tables(&mut tally);
    trees(&mut tally);
    queue(&mut tally);
    graphs(&mut tally);
    edges_of_range(&mut tally);
    refusals(&mut tally);
    order_of_refusals(&mut tally);
    wide_marks(&mut tally);
    files(&mut tally);
    base_rates(&mut tally);
    generated(&mut tally);
    belts(&mut tally);
    patterns(&mut tally);
    trials(&mut tally);
    trials_refused_and_drawn(&mut tally);
    tonnages(&mut tally);
    println!("{} passed, {} failed", tally.passed, tally.failed);
    tally.failed == 0
}

fn floats(tally: &mut Tally) {
    let same = |left: f32, right: f32| left.to_bits() == right.to_bits();
    tally.check("L of entry 0 is 0", log_table::entry(0) == 0);
    tally.check("L of entry 1,024 is 11,629,079", log_table::entry(1024) == 11_629_079);
    tally.check("the table has 1,025 entries", log_table::LOG_TABLE.len() == 1025);
    tally.check("ln 1 = 0", ln(1.0) == 0.0);
    tally.check("ln 2 = LN_2", same(ln(2.0), std::f32::consts::LN_2));
    let least = ln(f32::MIN_POSITIVE);
    let low = [0.0, -1.0, f32::NAN, f32::from_bits(1), f32::NEG_INFINITY];
    tally.check("ln takes what is below the least normal as it", low.iter().all(|&x| same(ln(x), least)));
    let near = |x: f32| (ln(x) - x.ln()).abs() < 1e-5 * x.ln().abs().max(1.0);
    tally.check("ln is near the library's", (1..4000).all(|i| near(i as f32 * 0.37)));
    tally.check("exp 0 = 1", exp(0.0) == 1.0 && exp(-0.0) == 1.0);
    tally.check("exp -88 = 0", exp(-88.0) == 0.0);
    tally.check("exp -87 > 0", exp(-87.0) > 0.0);
    let close = |y: f32| (exp(y) / y.exp() - 1.0).abs() < 2e-5;
    tally.check("exp is near the library's", (0..870).all(|i| close(i as f32 * -0.1)));
    tally.check("3^5 = 243, 0.5^0 = 1", powi(1.0, 3.0, 5) == 243.0 && powi(1.0, 0.5, 0) == 1.0);
    // multiplied on the way back these would end in 2B and 7E
    let carried = powi(1.0, 17.0 / 1024.0, 7).to_bits() == 0x2AC3_AA2C;
    let carried = carried && powi(1.0, 769.0 / 1024.0, 127).to_bits() == 0x2538_A67F;
    tally.check("a power's product is carried along", carried);
}

fn tables(tally: &mut Tally) {
    let plain = [[0.25, 0.25], [0.125, 0.375]];
    let regularised = [[0.25, 0.25], [0.0625, 0.4375]];
    tally.check("table of degree 2", noisy_or(2, 0.5, 0.5, false) == plain);
    tally.check("table of degree 2, regularised", noisy_or(2, 0.5, 0.5, true) == regularised);
}

fn trees(tally: &mut Tally) {
    let built = tree_messages(vec![[0.5, 0.5]; 2], vec![1.0, 1.0, 1.0]);
    tally.check("two leaves: the root", built.to_factor == [0.25, 0.5, 0.25]);
    tally.check("two leaves: to the grades", built.to_grades == [[0.5, 0.5]; 2]);
    // The Rust takes the layers from a float logarithm to base 2.
    let layers = |leaves: usize| (leaves as f32).log2().ceil() as u32;
    let padded = (1..=128).all(|leaves: usize| 1 << layers(leaves) == leaves.next_power_of_two());
    tally.check("leaves are padded to the least power of two", padded);
}

/// Random changes against a list that is searched whole.
fn queue(tally: &mut Tally) {
    let amounts = [0.0, -0.0, 1.0, 1.5, f32::NAN, -f32::NAN, f32::INFINITY, -2.0];
    let mut random = Random::new(3);
    let mut queue = PriorityQueue::new();
    let mut list: Vec<((u32, u32), OrderedFloat<f32>)> = Vec::new();
    let mut same = true;
    for _ in 0..20_000 {
        let item = (random.below(5) as u32, random.below(5) as u32);
        let amount = OrderedFloat(random.pick(&amounts));
        let known = list.iter().position(|entry| entry.0 == item);
        if random.once_in(3) {
            same &= queue.remove(&item).is_some() == known.is_some();
            known.map(|place| list.remove(place));
        } else {
            same &= queue.push(item, amount).is_some() == known.is_some();
            known.map(|place| list.remove(place));
            list.push((item, amount));
        }
        let first = list.iter().max_by(|left, right| left.1.cmp(&right.1).then(right.0.cmp(&left.0)));
        same &= queue.peek().map(|found| *found.0) == first.map(|entry| entry.0);
    }
    tally.check("the queue gives what a search of the whole list gives", same);
    let (nan, infinity) = (OrderedFloat(f32::NAN), OrderedFloat(f32::INFINITY));
    tally.check("a NaN is above all others", nan > infinity && OrderedFloat(-f32::NAN) == nan);
    tally.check("zeros of either sign are equal", OrderedFloat(0.0) == OrderedFloat(-0.0));
}

const LISTED: [u32; 6] = [0x20080200, 0x40000200, 0x60000001, 0x80002000, 0xA0000000, 0xC0000000];

fn files(tally: &mut Tally) {
    let mut check = |what: &str, words: &[u32], extra: &[u8], wanted: &str| {
        let mut bytes: Vec<u8> = words.iter().flat_map(|word| word.to_le_bytes()).collect();
        bytes.extend(extra);
        tally.check(&format!("file: {what}"), bale::listing(&bytes) == wanted);
    };
    let with = |place: usize, word: u32| {
        let mut words = LISTED;
        words[place] = word;
        words
    };
    check("the listing", &LISTED, &[], "bale 1 1 1\npart 0 empty 0\n0 3F000000 3F000000\n");
    check("empty", &[], &[], "refused 9 at 0\n");
    check("no end", &LISTED[..5], &[], "refused 9 at 5\n");
    check("three bytes over", &LISTED, &[0, 0, 0], "refused 9 at 6\n");
    check("a bad word before a missing end", &with(3, 0)[..4], &[1], "refused 9 at 3\n");
    check("a set bit outside the fields", &with(5, 0xC0000001), &[], "refused 9 at 5\n");
    check("kind 7 in the grades' place", &with(2, 0xE0000001), &[], "refused 9 at 3\n");
    check("a word after the end", &[LISTED.as_slice(), &[0xC0000000]].concat(), &[], "refused 9 at 6\n");
    let crowded = [0x20000200, 0x40000200, 0x60000019, 0xC0000000];
    check("over 24 grades, before a bad setting", &crowded, &[], "refused 1 at 0\n");
    check("alpha 0", &with(0, 0x20000200), &[], "refused 3 at 0\n");
    check("e of 0", &with(3, 0x80000000), &[], "refused 5 at 0\n");
    check("e of 16,384", &with(3, 0x80004000), &[], "refused 5 at 0\n");
    check("e over 16,384", &with(3, 0x80004001), &[], "refused 5 at 0\n");
    check("an unknown marker", &with(4, 0xA0000001), &[], "refused 6 at 0\n");
}

fn generated(tally: &mut Tally) {
    let mut random = Random::new(11);
    let calls: Vec<Call> = (0..200).map(|_| accepted_call(&mut random)).collect();
    tally.check("generated: accepted", calls.iter().all(|call| first_refusal(call).is_none()));
    tally.check("generated: as `calibrate_all_subgraphs` answers", calls.iter().all(as_the_rust_answers));
    tally.check("generated: hooks see every event and change nothing", calls.iter().all(events_counted));
    tally.check("generated: each part alone answers as in the whole", calls.iter().all(parts_answer_alone));
    tally.check("generated: the text form is read back", calls.iter().all(text_read_back));
}

fn text_read_back(request: &Call) -> bool {
    let text = write_call(request);
    read_call(&text).is_ok_and(|again| write_call(&again) == text)
}

fn as_the_rust_answers(request: &Call) -> bool {
    let settings = &request.settings;
    let answer = calibrate_all_subgraphs(&parts(request), settings.loop_limit, settings.tolerance);
    let (Ok(wanted), Outcome::Answered { beliefs, .. }) = (answer, call(request)) else {
        return false;
    };
    wanted.len() == beliefs.len()
        && wanted.iter().zip(&beliefs).all(|((name, values), belief)| {
            *name == belief.grade.to_string()
                && values[0].to_bits() == belief.absent.to_bits()
                && values[1].to_bits() == belief.present.to_bits()
        })
}

/// The opening, five sweeps and the steps of each part, and the same outcome.
fn events_counted(request: &Call) -> bool {
    let (outcome, bounds) = call_with_bounds(request);
    let Outcome::Answered { endings, .. } = &outcome else {
        return false;
    };
    let wanted: u64 = endings.iter().map(|ending| 6 + ending.steps as u64).sum();
    bounds.map_or(0, |bounds| bounds.events) == wanted && write_outcome(&outcome) == write_outcome(&call(request))
}

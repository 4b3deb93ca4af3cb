//! Compares what the proved convolution tree sends with the exact fractions, which are sums over all patterns. Run by enumeration/run.

mod cases;
mod patterns;
#[allow(dead_code)]
#[path = "../oracle/src/random.rs"]
mod random;
mod whole;

use cases::{FACTOR, MOST_LEAVES, Messages};
use patterns::{MISTAKES, Mistake, sums};
use random::Random;
use std::time::{Duration, Instant};
use whole::Whole;

#[link(name = "bench", kind = "static")]
unsafe extern "C" {
    // the factor's message, n + 1 floats, and n messages of two floats, in place; scratch behind them
    fn tree_messages(w: *mut f32, len: usize, n: usize);
}

/// More than any tree needs behind its messages.
const ROOM: usize = 1279;

/// An entry is within 2^-10 of its exact fraction, which is proved; within 2^-16 up to 64 leaves, on paper.
const PROVED: usize = 10;
const ON_PAPER: usize = 16;

fn sent_by_library(tree: &Messages) -> Messages {
    let mut w = tree.concat();
    w.resize(w.len() + ROOM, 7.0); // what the scratch holds beforehand must not matter
    unsafe { tree_messages(w.as_mut_ptr(), w.len(), tree.len() - 1) }
    let mut floats = w.into_iter();
    let message = |own: &Vec<f32>| floats.by_ref().take(own.len()).collect();
    tree.iter().map(message).collect()
}

/// How far a sent entry is from its exact fraction: the quotient of two whole numbers.
struct Distance(Whole, Whole);

impl Distance {
    fn is_above(&self, bits: usize) -> bool {
        let scaled = self.0.times(&Whole::power_of_two(bits));
        scaled.is_above(&self.1)
    }

    fn approximate(&self) -> f64 {
        (self.0.log2() - self.1.log2()).exp2()
    }
}

fn distances(sent: &[f32], sums: &[Whole]) -> Vec<Distance> {
    let one = Whole::units(1.0);
    let total = sums.iter().fold(Whole::new(vec![]), |t, sum| t.plus(sum));
    let distance = |(&x, sum): (&f32, &Whole)| {
        let difference = Whole::units(x).times(&total).difference(&sum.times(&one));
        Distance(difference, total.times(&one))
    };
    sent.iter().zip(sums).map(distance).collect()
}

fn name(receiver: usize) -> String {
    match receiver {
        FACTOR => "to the factor".into(),
        _ => format!("to grade {}", receiver - 1),
    }
}

fn hexadecimal(messages: &Messages) -> String {
    let bits = |message: &Vec<f32>| message.iter().map(|x| x.to_bits()).collect();
    let bits: Vec<Vec<u32>> = messages.iter().map(bits).collect();
    format!("{bits:08X?}")
}

/// The largest distances to a grade and to the factor, or what is wrong.
fn compare(tree: &Messages) -> Result<[f64; 2], String> {
    let sent = sent_by_library(tree);
    let bounds = [(PROVED, "the proof"), (ON_PAPER, "the bound on paper")];
    let mut largest = [0f64; 2];
    for (to, message) in sent.iter().enumerate() {
        let distances = distances(message, &sums(tree, to, None));
        for (entry, distance) in distances.iter().enumerate() {
            if let Some((bits, bound)) = bounds.iter().find(|(bits, _)| distance.is_above(*bits)) {
                let (tree, sent, to) = (hexadecimal(tree), hexadecimal(&sent), name(to));
                let fault = format!("more than 2^-{bits} from its exact fraction, against {bound}");
                return Err(format!(
                    "built of {tree}\nsent {sent}\n{to}, entry {entry}: {fault}"
                ));
            }
            let largest = &mut largest[usize::from(to == FACTOR)];
            *largest = largest.max(distance.approximate());
        }
    }
    Ok(largest)
}

fn arithmetic_is_exact() -> bool {
    let most = Whole::new(vec![u64::MAX; 2]);
    // two leaves [1/2, 1/2]: once, twice and once 2^296
    let halves = cases::tree_of(&[1.0; 3], &[[0.5; 2]; 2]);
    let counted = [1, 2, 1].map(|times| Whole::new(vec![0, 0, 0, 0, times << 40]));
    most.times(&most) == Whole::new(vec![1, 0, u64::MAX - 1, u64::MAX])
        && most.plus(&most).difference(&most) == most
        && sums(&halves, FACTOR, None) == counted
}

/// Whether a mistake shows in every message of the fixed trees.
fn tells_apart(mistake: Mistake) -> bool {
    cases::fixed().iter().all(|tree| {
        sent_by_library(tree).iter().enumerate().all(|(to, sent)| {
            let distances = distances(sent, &sums(tree, to, Some(mistake)));
            distances.iter().any(|distance| distance.is_above(PROVED))
        })
    })
}

/// A comparison that passed wrong sums would say nothing.
fn check_comparison() -> Result<(), String> {
    if !arithmetic_is_exact() {
        return Err("the arithmetic is not exact".into());
    }
    if let Some((_, name)) = MISTAKES.iter().find(|(mistake, _)| !tells_apart(*mistake)) {
        return Err(format!("not told apart: {name}"));
    }
    println!("told apart: {}", MISTAKES.map(|(_, name)| name).join(", "));
    Ok(())
}

fn grouped(number: usize) -> String {
    let digits = number.to_string();
    let groups = digits.as_bytes().rchunks(3).rev();
    let groups: Vec<_> = groups.map(String::from_utf8_lossy).collect();
    groups.join(",")
}

fn run(seed: u64, seconds: u64) -> Result<(), String> {
    check_comparison()?;
    let until = Instant::now() + Duration::from_secs(seconds);
    let mut random = Random::new(seed);
    let drawn = std::iter::from_fn(|| (Instant::now() < until).then(|| cases::tree(&mut random)));
    let (mut trees, mut entries, mut largest) = (0, 0, [0f64; 2]);
    for tree in cases::fixed().into_iter().chain(drawn) {
        let own = compare(&tree)?;
        largest = [0, 1].map(|i| largest[i].max(own[i]));
        entries += tree.concat().len();
        trees += 1;
    }
    let (trees, entries) = (grouped(trees), grouped(entries));
    let [to_grade, to_factor] = largest.map(f64::log2);
    print!("{trees} trees of 2 to {MOST_LEAVES} leaves, {entries} entries: ");
    print!("at most 2^{to_grade:.2} from the exact fraction to a grade, ");
    println!("2^{to_factor:.2} to the factor");
    Ok(())
}

fn number(place: usize, otherwise: u64) -> u64 {
    let word = std::env::args().nth(place);
    word.map_or(otherwise, |w| w.parse().expect("a number"))
}

fn main() {
    if let Err(message) = run(number(1, 0), number(2, 4)) {
        println!("{message}");
        std::process::exit(1);
    }
}

//! Compares the proved tonnage with the reference, morning by morning: the function's reply and every total in one process, and what the program `depot`
//! prints. Run by differential/tonnage.

mod buffer;
mod seeds;
mod threads;
mod tonnage_library;
mod tonnage_totals;

use buffer::{Buffer, Entry};
use oracle::generate_mornings::any_morning;
use oracle::refusal::Refusal;
use oracle::tonnage::{GRADES, Morning, Weighed, listing, tonnage_by_grade};
use seeds::Kind;
use std::path::{Path, PathBuf};
use std::process::Command;
use tonnage_library::{Reply, by_grade};
use tonnage_totals::Totals;

type Outcome = Result<Weighed<u64>, Refusal>;

/// Totals are set, and a refusal leaves them; what is behind them is left by both.
fn agrees_with(morning: &Morning, outcome: &Outcome) -> bool {
    let mut lent = Buffer::new(morning.lent);
    let reply = by_grade(morning, &mut lent);
    let totals = outcome.as_ref().map_or(&[][..], |weighed| &weighed.totals);
    reply == Reply::of(outcome) && lent.intact() && lent.begins_with(totals)
}

/// Written for the program, or where a morning differs.
fn written(morning: &Morning, name: &str) -> [PathBuf; 2] {
    let paths = ["csv", "shift"].map(|ending| Path::new("target/differential").join(format!("{name}.{ending}")));
    for (path, bytes) in paths.iter().zip([&morning.csv, &morning.shift]) {
        std::fs::write(path, bytes).expect("a file can be written");
    }
    paths
}

fn program_agrees(morning: &Morning) -> bool {
    let name = format!("{:?}", std::thread::current().id()).replace(['(', ')'], "");
    let done = Command::new("crates/depot/out/depot").args(written(morning, &name)).output().expect("the program runs");
    done.stdout == listing(&morning.csv, &morning.shift).into_bytes() && done.stderr.is_empty()
}

fn compared(morning: &Morning, totals: &mut Totals) -> bool {
    let outcome = tonnage_by_grade(morning);
    totals.take(&outcome);
    let run = totals.mornings % 300 == 0;
    totals.runs += u64::from(run);
    agrees_with(morning, &outcome) && (!run || program_agrees(morning))
}

/// A morning that differs, and what both sides make of it.
fn report(morning: &Morning) {
    let mut lent = Buffer::new(morning.lent);
    let reply = by_grade(morning, &mut lent);
    let [csv, shift] = written(morning, "failing");
    println!("differs: {} and {}\n{morning}", csv.display(), shift.display());
    println!("the reference: {:?}\nthe library: {reply:?}", Reply::of(&tonnage_by_grade(morning)));
    let entry = |&(grade, &entry): &(usize, &u64)| entry != u64::UNTOUCHED && (entry != 0 || grade >= GRADES);
    lent.entries().iter().enumerate().filter(entry).for_each(|(grade, grams)| println!("{grade} {grams}"));
    println!("what the reference has depot print:\n{}", listing(&morning.csv, &morning.shift));
}

const MORNINGS: Kind<Morning, Totals> = Kind {
    name: "tonnage",
    draw: any_morning,
    compared,
    add: Totals::add,
    count: |totals| totals.mornings,
    report,
};

/// All CSVs of up to eight of these bytes, so that there are two good lines, on two accepted bales (document 01's sample) and on one and a refused one; now and
/// then with a buffer of another length.
fn small_mornings() -> impl Iterator<Item = Morning> {
    let bale = |alpha: u32| [0x20000200 | alpha << 10, 0x40000200, 0x60000001, 0x80002000, 0xA0000000, 0xC0000000].map(u32::to_le_bytes).concat();
    let shifts = [512, 0].map(|alpha| [bale(512), bale(alpha)].concat());
    let mut texts = vec![Vec::new()];
    let mut longest = texts.clone();
    for _ in 0..8 {
        longest = longest.iter().flat_map(|text: &Vec<u8>| b"01,\n".map(|byte| [text.as_slice(), &[byte]].concat())).collect();
        texts.extend(longest.iter().cloned());
    }
    let others = [GRADES + 76, GRADES - 1, GRADES + 1, 24, 0];
    let lengths = others.into_iter().flat_map(|other| [[GRADES; 12].as_slice(), &[other]].concat()).collect::<Vec<_>>().into_iter().cycle();
    let pairs = texts.into_iter().flat_map(move |csv| shifts.clone().map(|shift| (csv.clone(), shift)));
    pairs.zip(lengths).map(|((csv, shift), lent)| Morning { csv, shift, lent })
}

fn main() {
    let numbers: Vec<u64> = std::env::args().skip(1).map(|word| word.parse().expect("a number")).collect();
    let (seed, count) = (numbers.first().copied().unwrap_or(0), numbers.get(1).copied().unwrap_or(100_000));
    let same = MORNINGS.listed("all CSVs of up to eight of 0, 1, comma and line feed", small_mornings()) && MORNINGS.random(seed, count);
    std::process::exit(i32::from(!same));
}

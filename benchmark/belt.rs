//! Times the proved matching of reads beside the same scan in plain Rust and beside the reference, in one process: the median of many
//! rounds on each shape. Run by benchmark/belt.

#[path = "../differential/buffer.rs"]
mod buffer;
#[path = "../differential/belts/library.rs"]
mod library;
mod measure;
mod scan;

use buffer::Buffer;
use library::{Reply, match_reads};
use measure::{median, milliseconds, peak_stack};
use oracle::belt::{Belt, Read, matches};
use oracle::limits::MOST_READS;
use oracle::random::Random;
use scan::scan;
use std::hint::black_box;

const ROUNDS: usize = 1_001;

fn microseconds(work: impl FnOnce()) -> f64 {
    1e3 * milliseconds(work)
}

/// The library's matches, which all three sides give.
fn compared(name: &str, belt: &Belt) -> usize {
    let wanted = matches(belt);
    let list = wanted.as_deref().expect("an accepted belt").as_flattened();
    let mut lent = Buffer::new(belt.lent);
    assert!(match_reads(belt, &mut lent) == Reply::of(&wanted), "{name}: the replies differ");
    assert!(lent.intact() && lent.begins_with(list), "{name}: the matches differ");
    let mut plain = vec![0; belt.lent];
    let count = scan(&belt.upper, &belt.lower, belt.window, &mut plain);
    assert!(count == Ok(list.len() as u32 / 2) && plain.starts_with(list), "{name}: the plain scan differs");
    list.len() / 2
}

/// One line of the table: the three medians and the proved call's ratio to the same scan.
fn line(name: &str, belt: &Belt) {
    let count = compared(name, belt);
    let (mut lent, mut plain) = (Buffer::new(belt.lent), vec![0; belt.lent]);
    let (mut ours, mut same, mut other) = (vec![], vec![], vec![]);
    for _ in 0..ROUNDS {
        ours.push(microseconds(|| {
            black_box(match_reads(black_box(belt), &mut lent));
        }));
        same.push(microseconds(|| {
            let belt = black_box(belt);
            black_box(scan(&belt.upper, &belt.lower, belt.window, black_box(&mut plain))).ok();
        }));
        other.push(microseconds(|| {
            black_box(matches(black_box(belt))).ok();
        }));
    }
    let (ours, same, other) = (median(ours), median(same), median(other));
    println!("| {name} | {count} | {other:.1} | {same:.2} | {ours:.2} | {:.2} |", ours / same);
}

// ---- shapes

/// What one of the readers sees: each thing up to 4 ticks early or late, one in twenty not at all.
fn seen(random: &mut Random, things: &[Read]) -> Vec<Read> {
    let seen: Vec<Read> = things.iter().copied().filter(|_| !random.once_in(20)).collect();
    let moved = |read: Read| Read { tick: read.tick + random.within(0, 8) as u32 - 4, ..read };
    let mut reads: Vec<Read> = seen.into_iter().map(moved).collect();
    reads.sort_by_key(|read| read.tick);
    reads.truncate(MOST_READS);
    reads
}

/// Things 10 ticks apart, or so many of them at once and so many times as far.
fn ordinary(markers: usize, burst: u32, window: u32) -> Belt {
    let mut random = Random::new(7);
    let thing = |i: u32| Read { tick: 10 * burst * (i / burst) + 100, marker: random.below(markers) as u32 };
    let things: Vec<Read> = (0..1200).map(thing).collect();
    Belt::new(&seen(&mut random, &things), &seen(&mut random, &things), window)
}

/// A read a tick, the marker by the tick.
fn reads(mut marker: impl FnMut(u32) -> u32) -> Vec<Read> {
    (0..MOST_READS as u32).map(|tick| Read { tick, marker: marker(tick) }).collect()
}

fn all_in_reach(upper: impl FnMut(u32) -> u32, lower: impl FnMut(u32) -> u32) -> Belt {
    Belt::new(&reads(upper), &reads(lower), u32::MAX)
}

/// One in so many lower reads is of the upper reads' marker, at random places, the first one never.
fn one_in(times: usize) -> Belt {
    let mut random = Random::new(9);
    all_in_reach(|_| 1, |j| u32::from(j > 0 && random.once_in(times)))
}

fn main() {
    println!("Microseconds a call, 1,024 reads a side. In the first six each reader has lost one read in twenty of its own.\n");
    println!("| shape | matches | reference | plain scan | proved | ratio to the scan |\n|---|---|---|---|---|---|");
    line("50 markers, jitter 4, window 8", &ordinary(50, 1, 8));
    line("1,000 markers, jitter 4, window 8", &ordinary(1000, 1, 8));
    line("one marker, jitter 4, window 8", &ordinary(1, 1, 8));
    line("50 markers, bursts of 8 equal ticks, window 8", &ordinary(50, 8, 8));
    line("50 markers, window over 100 reads", &ordinary(50, 1, 500));
    line("1,000 markers, window over 100 reads", &ordinary(1000, 1, 500));
    line("all markers different, largest window", &all_in_reach(|i| i, |j| j + 1024));
    line("upper of one marker, lower of another, largest window", &all_in_reach(|_| 1, |_| 0));
    line("all markers different on a side, in the other order below, largest window", &all_in_reach(|i| 1023 - i, |j| j));
    line("one marker behind a read that none may have, largest window", &all_in_reach(|_| 1, |j| u32::from(j > 0)));
    for times in [2, 3, 4, 16] {
        line(&format!("one lower read in {times} of the upper marker, largest window"), &one_in(times));
    }
    let belt = ordinary(50, 1, 8);
    let mut lent = Buffer::new(belt.lent);
    let stack = peak_stack(|| {
        black_box(match_reads(black_box(&belt), &mut lent));
    });
    println!("\npeak stack of the call: {stack} bytes");
}

//! Belts by seed.

use crate::belt::{Belt, Read};
use crate::faults_of_belts as faults;
use crate::limits::MOST_READS;
use crate::random::Random;

/// How many reads each side has: few mostly, now and then as many as may be.
fn counts(random: &mut Random) -> [usize; 2] {
    let [least, most] = match random.below(500) {
        0 => [MOST_READS - 1, MOST_READS],
        1 => [0, MOST_READS],
        2..=40 => [0, 64],
        _ => [0, 12],
    };
    [random.within(least, most), random.within(least, most)]
}

/// The markers that a belt's reads have.
fn markers(random: &mut Random) -> Vec<u32> {
    let few = random.within(1, 5) as u32;
    match random.below(8) {
        0 => vec![random.next() as u32],
        // Alike modulo 1,024.
        1 => vec![0, 1024, 2048],
        2 => vec![0, u32::MAX, 1 << 31],
        3 => (0..random.within(6, 2000) as u32).collect(),
        4 => (0..few).map(|_| random.next() as u32).collect(),
        _ => (0..few).collect(),
    }
}

fn start(random: &mut Random) -> u32 {
    let near = random.within(0, 40) as u32;
    match random.below(6) {
        0 => 0,
        1 => near,
        2 => u32::MAX - near,
        3 => u32::MAX,
        _ => random.next() as u32,
    }
}

/// Any number of up to 32 bits, small ones as often as large ones.
fn any_number(random: &mut Random) -> u32 {
    random.next() as u32 >> random.below(32)
}

/// So many ticks in order, in runs of equal ones, steps and jumps.
fn ticks(random: &mut Random, from: u32, count: usize) -> Vec<u32> {
    let step = random.pick(&[0, 1, 2, 5, 20, 1000]);
    let jumps = random.pick(&[4, 16, 1000]);
    let mut tick = from;
    let mut next = || {
        let this = tick;
        let more = if random.once_in(jumps) { any_number(random) } else { random.within(0, step) as u32 };
        tick = tick.saturating_add(more);
        this
    };
    (0..count).map(|_| next()).collect()
}

fn reads(random: &mut Random, from: u32, count: usize, markers: &[u32]) -> Vec<Read> {
    let ticks = ticks(random, from, count);
    ticks.into_iter().map(|tick| Read { tick, marker: random.pick(markers) }).collect()
}

/// What the other reader sees of these reads: a little earlier or later, some
/// of them not at all, a few twice or as another marker.
fn seen_again(random: &mut Random, reads: &[Read], markers: &[u32]) -> Vec<Read> {
    let jitter = random.pick(&[0, 1, 3, 10]);
    let lost = random.pick(&[3, 10, 20]);
    let mut seen = Vec::new();
    for &Read { tick, marker } in reads {
        if random.once_in(lost) {
            continue;
        }
        let late = tick.saturating_add(random.within(0, 2 * jitter) as u32);
        let marker = if random.once_in(20) { random.pick(markers) } else { marker };
        let read = Read { tick: late.saturating_sub(jitter as u32), marker };
        let times = if random.once_in(20) { 2 } else { 1 };
        seen.extend(std::iter::repeat_n(read, times));
    }
    seen.truncate(MOST_READS);
    seen.sort_by_key(|read| read.tick);
    seen
}

/// The distance of two reads, of one marker where there are such.
fn a_distance(random: &mut Random, upper: &[Read], lower: &[Read]) -> u32 {
    if upper.is_empty() || lower.is_empty() {
        return 0;
    }
    let above = random.pick(upper);
    let same: Vec<Read> = lower.iter().copied().filter(|read| read.marker == above.marker).collect();
    random.pick(if same.is_empty() { lower } else { &same }).tick.abs_diff(above.tick)
}

fn window(random: &mut Random, upper: &[Read], lower: &[Read]) -> u32 {
    let distance = a_distance(random, upper, lower);
    match random.below(10) {
        0 => random.pick(&[0, 1, u32::MAX - 1, u32::MAX]),
        1 => any_number(random),
        2 | 3 => distance,
        4 => distance.saturating_sub(1),
        5 => distance.saturating_add(1),
        _ => random.within(0, 12) as u32,
    }
}

/// A belt that no check refuses.
pub fn accepted_belt(random: &mut Random) -> Belt {
    let markers = markers(random);
    let (from, [uppers, lowers]) = (start(random), counts(random));
    let mut upper = reads(random, from, uppers, &markers);
    let mut lower = match random.below(5) {
        0 => reads(random, from, lowers, &markers),
        1 => {
            let from = start(random);
            reads(random, from, lowers, &markers)
        }
        _ => seen_again(random, &upper, &markers),
    };
    if random.once_in(2) {
        std::mem::swap(&mut upper, &mut lower);
    }
    let window = window(random, &upper, &lower);
    let mut belt = Belt::new(&upper, &lower, window);
    // An odd last number is not read, not even where it is below the last tick.
    for numbers in [&mut belt.upper, &mut belt.lower] {
        if random.once_in(6) {
            numbers.push(random.pick(&[0, 0, 7, u32::MAX]));
        }
    }
    if random.once_in(3) {
        belt.lent += random.within(1, 9);
    }
    belt
}

/// Accepted, or with one to three faults, so that their order shows.
pub fn any_belt(random: &mut Random) -> Belt {
    let mut belt = accepted_belt(random);
    if random.once_in(3) {
        // Check 1's fault costs a thousand reads.
        let most = if random.once_in(20) { 3 } else { 2 };
        let mut numbers = [10, 2, 1];
        random.shuffle(&mut numbers[..most]);
        let count = random.within(1, most);
        let numbers = &mut numbers[..count];
        // The higher checks first: check 1's fault changes the counts.
        numbers.sort_by(|left, right| right.cmp(left));
        numbers.iter().for_each(|&number| faults::put_in(random, &mut belt, number));
    }
    belt
}

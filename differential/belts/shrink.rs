//! The smallest failing belt that leaving out reads and lessening numbers lead to.

use crate::shrink::runs;
use oracle::belt::Belt;

/// The buffer keeps what it has over, or lacks of, the size that the reads need.
fn resized(mut belt: Belt, from: &Belt) -> Belt {
    belt.lent = (from.lent + belt.needed()).saturating_sub(from.needed());
    belt
}

fn lists(belt: &mut Belt) -> [&mut Vec<u32>; 2] {
    [&mut belt.upper, &mut belt.lower]
}

/// Without a run of reads of one list.
fn without_reads(belt: &Belt, side: usize) -> impl Iterator<Item = Belt> {
    let count = [belt.upper_count(), belt.lower_count()][side];
    runs(count).map(move |gone| {
        let mut less = belt.clone();
        lists(&mut less)[side].drain(2 * gone.start..2 * gone.end);
        resized(less, belt)
    })
}

/// Without an odd last number.
fn without_odd(belt: &Belt, side: usize) -> Belt {
    let mut less = belt.clone();
    let numbers = &mut lists(&mut less)[side];
    numbers.truncate(numbers.len() / 2 * 2);
    less
}

/// The ticks (offset 0) or the markers (1) of all reads, each once and in order.
fn values(belt: &Belt, offset: usize) -> Vec<u32> {
    let reads = belt.upper.chunks_exact(2).chain(belt.lower.chunks_exact(2));
    let mut all: Vec<u32> = reads.map(|read| read[offset]).collect();
    all.sort();
    all.dedup();
    all
}

fn changed(belt: &Belt, offset: usize, change: impl Fn(u32) -> u32) -> Belt {
    let mut less = belt.clone();
    for numbers in lists(&mut less) {
        numbers.chunks_exact_mut(2).for_each(|read| read[offset] = change(read[offset]));
    }
    less
}

/// From all of a number down to 1: with small steps alone a large number takes long.
fn steps(number: u32) -> impl Iterator<Item = u32> {
    (0..u32::BITS).map(move |i| number >> i).take_while(|&step| step > 0)
}

/// All ticks from one on come nearer to those before, with the window or without.
fn nearer(belt: &Belt) -> impl Iterator<Item = Belt> {
    let ticks = values(belt, 0);
    let before = std::iter::once(0).chain(ticks.clone());
    let gaps = ticks.into_iter().zip(before).map(|(tick, before)| (tick, tick - before));
    let nearer = gaps.flat_map(|(tick, gap)| steps(gap).map(move |step| (tick, step)));
    nearer.flat_map(|(tick, step)| {
        let less = changed(belt, 0, |t| if t < tick { t } else { t - step });
        let window = belt.window.saturating_sub(step);
        [Belt { window, ..less.clone() }, less]
    })
}

/// One marker becomes one of the first few.
fn lesser_markers(belt: &Belt) -> impl Iterator<Item = Belt> {
    let others = |marker: u32| (0..marker.min(3)).map(move |other| (marker, other));
    let pairs = values(belt, 1).into_iter().flat_map(others);
    pairs.map(|(marker, other)| changed(belt, 1, |m| if m == marker { other } else { m }))
}

fn lesser_sizes(belt: &Belt) -> impl Iterator<Item = Belt> {
    let windows = steps(belt.window).map(|step| Belt { window: belt.window - step, ..belt.clone() });
    let least = if belt.lent > belt.needed() { belt.needed() } else { 0 };
    let buffers = [least, belt.lent.saturating_sub(1)];
    windows.chain(buffers.into_iter().map(|lent| Belt { lent, ..belt.clone() }))
}

fn smaller(belt: &Belt) -> impl Iterator<Item = Belt> {
    let reads = without_reads(belt, 0).chain(without_reads(belt, 1));
    let odd = (0..2).map(|side| without_odd(belt, side));
    let all = reads.chain(odd).chain(nearer(belt)).chain(lesser_markers(belt)).chain(lesser_sizes(belt));
    all.filter(move |less| less != belt)
}

pub fn shrink(belt: &Belt, fails: impl Fn(&Belt) -> bool) -> Belt {
    let mut least = belt.clone();
    loop {
        let found = smaller(&least).find(&fails);
        let Some(less) = found else {
            return least;
        };
        least = less;
    }
}

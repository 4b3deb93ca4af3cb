//! Mornings by seed: lines of a CSV and a shift that they weigh, good and damaged.

use crate::bale::decode;
use crate::call::first_refusal;
use crate::faults_of_csv::{line_of, put_in};
use crate::generate_files::bytes_of;
use crate::generate_shifts::{based_shift, damaged_based_shift, damaged_shift, shift};
use crate::random::Random;
use crate::shift::bales;
use crate::tonnage::{Morning, Row, GRADES};

const END: u32 = 6 << 29;
/// Document 01's sample, whose belief is 1/2.
const SAMPLE: [u32; 6] = [0x20080200, 0x40000200, 0x60000001, 0x80002000, 0xA0000000, END];

/// Each marker on one grade: quick to run, and with beliefs from nearly 0 to exactly 1.
fn star_bale(random: &mut Random) -> Vec<u8> {
    let sure = random.once_in(2);
    let mut of = |ends: [u32; 2]| if sure { random.pick(&ends) } else { random.within(1, 1023) as u32 };
    let (alpha, beta, prior) = (of([1023, 1000]), of([1, 8]), of([1, 1023]));
    let (grades, markers) = (random.within(1, 5) as u32, random.below(13) as u32);
    let mut words = vec![1 << 29 | alpha << 10 | beta, 2 << 29 | prior];
    if random.once_in(6) {
        words.push(7 << 29 | random.within(1, 1023) as u32);
    }
    words.push(3 << 29 | grades);
    for _ in 0..markers {
        let e = if random.once_in(2) { random.pick(&[1024, 15360]) } else { random.within(1, 16383) };
        words.push(4 << 29 | e as u32);
    }
    let mut pairs: Vec<u32> = (0..markers).map(|m| 5 << 29 | (random.below(grades as usize) as u32) << 10 | m).collect();
    random.shuffle(&mut pairs);
    words.extend(pairs);
    words.push(END);
    bytes_of(&words)
}

/// A bale that some number refuses, with an end word.
fn refused_bale(random: &mut Random) -> Vec<u8> {
    let (place, word) = random.pick(&[(0, 0x20000200), (2, 0x60000019), (4, 0xA0000001), (5, END + 5), (5, END | 1 << 28), (2, 0x60000000), (3, 0)]);
    let mut words = SAMPLE;
    words[place] = word;
    if random.once_in(4) { bytes_of(&[END]) } else { bytes_of(&words) }
}

/// Few small bales, some of them refused; now and then one that breaks off.
fn small_shift(random: &mut Random) -> Vec<u8> {
    let (count, refused) = (random.within(1, 6), random.pick(&[3, 8, 100]));
    let mut bytes = Vec::new();
    for _ in 0..count {
        let bale = if random.once_in(refused) { refused_bale(random) } else { star_bale(random) };
        bytes.extend(bale);
    }
    match random.below(12) {
        0 => bytes.truncate(bytes.len() - random.within(1, 4)),
        1 => bytes.extend(vec![0; random.within(1, 3)]),
        _ => {}
    }
    bytes
}

/// Two bales again and again, the second seldom. Many samples have a total of over 32 bits.
fn long_shift(random: &mut Random, count: usize) -> Vec<u8> {
    let usual = if random.once_in(2) { bytes_of(&SAMPLE) } else { star_bale(random) };
    let seldom = if random.once_in(2) { refused_bale(random) } else { star_bale(random) };
    (0..count).flat_map(|_| if random.once_in(50) { seldom.clone() } else { usual.clone() }).collect()
}

fn any_shift(random: &mut Random) -> Vec<u8> {
    let long = match random.below(1000) {
        0 => random.pick(&[9999, 10000, 10001, 10003]),
        1..=8 => random.within(50, 600),
        _ => 0,
    };
    match random.below(16) {
        _ if long > 0 => long_shift(random, long),
        0 => Vec::new(),
        1 => shift(random),
        2 => based_shift(random),
        3 => damaged_shift(random),
        4 => damaged_based_shift(random),
        _ => small_shift(random),
    }
}

fn kilograms(random: &mut Random) -> u32 {
    match random.below(6) {
        0 => random.pick(&[1, 2000]),
        1 => random.pick(&[2, 999, 1000, 1001, 1999]),
        _ => random.within(1, 2000) as u32,
    }
}

/// A number that no bale of the shift has, if its bales leave one.
fn beyond(random: &mut Random, count: usize) -> u32 {
    let least = count.min(9999);
    let any = random.within(least, 9999);
    random.pick(&[least, (least + 1).min(9999), any, 9999]) as u32
}

/// A line for each accepted bale, or for some of them; now and then for refused ones
/// too, and for one that is not there.
fn rows(random: &mut Random, shift: &[u8]) -> Vec<Row> {
    let bales = bales(shift);
    let (skipped, named) = (random.pick(&[0, 0, 25, 80]), random.pick(&[0, 0, 0, 60]));
    let mut rows = Vec::new();
    for (number, bale) in bales.iter().enumerate().take(10000) {
        let accepted = decode(bale).is_ok_and(|call| first_refusal(&call).is_none());
        let wanted = if accepted { random.below(100) >= skipped } else { random.below(100) < named };
        if wanted {
            rows.push(Row { bale: number as u32, kilograms: kilograms(random) });
        }
    }
    if random.once_in(10) {
        rows.push(Row { bale: beyond(random, bales.len()), kilograms: kilograms(random) });
    }
    rows
}

/// A morning of any kind: damaged lines in one of three, damaged bytes of the shift in
/// one of ten, and now and then a short or a longer buffer.
pub fn any_morning(random: &mut Random) -> Morning {
    let mut shift = any_shift(random);
    let lines: Vec<Vec<u8>> = rows(random, &shift).into_iter().map(line_of).collect();
    let other = beyond(random, bales(&shift).len());
    let csv = if random.once_in(3) { put_in(random, lines, other) } else { lines.concat() };
    if !shift.is_empty() && random.once_in(10) {
        let place = random.below(shift.len());
        shift[place] ^= 1 << random.below(8);
    }
    let lent = if random.once_in(8) { random.pick(&[0, 24, GRADES - 1, GRADES + 1, GRADES + 76]) } else { GRADES };
    Morning { csv, shift, lent }
}

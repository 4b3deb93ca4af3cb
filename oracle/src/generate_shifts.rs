//! Shifts by seed, good and damaged: bale files one after the other, of which some
//! may have a base rate.

use crate::generate_based_files::{based_file, damaged_based_file};
use crate::generate_files::{damaged_file, file};
use crate::random::Random;

const END: [u8; 4] = (6u32 << 29).to_le_bytes();

/// How a bale is drawn.
type Draw = fn(&mut Random) -> Vec<u8>;

/// Bales in good form, now and then one that a check refuses; seldom none.
pub fn shift(random: &mut Random) -> Vec<u8> {
    shift_of(random, file)
}

/// The same, with a base rate in about half of the bales.
pub fn based_shift(random: &mut Random) -> Vec<u8> {
    shift_of(random, either_file)
}

/// Bales of which some are damaged, and damages between two and behind the last.
pub fn damaged_shift(random: &mut Random) -> Vec<u8> {
    damaged_shift_of(random, file, damaged_file)
}

/// The same, with a base rate in about half of the good bales, and all damaged ones
/// drawn with one.
pub fn damaged_based_shift(random: &mut Random) -> Vec<u8> {
    damaged_shift_of(random, either_file, damaged_based_file)
}

fn either_file(random: &mut Random) -> Vec<u8> {
    if random.once_in(2) { based_file(random) } else { file(random) }
}

fn shift_of(random: &mut Random, file: Draw) -> Vec<u8> {
    let count = if random.once_in(50) { 0 } else { random.within(1, 6) };
    (0..count).flat_map(|_| file(random)).collect()
}

fn damaged_shift_of(random: &mut Random, file: Draw, damaged_file: Draw) -> Vec<u8> {
    let mut bytes = Vec::new();
    for _ in 0..random.within(1, 6) {
        if random.once_in(4) {
            bytes.extend(between(random));
        }
        let mut bale = if random.once_in(2) { file(random) } else { damaged_file(random) };
        if random.once_in(4) {
            damage_end(random, &mut bale);
        }
        bytes.extend(bale);
    }
    damage_tail(random, &mut bytes);
    bytes
}

/// What may come between two bales: an end more, a word that begins no bale, or
/// bytes after which no word is where it was.
fn between(random: &mut Random) -> Vec<u8> {
    let word = (random.next() as u32).to_le_bytes();
    match random.below(5) {
        0 => END.to_vec(),
        1 => vec![0; 4],
        2 => word.to_vec(),
        3 => vec![0; random.within(1, 3)],
        _ => word[..random.within(1, 3)].to_vec(),
    }
}

/// A bit set in the end word, or no end word.
fn damage_end(random: &mut Random, bale: &mut Vec<u8>) {
    let Some(place) = bale.len().checked_sub(4) else { return };
    match random.below(3) {
        0 => bale.truncate(place),
        1 => bale[place + random.below(3)] ^= 1 << random.below(8),
        _ => bale[place + 3] ^= 1 << random.below(5),
    }
}

/// One to three bytes behind the last end, a bale broken off, or nothing.
fn damage_tail(random: &mut Random, bytes: &mut Vec<u8>) {
    match random.below(3) {
        0 => bytes.extend((0..random.within(1, 3)).map(|_| random.next() as u8)),
        1 => bytes.truncate(bytes.len().saturating_sub(random.within(1, 40))),
        _ => {}
    }
}

//! Bale files by seed, in good form and damaged.

use crate::limits::*;
use crate::random::Random;
use crate::shapes::{any_graph, Room};

const PROGRAM: Room = Room {
    grades: PROGRAM_GRADES,
    markers: PROGRAM_MARKERS,
    pairs: PROGRAM_PAIRS,
    grades_of_a_marker: PROGRAM_GRADES,
};

fn file_settings(random: &mut Random) -> [u32; 2] {
    let mut thousandths = || match random.below(8) {
        0 => 1,
        1 => 1023,
        2 => 512,
        _ => random.within(1, 1023) as u32,
    };
    let (alpha, beta, prior) = (thousandths(), thousandths(), thousandths());
    let regularised = random.below(2) as u32;
    [1 << 29 | alpha << 10 | beta, 2 << 29 | regularised << 10 | prior]
}

pub(crate) fn file_words(random: &mut Random) -> Vec<u32> {
    let graph = any_graph(random, PROGRAM);
    let mut words = file_settings(random).to_vec();
    words.push(3 << 29 | graph.grades as u32);
    for _ in 0..graph.markers {
        let e = if random.once_in(4) { random.pick(&[1, 16383]) } else { random.within(1, 16383) };
        words.push(4 << 29 | e as u32);
    }
    words.extend(graph.pairs.iter().map(|&(g, m)| 5 << 29 | (g as u32) << 10 | m as u32));
    words.push(6 << 29);
    words
}

/// A field of a good file changed, so that a check of the library or the
/// program's own number 1 may refuse it.
fn change_field(random: &mut Random, words: &mut Vec<u32>) {
    let place = random.below(words.len() - 1);
    change_field_at(random, words, place);
}

pub(crate) fn change_field_at(random: &mut Random, words: &mut Vec<u32>, place: usize) {
    let value = random.next() as u32;
    match words[place] >> 29 {
        1 => words[place] &= random.pick(&[!0x3FF, !(0x3FF << 10)]),
        2 => words[place] &= !0x3FF,
        3 => words[place] = 3 << 29 | random.pick(&[value & 0x7FF, 0, 24, 25, 1024, 1025]),
        4 => words[place] = 4 << 29 | random.pick(&[value & 0x7FFF, 0, 16384, 16385, 32767]),
        7 => words[place] = 7 << 29 | random.pick(&[value & 0x3FF, 0]),
        _ if random.once_in(2) => words.insert(place, words[place]),
        _ => words[place] = 5 << 29 | value & 0xF_FFFF,
    }
}

pub(crate) fn bytes_of(words: &[u32]) -> Vec<u8> {
    words.iter().flat_map(|word| word.to_le_bytes()).collect()
}

/// A bale file in good form; now and then a check refuses what it says.
pub fn file(random: &mut Random) -> Vec<u8> {
    let words = file_words(random);
    now_and_then_changed(random, words)
}

pub(crate) fn now_and_then_changed(random: &mut Random, mut words: Vec<u32>) -> Vec<u8> {
    if random.once_in(4) {
        for _ in 0..random.within(1, 3) {
            change_field(random, &mut words);
        }
    }
    bytes_of(&words)
}

/// A bale file with one to three damages, which number 9 mostly refuses.
pub fn damaged_file(random: &mut Random) -> Vec<u8> {
    let words = file_words(random);
    damaged(random, words)
}

pub(crate) fn damaged(random: &mut Random, mut words: Vec<u32>) -> Vec<u8> {
    if random.once_in(4) {
        change_field(random, &mut words);
    }
    for _ in 0..random.within(0, 2) {
        damage_words(random, &mut words);
    }
    let mut bytes = bytes_of(&words);
    damage_bytes(random, &mut bytes);
    bytes
}

fn damage_words(random: &mut Random, words: &mut Vec<u32>) {
    if words.is_empty() {
        return;
    }
    let (place, other) = (random.below(words.len()), random.below(words.len()));
    match random.below(5) {
        0 => words.swap(place, other),
        1 => words.insert(place, random.next() as u32),
        2 => words.insert(place, words[other]),
        3 => drop(words.remove(place)),
        _ => words.push(random.pick(&[6 << 29, 4 << 29 | 1, 5 << 29, 7 << 29, 0])),
    }
}

fn damage_bytes(random: &mut Random, bytes: &mut Vec<u8>) {
    match random.below(4) {
        0 if !bytes.is_empty() => {
            let place = random.below(bytes.len());
            bytes[place] ^= 1 << random.below(8);
        }
        1 => bytes.truncate(random.below(bytes.len() + 1)),
        2 => bytes.extend((0..random.within(1, 3)).map(|i| i as u8)),
        _ => {}
    }
}

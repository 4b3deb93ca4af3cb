//! Bale files with a base rate by seed, in good form and damaged (document 02, S-16).

use crate::generate_files::{bytes_of, change_field_at, damaged, file_words, now_and_then_changed};
use crate::random::Random;

/// In 1,024ths: often near 0, a half or 1; now and then 0, which number 11 refuses.
fn base_rate(random: &mut Random) -> u32 {
    match random.below(16) {
        0 | 1 => 0,
        2..=8 => random.pick(&[1, 2, 511, 512, 513, 1022, 1023]),
        _ => random.within(1, 1023) as u32,
    }
}

/// The least and the largest e of which number 5 takes both entries: with this base
/// rate e * (1024 - b) and (16384 - e) * b are at least 1,024. A rate of 0 has no such
/// e, and is taken for 1.
fn ends(b: u32) -> [u32; 2] {
    [1024u32.div_ceil(1024 - b), 16384 - 1024u32.div_ceil(b.max(1))]
}

/// An e that number 5 takes, in one of four at an end.
fn read(random: &mut Random, b: u32) -> u32 {
    let [least, largest] = ends(b);
    if random.once_in(4) { random.pick(&[least, largest]) } else { random.within(least as usize, largest as usize) as u32 }
}

/// An e that number 5 refuses, mostly next to an end.
fn bad_read(random: &mut Random, b: u32) -> u32 {
    let [least, largest] = ends(b);
    random.pick(&[least - 1, largest + 1, least - 1, largest + 1, 0, 16384, 16385, 32767])
}

/// The places of the markers' words.
fn marker_places(words: &[u32]) -> Vec<usize> {
    (0..words.len()).filter(|&place| words[place] >> 29 == 4).collect()
}

/// A file's words with a base rate behind the prior, and other reads; now and then
/// one of these is bad.
fn based_words(random: &mut Random) -> Vec<u32> {
    let mut words = file_words(random);
    let b = base_rate(random);
    let markers = marker_places(&words);
    for &place in &markers {
        words[place] = 4 << 29 | read(random, b);
    }
    if !markers.is_empty() && random.once_in(6) {
        words[random.pick(&markers)] = 4 << 29 | bad_read(random, b);
    }
    words.insert(2, 7 << 29 | b);
    words
}

/// Mostly at the head of the file, where the base rate belongs.
fn any_place(random: &mut Random, words: &[u32]) -> usize {
    if random.once_in(4) { random.within(0, words.len()) } else { random.within(0, 4) }
}

/// The base rate's word twice, elsewhere, or with a bit set above the rate; or a rate of
/// 0, which damages behind it may hide.
fn damage_base(random: &mut Random, words: &mut Vec<u32>) {
    let base = words[2];
    match random.below(4) {
        0 => words.insert(any_place(random, words), base),
        1 => {
            words.remove(2);
            words.insert(any_place(random, words), base);
        }
        2 => words[2] |= 1 << if random.once_in(2) { 10 } else { random.within(11, 28) },
        _ => words[2] = 7 << 29,
    }
}

/// A bale file in good form that has a base rate; now and then a check refuses it. With
/// a rate of 0 there is often a setting or a count that a later check would refuse.
pub fn based_file(random: &mut Random) -> Vec<u8> {
    let mut words = based_words(random);
    if words[2] == 7 << 29 && random.once_in(2) {
        let place = random.pick(&[0, 1, 3]);
        change_field_at(random, &mut words, place);
    }
    now_and_then_changed(random, words)
}

/// The same with damages: of the base rate's word, of any, or of both.
pub fn damaged_based_file(random: &mut Random) -> Vec<u8> {
    let mut words = based_words(random);
    let which = random.below(3);
    if which > 0 {
        damage_base(random, &mut words);
    }
    if which == 1 { bytes_of(&words) } else { damaged(random, words) }
}

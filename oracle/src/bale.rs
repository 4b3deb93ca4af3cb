//! The bale file, with document 02's base rate (S-16), and the program's listing.

use std::fmt::Write;

use crate::call::{call, Belief, Call, Lent, Outcome, PartEnding, Refusal, Settings};
use crate::hooks::Ending;
use crate::limits::*;

/// The fields' bits of the kinds 1 to 7; a set bit outside them is bad.
const FIELDS: [u32; 7] = [0xF_FFFF, 0x7FF, 0x7FF, 0x7FFF, 0xF_FFFF, 0, 0x3FF];

const END: u32 = 6;
const BASE: u32 = 7;

fn kind(word: u32) -> u32 {
    word >> 29
}

/// One each of 1, 2, 3, then all 4s, all 5s and one 6; between 2 and 3 there may be
/// one 7. `before` is the kind of the word before, 0 at the start.
fn may_follow(before: u32, next: u32) -> bool {
    match before {
        0 | 1 => next == before + 1,
        2 => next == 3 || next == BASE,
        BASE => next == 3,
        3 | 4 => (4..=END).contains(&next),
        5 => next == 5 || next == END,
        _ => false,
    }
}

fn fits(word: u32) -> bool {
    let fields = FIELDS[kind(word) as usize - 1];
    word & 0x1FFF_FFFF & !fields == 0
}

/// The words of a good file, or number 9 with the first bad word; bytes that
/// make no whole word are bad at the count of whole words.
fn words(bytes: &[u8]) -> Result<Vec<u32>, Refusal> {
    let chunks = bytes.chunks_exact(4);
    let rest = chunks.remainder().len();
    let words: Vec<u32> = chunks.map(|chunk| u32::from_le_bytes(chunk.try_into().unwrap())).collect();
    let bad = |place: usize| Err(Refusal { number: 9, place: place as u32 });
    let mut before = 0;
    for (place, &word) in words.iter().enumerate() {
        if !may_follow(before, kind(word)) || !fits(word) {
            return bad(place);
        }
        before = kind(word);
    }
    if before != END || rest != 0 {
        return bad(words.len());
    }
    Ok(words)
}

fn in_1024ths(word: u32) -> f32 {
    (word & 0x3FF) as f32 / 1024.0
}

/// Absent and present of a read e; a base rate b, in 1,024ths, is taken out of it.
/// For e up to 16,384 nothing is rounded: whole numbers up to 2^24 are exact in f32.
pub(crate) fn entries(e: u32, base: Option<u32>) -> [f32; 2] {
    let (absent, present) = (16384.0 - e as f32, e as f32);
    match base {
        None => [absent / 16384.0, present / 16384.0],
        Some(b) => [absent * b as f32 / 16777216.0, present * (1024 - b) as f32 / 16777216.0],
    }
}

/// The call that a good file means, run as the program runs it.
fn meaning(words: &[u32]) -> Call {
    let settings = Settings {
        alpha: in_1024ths(words[0] >> 10),
        beta: in_1024ths(words[0]),
        prior: in_1024ths(words[1]),
        regularised: words[1] >> 10 & 1 == 1,
        tolerance: PROGRAM_TOLERANCE,
        loop_limit: PROGRAM_LOOPS,
    };
    let (mut base, mut grades) = (None, 0);
    let (mut evidence, mut pairs) = (Vec::new(), Vec::new());
    for &word in &words[2..] {
        match kind(word) {
            BASE => base = Some(word & 0x3FF),
            3 => grades = word & 0x7FF,
            4 => evidence.extend(entries(word & 0x7FFF, base)),
            5 => pairs.extend([word >> 10 & 0x3FF, word & 0x3FF]),
            _ => {}
        }
    }
    let lent = Lent::needed(grades as usize, evidence.len() / 2, pairs.len() / 2);
    Call { settings, grades, evidence, pairs, lent }
}

/// The file's meaning; number 9, then 11, a base rate of 0, then the program's own
/// number 1.
pub fn decode(bytes: &[u8]) -> Result<Call, Refusal> {
    let words = words(bytes)?;
    if let Some(place) = words.iter().position(|&word| word == BASE << 29) {
        return Err(Refusal { number: 11, place: place as u32 });
    }
    let bale = meaning(&words);
    let over = bale.grades as usize > PROGRAM_GRADES
        || bale.marker_count() > PROGRAM_MARKERS
        || bale.pair_count() > PROGRAM_PAIRS;
    if over { Err(Refusal { number: 1, place: 0 }) } else { Ok(bale) }
}

/// What the program prints for the file.
pub fn listing(bytes: &[u8]) -> String {
    let bale = match decode(bytes) {
        Ok(bale) => bale,
        Err(refusal) => return refused(refusal),
    };
    match call(&bale) {
        Outcome::Refused(refusal) => refused(refusal),
        Outcome::Answered { beliefs, endings } => {
            let (markers, pairs) = (bale.marker_count(), bale.pair_count());
            format!("bale {} {markers} {pairs}\n", bale.grades) + &part_lines(&beliefs, &endings)
        }
    }
}

pub fn refused(refusal: Refusal) -> String {
    format!("refused {} at {}\n", refusal.number, refusal.place)
}

fn part_lines(beliefs: &[Belief], endings: &[PartEnding]) -> String {
    let mut text = String::new();
    let mut rest = beliefs;
    for PartEnding { part, ending, steps, beliefs } in endings {
        writeln!(text, "part {part} {}", ending_words(*ending, *steps)).unwrap();
        let (own, others) = rest.split_at(*beliefs as usize);
        rest = others;
        for Belief { grade, absent, present } in own {
            writeln!(text, "{grade} {:08X} {:08X}", absent.to_bits(), present.to_bits()).unwrap();
        }
    }
    text
}

fn ending_words(ending: Ending, steps: u32) -> String {
    match ending {
        Ending::Limit(residual) => format!("limit {steps} {:08X}", residual.to_bits()),
        Ending::Settled(residual) => format!("settled {steps} {:08X}", residual.to_bits()),
        Ending::Empty => format!("empty {steps}"),
    }
}

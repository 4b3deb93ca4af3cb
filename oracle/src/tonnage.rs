//! Tonnage by grade from the morning CSV, by document 02 (S-33). The Rust has nothing
//! of it but the beliefs: a line's grams are computed from a belief's bits, in whole
//! numbers of 128 bits, so that nothing is rounded.

use std::fmt::{self, Write};
use std::ops::AddAssign;

use crate::bale::{decode, refused};
use crate::call::{call, Belief, Outcome};
use crate::refusal::Refusal;
use crate::shift::bales;

pub const GRADES: usize = 1024;

/// What a call is given, and how many totals are lent.
#[derive(Clone, PartialEq, Eq)]
pub struct Morning {
    pub csv: Vec<u8>,
    pub shift: Vec<u8>,
    pub lent: usize,
}

/// What was summed over the lines, by grade.
#[derive(Clone, Debug, PartialEq, Eq)]
pub struct Weighed<T> {
    pub lines: u32,
    pub totals: Vec<T>,
}

#[derive(Clone, Copy)]
pub(crate) struct Row {
    pub bale: u32,
    pub kilograms: u32,
}

/// `parse` takes more than a line may have, as +5 and 05: a number is what is
/// printed alike.
fn number(word: &str) -> Option<u32> {
    word.parse().ok().filter(|number: &u32| number.to_string() == word)
}

/// A line by itself, with the line feed that ends it: whether its bale rises is asked
/// elsewhere.
pub(crate) fn row(line: &[u8]) -> Option<Row> {
    let (bale, kilograms) = std::str::from_utf8(line).ok()?.strip_suffix('\n')?.split_once(',')?;
    let row = Row { bale: number(bale)?, kilograms: number(kilograms)? };
    (row.bale <= 9999 && (1..=2000).contains(&row.kilograms)).then_some(row)
}

/// Grams times a belief, as a fraction of whole numbers, and its whole part.
pub(crate) fn whole_part(grams: u64, belief: f32) -> u64 {
    assert!((0.0..=1.0).contains(&belief), "a belief is from 0 to 1");
    let (exponent, fraction) = (belief.to_bits() >> 23, belief.to_bits() % (1 << 23));
    // the least numbers have no leading 1, and the exponent of those above them
    let digits = if exponent == 0 { fraction } else { fraction + (1 << 23) };
    let numerator = u128::from(grams) * u128::from(digits);
    // a denominator of over 128 bits is above any numerator
    2u128.checked_pow(150 - exponent.max(1)).map_or(0, |denominator| (numerator / denominator) as u64)
}

/// A bale's beliefs, or none where it is refused.
pub(crate) fn beliefs(bale: &[u8]) -> Option<Vec<Belief>> {
    match call(&decode(bale).ok()?) {
        Outcome::Answered { beliefs, .. } => Some(beliefs),
        Outcome::Refused(_) => None,
    }
}

/// The sums by grade over all lines, or the lowest line's refusal. What the beliefs of
/// a bale are, and what a belief's share of a line's grams is, is handed over: the
/// self-check hands over wrong ones too.
pub(crate) fn summed<T: Copy + Default + AddAssign>(
    csv: &[u8],
    beliefs_of: impl Fn(usize) -> Option<Vec<Belief>>,
    share: impl Fn(u64, &Belief) -> T,
) -> Result<Weighed<T>, Refusal> {
    let mut sums = Weighed { lines: 0, totals: vec![T::default(); GRADES] };
    let mut least = 0;
    for line in csv.split_inclusive(|&byte| byte == b'\n') {
        let refusal = |number| Refusal { number, place: sums.lines };
        let row = row(line).filter(|row| row.bale >= least).ok_or(refusal(14))?;
        for belief in beliefs_of(row.bale as usize).ok_or(refusal(15))? {
            sums.totals[belief.grade as usize] += share(1000 * u64::from(row.kilograms), &belief);
        }
        least = row.bale + 1;
        sums.lines += 1;
    }
    Ok(sums)
}

/// The lines and totals of a CSV and a shift, whose bales are numbered from 0.
pub fn tonnage(csv: &[u8], shift: &[u8]) -> Result<Weighed<u64>, Refusal> {
    let bales = bales(shift);
    summed(csv, |n| beliefs(bales.get(n)?), |grams, belief| whole_part(grams, belief.present))
}

/// The call: number 2 comes before all lines.
pub fn tonnage_by_grade(morning: &Morning) -> Result<Weighed<u64>, Refusal> {
    if morning.lent < GRADES { Err(Refusal { number: 2, place: 0 }) } else { tonnage(&morning.csv, &morning.shift) }
}

/// What the program `depot` prints.
pub fn listing(csv: &[u8], shift: &[u8]) -> String {
    let weighed = match tonnage(csv, shift) {
        Ok(weighed) => weighed,
        Err(refusal) => return refused(refusal),
    };
    let mut text = String::new();
    for (grade, grams) in weighed.totals.iter().enumerate().filter(|(_, grams)| **grams > 0) {
        writeln!(text, "{grade} {grams}").unwrap();
    }
    text
}

impl fmt::Display for Morning {
    fn fmt(&self, f: &mut fmt::Formatter) -> fmt::Result {
        writeln!(f, "csv: {}", self.csv.escape_ascii())?;
        let byte = |byte: &u8| format!("{byte:02x}");
        writeln!(f, "shift: {}", self.shift.iter().map(byte).collect::<String>())?;
        writeln!(f, "lent: {}", self.lent)
    }
}

//! What a run has seen: belts by outcome and size, matches, and belts searched for longer lists.

use oracle::belt::{Belt, Match};
use oracle::refusal::Refusal;
use std::collections::BTreeMap;
use std::fmt;

#[derive(Default)]
pub struct Totals {
    pub belts: u64,
    /// By the size of the longer list, up to so many reads.
    answered: BTreeMap<usize, u64>,
    refused: BTreeMap<u32, u64>,
    matches: u64,
    searched: u64,
}

fn size_of(belt: &Belt) -> usize {
    let count = belt.upper_count().max(belt.lower_count());
    [3, 64, 1022].into_iter().find(|&most| count <= most).unwrap_or(1024)
}

impl Totals {
    pub fn take(&mut self, belt: &Belt, outcome: &Result<Vec<Match>, Refusal>, searched: bool) {
        self.belts += 1;
        self.searched += u64::from(searched);
        match outcome {
            Err(refusal) => *self.refused.entry(refusal.number).or_default() += 1,
            Ok(list) => {
                *self.answered.entry(size_of(belt)).or_default() += 1;
                self.matches += list.len() as u64;
            }
        }
    }

    pub fn add(&mut self, other: &Totals) {
        self.belts += other.belts;
        self.searched += other.searched;
        self.matches += other.matches;
        other.answered.iter().for_each(|(size, count)| *self.answered.entry(*size).or_default() += count);
        other.refused.iter().for_each(|(number, count)| *self.refused.entry(*number).or_default() += count);
    }
}

impl fmt::Display for Totals {
    fn fmt(&self, f: &mut fmt::Formatter) -> fmt::Result {
        writeln!(f, "belts: {}", self.belts)?;
        for (size, count) in &self.answered {
            writeln!(f, "  answered, up to {size} reads a side: {count}")?;
        }
        for (number, count) in &self.refused {
            writeln!(f, "  refused, number {number}: {count}")?;
        }
        writeln!(f, "  matches: {}", self.matches)?;
        writeln!(f, "  searched for longer lists: {}", self.searched)
    }
}

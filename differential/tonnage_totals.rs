//! What a run has seen: mornings by outcome, lines and grams.

use oracle::refusal::Refusal;
use oracle::tonnage::Weighed;
use std::collections::BTreeMap;
use std::fmt;

#[derive(Default)]
pub struct Totals {
    pub mornings: u64,
    /// Of the program.
    pub runs: u64,
    /// By the number of lines, up to so many.
    answered: BTreeMap<u32, u64>,
    refused: BTreeMap<u32, u64>,
    lines: u64,
    grams: u64,
}

impl Totals {
    pub fn take(&mut self, outcome: &Result<Weighed<u64>, Refusal>) {
        self.mornings += 1;
        match outcome {
            Err(refusal) => *self.refused.entry(refusal.number).or_default() += 1,
            Ok(weighed) => {
                let size = [0, 10, 1000].into_iter().find(|&most| weighed.lines <= most).unwrap_or(10000);
                *self.answered.entry(size).or_default() += 1;
                self.lines += u64::from(weighed.lines);
                self.grams += weighed.totals.iter().sum::<u64>();
            }
        }
    }

    pub fn add(&mut self, other: &Totals) {
        self.mornings += other.mornings;
        self.runs += other.runs;
        self.lines += other.lines;
        self.grams += other.grams;
        other.answered.iter().for_each(|(size, count)| *self.answered.entry(*size).or_default() += count);
        other.refused.iter().for_each(|(number, count)| *self.refused.entry(*number).or_default() += count);
    }
}

impl fmt::Display for Totals {
    fn fmt(&self, f: &mut fmt::Formatter) -> fmt::Result {
        writeln!(f, "mornings: {}, {} of them by the program too", self.mornings, self.runs)?;
        for (size, count) in &self.answered {
            writeln!(f, "  answered, up to {size} lines: {count}")?;
        }
        for (number, count) in &self.refused {
            writeln!(f, "  refused, number {number}: {count}")?;
        }
        writeln!(f, "  lines weighed: {}, grams: {}", self.lines, self.grams)
    }
}

//! What a run has seen: requests by outcome and kind of graph, patterns run, and how the grades stood in them.

use crate::totals::kind_of_graph;
use oracle::limits::MOST_PATTERN_MARKERS;
use oracle::patterns::{Patterns, Standing};
use oracle::refusal::Refusal;
use std::collections::BTreeMap;
use std::fmt;

#[derive(Default)]
pub struct Totals {
    pub requests: u64,
    answered: BTreeMap<&'static str, u64>,
    refused: BTreeMap<u32, u64>,
    /// Answered, with as many markers as may be.
    of_most_markers: u64,
    patterns: u64,
    above: u64,
    not_above: u64,
    none: u64,
    half: u64,
    /// Grades above in one pattern and not in another.
    undecided: u64,
}

impl Totals {
    pub fn take(&mut self, request: &Patterns, outcome: &Result<Vec<Standing>, Refusal>) {
        self.requests += 1;
        match outcome {
            Err(refusal) => *self.refused.entry(refusal.number).or_default() += 1,
            Ok(standings) => self.take_answer(request, standings),
        }
    }

    fn take_answer(&mut self, request: &Patterns, standings: &[Standing]) {
        let markers = request.call.marker_count();
        *self.answered.entry(kind_of_graph(&request.call)).or_default() += 1;
        self.of_most_markers += u64::from(markers == MOST_PATTERN_MARKERS);
        self.patterns += 1 << markers;
        for grade in standings {
            self.above += u64::from(grade.above);
            self.not_above += u64::from(grade.not_above);
            self.none += u64::from(grade.none);
            self.half += u64::from(grade.half);
            self.undecided += u64::from(grade.above > 0 && grade.not_above > 0);
        }
    }

    pub fn add(&mut self, other: &Totals) {
        self.requests += other.requests;
        other.answered.iter().for_each(|(kind, count)| *self.answered.entry(kind).or_default() += count);
        other.refused.iter().for_each(|(number, count)| *self.refused.entry(*number).or_default() += count);
        self.of_most_markers += other.of_most_markers;
        self.patterns += other.patterns;
        self.above += other.above;
        self.not_above += other.not_above;
        self.none += other.none;
        self.half += other.half;
        self.undecided += other.undecided;
    }
}

impl fmt::Display for Totals {
    fn fmt(&self, f: &mut fmt::Formatter) -> fmt::Result {
        writeln!(f, "requests: {}", self.requests)?;
        for (kind, count) in &self.answered {
            writeln!(f, "  answered, {kind}: {count}")?;
        }
        for (number, count) in &self.refused {
            writeln!(f, "  refused, number {number}: {count}")?;
        }
        writeln!(f, "  answered with {MOST_PATTERN_MARKERS} markers: {}", self.of_most_markers)?;
        writeln!(f, "  patterns run: {}", self.patterns)?;
        let (above, not_above, none) = (self.above, self.not_above, self.none);
        writeln!(f, "  grades in them: {above} above, {not_above} not, {} of these exactly 1/2, {none} none", self.half)?;
        writeln!(f, "  grades above in one pattern and not in another: {}", self.undecided)
    }
}

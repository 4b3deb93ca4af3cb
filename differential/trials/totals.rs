//! What a run has seen: requests by outcome and kind of graph, bales run, and how often beliefs agreed with the draws.

use crate::totals::kind_of_graph;
use oracle::limits::{MOST_BALES, MOST_SETTINGS};
use oracle::refusal::Refusal;
use oracle::trials::{Agreement, Trials};
use std::collections::BTreeMap;
use std::fmt;

#[derive(Default)]
pub struct Totals {
    pub requests: u64,
    answered: BTreeMap<&'static str, u64>,
    refused: BTreeMap<u32, u64>,
    /// Answered, with nothing to run.
    idle: u64,
    /// Answered, with as many settings as may be, and with as many bales.
    of_most_settings: u64,
    of_most_bales: u64,
    bales: u64,
    agreed: u64,
    not_agreed: u64,
    half: u64,
}

impl Totals {
    pub fn take(&mut self, request: &Trials, outcome: &Result<Vec<Agreement>, Refusal>) {
        self.requests += 1;
        match outcome {
            Err(refusal) => *self.refused.entry(refusal.number).or_default() += 1,
            Ok(agreements) => self.take_answer(request, agreements),
        }
    }

    fn take_answer(&mut self, request: &Trials, agreements: &[Agreement]) {
        let bales = agreements.len() as u64 * u64::from(request.bales);
        *self.answered.entry(kind_of_graph(&request.call)).or_default() += 1;
        self.idle += u64::from(bales == 0);
        self.of_most_settings += u64::from(agreements.len() == MOST_SETTINGS);
        self.of_most_bales += u64::from(request.bales == MOST_BALES);
        self.bales += bales;
        for setting in agreements {
            self.agreed += u64::from(setting.agreed);
            self.not_agreed += u64::from(setting.not_agreed);
            self.half += u64::from(setting.half);
        }
    }

    pub fn add(&mut self, other: &Totals) {
        self.requests += other.requests;
        other.answered.iter().for_each(|(kind, count)| *self.answered.entry(kind).or_default() += count);
        other.refused.iter().for_each(|(number, count)| *self.refused.entry(*number).or_default() += count);
        self.idle += other.idle;
        self.of_most_settings += other.of_most_settings;
        self.of_most_bales += other.of_most_bales;
        self.bales += other.bales;
        self.agreed += other.agreed;
        self.not_agreed += other.not_agreed;
        self.half += other.half;
    }
}

impl fmt::Display for Totals {
    fn fmt(&self, f: &mut fmt::Formatter) -> fmt::Result {
        writeln!(f, "requests: {}", self.requests)?;
        for (kind, count) in &self.answered {
            writeln!(f, "  answered, {kind}: {count}")?;
        }
        for (number, count) in &self.refused {
            writeln!(f, "  refused, number {number}: {count}")?;
        }
        writeln!(f, "  answered with {MOST_SETTINGS} settings: {}", self.of_most_settings)?;
        writeln!(f, "  answered with {MOST_BALES} bales: {}", self.of_most_bales)?;
        writeln!(f, "  answered with no setting or no bale: {}", self.idle)?;
        writeln!(f, "  bales made up and run: {}", self.bales)?;
        let (agreed, not_agreed, half) = (self.agreed, self.not_agreed, self.half);
        writeln!(f, "  beliefs in them: {agreed} agreed with the draw, {not_agreed} did not; of both {half} are exactly 1/2")
    }
}

//! What a run has seen: calls by kind of graph, by refusal, parts by ending, and the bounds of the messages in force.

use oracle::call::{Bounds, Call, Ending, Outcome};
use std::collections::BTreeMap;
use std::fmt;

#[derive(Clone)]
pub struct Totals {
    pub calls: u64,
    graphs: BTreeMap<&'static str, u64>,
    refusals: BTreeMap<u32, u64>,
    endings: [u64; 3],
    steps: u64,
    events: u64,
    least: f32,
    largest: f32,
    outside: u64,
}

/// The shape of an accepted call's graph; a tree is a marker of at least two grades.
pub fn kind_of_graph(call: &Call) -> &'static str {
    let pairs: Vec<&[u32]> = call.pairs.chunks_exact(2).collect();
    let mut grades_of = vec![0; call.marker_count()];
    pairs.iter().for_each(|p| grades_of[p[1] as usize] += 1);
    let parts = oracle::alone::parts_of(call).len();
    let nodes = call.grades as usize + call.marker_count();
    let cycles = pairs.len() + parts > nodes;
    match (grades_of.into_iter().max().unwrap_or(0), cycles) {
        (0, _) => "no pair",
        (1, _) => "stars, no tree",
        (2..=64, false) => "no cycle, with trees",
        (2..=64, true) => "cycles, with trees",
        (_, false) => "no cycle, a tree of over 64 leaves",
        (_, true) => "cycles, a tree of over 64 leaves",
    }
}

impl Totals {
    pub fn new() -> Totals {
        Totals {
            calls: 0,
            graphs: BTreeMap::new(),
            refusals: BTreeMap::new(),
            endings: [0; 3],
            steps: 0,
            events: 0,
            least: f32::INFINITY,
            largest: f32::NEG_INFINITY,
            outside: 0,
        }
    }

    pub fn take(&mut self, call: &Call, outcome: &Outcome, bounds: Option<Bounds>) {
        self.calls += 1;
        match outcome {
            Outcome::Refused(refusal) => *self.refusals.entry(refusal.number).or_default() += 1,
            Outcome::Answered { endings, .. } => {
                *self.graphs.entry(kind_of_graph(call)).or_default() += 1;
                for part in endings {
                    self.endings[part.ending.number() as usize] += 1;
                    self.steps += u64::from(part.steps);
                }
            }
        }
        if let Some(bounds) = bounds {
            self.events += bounds.events;
            self.outside += bounds.outside;
            self.least = self.least.min(bounds.least);
            self.largest = self.largest.max(bounds.largest);
        }
    }

    pub fn add(&mut self, other: &Totals) {
        self.calls += other.calls;
        other.graphs.iter().for_each(|(kind, count)| *self.graphs.entry(kind).or_default() += count);
        other.refusals.iter().for_each(|(number, count)| *self.refusals.entry(*number).or_default() += count);
        (0..3).for_each(|i| self.endings[i] += other.endings[i]);
        self.steps += other.steps;
        self.events += other.events;
        self.outside += other.outside;
        self.least = self.least.min(other.least);
        self.largest = self.largest.max(other.largest);
    }
}

impl fmt::Display for Totals {
    fn fmt(&self, f: &mut fmt::Formatter) -> fmt::Result {
        writeln!(f, "calls: {}", self.calls)?;
        for (kind, count) in &self.graphs {
            writeln!(f, "  answered, {kind}: {count}")?;
        }
        for (number, count) in &self.refusals {
            writeln!(f, "  refused, number {number}: {count}")?;
        }
        let names = [Ending::Limit(0.0), Ending::Settled(0.0), Ending::Empty].map(|e| match e {
            Ending::Limit(_) => "limit",
            Ending::Settled(_) => "settled",
            Ending::Empty => "empty",
        });
        for (name, count) in names.iter().zip(self.endings) {
            writeln!(f, "  parts ended, {name}: {count}")?;
        }
        writeln!(f, "  scheduled steps: {}", self.steps)?;
        if self.events > 0 {
            let (least, largest) = (self.least, self.largest);
            writeln!(f, "  entries of messages in force, over {} events: least {least:e} ({:08X}), largest {largest:e} ({:08X}), {} outside c to 1", self.events, least.to_bits(), largest.to_bits(), self.outside)?;
        }
        Ok(())
    }
}

//! Two readers over one belt, by document 02. The reference: the unused lower
//! reads of each marker in an ordered set, where the library scans a list.

use std::collections::{BTreeSet, HashMap};
use std::fmt;

use crate::limits::MOST_READS;
use crate::refusal::Refusal;

#[derive(Clone, Debug, PartialEq, Eq)]
pub struct Belt {
    /// Tick, then marker, of each read; an odd last number is not read.
    pub upper: Vec<u32>,
    pub lower: Vec<u32>,
    pub window: u32,
    /// How many numbers the caller's buffer takes.
    pub lent: usize,
}

#[derive(Clone, Copy, Debug, PartialEq, Eq)]
pub struct Read {
    pub tick: u32,
    pub marker: u32,
}

/// The upper read's index, then the lower read's.
pub type Match = [u32; 2];

pub fn reads_of(numbers: &[u32]) -> Vec<Read> {
    numbers.chunks_exact(2).map(|read| Read { tick: read[0], marker: read[1] }).collect()
}

pub fn numbers_of(reads: &[Read]) -> Vec<u32> {
    reads.iter().flat_map(|read| [read.tick, read.marker]).collect()
}

impl Belt {
    /// With the least buffer that check 2 takes.
    pub fn new(upper: &[Read], lower: &[Read], window: u32) -> Belt {
        let mut belt = Belt { upper: numbers_of(upper), lower: numbers_of(lower), window, lent: 0 };
        belt.lent = belt.needed();
        belt
    }

    pub fn upper_count(&self) -> usize {
        self.upper.len() / 2
    }

    pub fn lower_count(&self) -> usize {
        self.lower.len() / 2
    }

    pub fn needed(&self) -> usize {
        2 * self.upper_count().min(self.lower_count())
    }
}

/// Reads as tick:marker, an odd last number alone, and a long run of one read
/// with how often it stands there.
fn words(numbers: &[u32]) -> String {
    let word = |read: &[u32]| read.iter().map(u32::to_string).collect::<Vec<_>>().join(":");
    let reads: Vec<String> = numbers.chunks(2).map(word).collect();
    let run = |run: &[String]| match run.len() {
        0..=3 => format!(" {}", run.join(" ")),
        times => format!(" {} ({times} times)", run[0]),
    };
    reads.chunk_by(|left, right| left == right).map(run).collect()
}

impl fmt::Display for Belt {
    fn fmt(&self, f: &mut fmt::Formatter) -> fmt::Result {
        writeln!(f, "upper{}", words(&self.upper))?;
        writeln!(f, "lower{}", words(&self.lower))?;
        writeln!(f, "window {}, lent {}", self.window, self.lent)
    }
}

fn first_fall(reads: &[Read]) -> Option<usize> {
    Some(1 + reads.windows(2).position(|two| two[1].tick < two[0].tick)?)
}

/// The first of the checks 1, 2 and 10 that the belt fails.
pub fn belt_refusal(belt: &Belt) -> Option<Refusal> {
    let refusal = |number, place: usize| Some(Refusal { number, place: place as u32 });
    if belt.upper_count().max(belt.lower_count()) > MOST_READS {
        return refusal(1, 0);
    }
    if belt.lent < belt.needed() {
        return refusal(2, 0);
    }
    let above = first_fall(&reads_of(&belt.upper));
    let below = || Some(belt.upper_count() + first_fall(&reads_of(&belt.lower))?);
    refusal(10, above.or_else(below)?)
}

/// As ticks never fall, of two unused reads the one that is first by tick and
/// index is the one of the lower index.
fn accepted_matches(upper: &[Read], lower: &[Read], window: u32) -> Vec<Match> {
    let mut unused: HashMap<u32, BTreeSet<(u32, u32)>> = HashMap::new();
    for (index, read) in lower.iter().enumerate() {
        unused.entry(read.marker).or_default().insert((read.tick, index as u32));
    }
    let mut matches = Vec::new();
    for (index, read) in upper.iter().enumerate() {
        let Some(left) = unused.get_mut(&read.marker) else {
            continue;
        };
        // A window that reaches past the ends of 32 bits meets no read there.
        let (from, to) = (read.tick.saturating_sub(window), read.tick.saturating_add(window));
        let found = left.range((from, 0)..=(to, u32::MAX)).next().copied();
        if let Some(found) = found {
            left.remove(&found);
            matches.push([index as u32, found.1]);
        }
    }
    matches
}

pub fn matches(belt: &Belt) -> Result<Vec<Match>, Refusal> {
    match belt_refusal(belt) {
        Some(refusal) => Err(refusal),
        None => Ok(accepted_matches(&reads_of(&belt.upper), &reads_of(&belt.lower), belt.window)),
    }
}

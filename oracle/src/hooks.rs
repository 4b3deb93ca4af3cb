//! What the patched Rust reports of a part's run: the bounds of the messages in
//! force after each event, if switched on, and how the loop ended.

use std::cell::Cell;

use crate::limits::LEAST_ENTRY;
use crate::messages::MessagesInNode;

/// The least and the largest entry of all messages in `msg_in`, over all events.
#[derive(Clone, Copy, Debug, PartialEq)]
pub struct Bounds {
    pub least: f32,
    pub largest: f32,
    pub events: u64,
    /// Entries outside c to 1; a NaN is one of them.
    pub outside: u64,
}

impl Bounds {
    const NONE: Bounds = Bounds { least: f32::INFINITY, largest: f32::NEG_INFINITY, events: 0, outside: 0 };

    fn take(&mut self, entries: &[f32]) {
        for &entry in entries {
            self.least = self.least.min(entry);
            self.largest = self.largest.max(entry);
            if !(LEAST_ENTRY..=1.0).contains(&entry) {
                self.outside += 1;
            }
        }
    }
}

/// How a part's loop ended, each with the last residual unless empty.
#[derive(Clone, Copy, Debug)]
pub enum Ending {
    Limit(f32),
    Settled(f32),
    Empty,
}

impl Ending {
    pub fn number(self) -> u32 {
        match self {
            Ending::Limit(_) => 0,
            Ending::Settled(_) => 1,
            Ending::Empty => 2,
        }
    }

    pub fn residual(self) -> f32 {
        match self {
            Ending::Limit(residual) | Ending::Settled(residual) => residual,
            Ending::Empty => 0.0,
        }
    }
}

thread_local! {
    static BOUNDS: Cell<Option<Bounds>> = const { Cell::new(None) };
    static ENDING: Cell<Option<(Ending, u32)>> = const { Cell::new(None) };
}

/// Switches the recording of bounds on, with nothing recorded yet.
pub fn record_bounds() {
    BOUNDS.set(Some(Bounds::NONE));
}

/// Switches it off and gives what was recorded.
pub fn recorded_bounds() -> Option<Bounds> {
    BOUNDS.take()
}

/// Called after the opening, after each sweep and after each scheduled step.
#[inline]
pub(crate) fn event(msg_in: &[MessagesInNode]) {
    if let Some(mut bounds) = BOUNDS.get() {
        bounds.events += 1;
        for messages in msg_in {
            bounds.take(messages.get_messages().as_flattened());
            if let Ok(entries) = messages.get_ct_message() {
                bounds.take(entries);
            }
        }
        BOUNDS.set(Some(bounds));
    }
}

/// Called where the loop has ended: the ending is the first of its tests, in
/// their order, that fails. k starts at 5.
pub(crate) fn end(k: u32, max_loops: u32, max_residual: f32, tolerance: f32, empty: bool) {
    let ending = if !(k < max_loops) {
        Ending::Limit(max_residual)
    } else if !(max_residual > tolerance) {
        Ending::Settled(max_residual)
    } else {
        assert!(empty, "the loop ended though all its tests hold");
        Ending::Empty
    };
    ENDING.set(Some((ending, k - 5)));
}

/// The ending and the scheduled steps of the run that has just ended.
pub(crate) fn ending() -> (Ending, u32) {
    ENDING.take().expect("a run was done")
}

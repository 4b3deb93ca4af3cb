//! The matching of reads by the library's C interface.

use crate::buffer::{Buffer, pointer_to};
use oracle::belt::{Belt, Match};
use oracle::refusal::Refusal;

/// What the call answers: a refusal's number and place, or 0 and how many matches were written.
#[repr(C)]
#[derive(Clone, Copy, Debug, PartialEq, Eq)]
pub struct Reply {
    pub refusal: u32,
    pub place: u32,
    pub matches: u32,
}

impl Reply {
    pub fn of(outcome: &Result<Vec<Match>, Refusal>) -> Reply {
        match outcome {
            Err(refusal) => Reply { refusal: refusal.number, place: refusal.place, matches: 0 },
            Ok(list) => Reply { refusal: 0, place: 0, matches: list.len() as u32 },
        }
    }
}

#[link(name = "pikaplatinum", kind = "static")]
unsafe extern "C" {
    fn pikaplatinum_match_reads(
        upper: *const u32,
        upper_len: usize,
        lower: *const u32,
        lower_len: usize,
        window: u32,
        matches: *mut u32,
        matches_len: usize,
    ) -> Reply;
}

pub fn match_reads(belt: &Belt, lent: &mut Buffer) -> Reply {
    let (upper, lower) = (&belt.upper, &belt.lower);
    unsafe {
        pikaplatinum_match_reads(
            pointer_to(upper),
            upper.len(),
            pointer_to(lower),
            lower.len(),
            belt.window,
            lent.pointer(),
            lent.len(),
        )
    }
}

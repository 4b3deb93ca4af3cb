//! Tonnage by its C interface.

use crate::buffer::{Buffer, pointer_to};
use oracle::refusal::Refusal;
use oracle::tonnage::{Morning, Weighed};

/// What the call answers: a refusal's number and place, or 0 and how many lines were weighed.
#[repr(C)]
#[derive(Clone, Copy, Debug, PartialEq, Eq)]
pub struct Reply {
    pub refusal: u32,
    pub place: u32,
    pub lines: u32,
}

impl Reply {
    pub fn of(outcome: &Result<Weighed<u64>, Refusal>) -> Reply {
        match outcome {
            Err(refusal) => Reply { refusal: refusal.number, place: refusal.place, lines: 0 },
            Ok(weighed) => Reply { refusal: 0, place: 0, lines: weighed.lines },
        }
    }
}

#[link(name = "tonnage", kind = "static")]
unsafe extern "C" {
    fn tonnage_by_grade(
        csv: *const u8,
        csv_length: usize,
        shift: *const u8,
        shift_length: usize,
        totals: *mut u64,
        totals_length: usize,
    ) -> Reply;
}

pub fn by_grade(morning: &Morning, lent: &mut Buffer<u64>) -> Reply {
    let (csv, shift) = (&morning.csv, &morning.shift);
    unsafe { tonnage_by_grade(pointer_to(csv), csv.len(), pointer_to(shift), shift.len(), lent.pointer(), lent.len()) }
}

//! The trials of settings on made-up bales by the library's C interface.

use crate::buffer::pointer_to;
use crate::reporting::Reporting;
use oracle::refusal::Refusal;
use oracle::trials::{Agreement, Trials};

/// What the call answers: a refusal's number and place, or 0 and how many settings were reported.
#[repr(C)]
#[derive(Clone, Copy, Debug, PartialEq, Eq)]
pub struct Reply {
    pub refusal: u32,
    pub place: u32,
    pub settings: u32,
}

impl Reply {
    pub fn of(outcome: &Result<Vec<Agreement>, Refusal>) -> Reply {
        match outcome {
            Err(refusal) => Reply { refusal: refusal.number, place: refusal.place, settings: 0 },
            Ok(agreements) => Reply { refusal: 0, place: 0, settings: agreements.len() as u32 },
        }
    }
}

#[link(name = "pikaplatinum", kind = "static")]
unsafe extern "C" {
    fn pikaplatinum_try_settings(
        settings: *const u32,
        settings_len: usize,
        seed: u32,
        bales: u32,
        regularised: bool,
        tolerance: f32,
        loop_limit: u32,
        grades: u32,
        evidence: *const f32,
        evidence_len: usize,
        pairs: *const u32,
        pairs_len: usize,
        work_floats: *mut f32,
        work_floats_len: usize,
        work_numbers: *mut u32,
        work_numbers_len: usize,
        report: *mut u32,
        report_len: usize,
    ) -> Reply;
}

pub fn try_settings(request: &Trials, lent: &mut Reporting) -> Reply {
    let (call, s) = (&request.call, &request.call.settings);
    unsafe {
        pikaplatinum_try_settings(
            pointer_to(&request.settings),
            request.settings.len(),
            request.seed,
            request.bales,
            s.regularised,
            s.tolerance,
            s.loop_limit,
            call.grades,
            pointer_to(&call.evidence),
            call.evidence.len(),
            pointer_to(&call.pairs),
            call.pairs.len(),
            lent.work_floats.pointer().cast(),
            lent.work_floats.len(),
            lent.work_numbers.pointer(),
            lent.work_numbers.len(),
            lent.report.pointer(),
            lent.report.len(),
        )
    }
}

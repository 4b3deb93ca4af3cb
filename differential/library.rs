//! The proved library by its C interface: one call on lent buffers that stand between canaries.

use crate::buffer::{Buffer, pointer_to};
use oracle::call::Call;

/// What the call answers: a refusal's number and place, or 0 and how many beliefs and endings were written.
#[repr(C)]
#[derive(Clone, Copy, Debug, PartialEq, Eq)]
pub struct Reply {
    pub refusal: u32,
    pub place: u32,
    pub beliefs: u32,
    pub endings: u32,
}

#[link(name = "pikaplatinum", kind = "static")]
unsafe extern "C" {
    fn pikaplatinum_calibrate_all_subgraphs(
        alpha: f32,
        beta: f32,
        prior: f32,
        regularised: bool,
        tolerance: f32,
        loop_limit: u32,
        grades: u32,
        evidence: *const f32,
        evidence_len: usize,
        pairs: *const u32,
        pairs_len: usize,
        work_floats: *mut f32,
        work_floats_len: usize,
        work_numbers: *mut u32,
        work_numbers_len: usize,
        belief_numbers: *mut u32,
        belief_numbers_len: usize,
        belief_floats: *mut f32,
        belief_floats_len: usize,
        ending_numbers: *mut u32,
        ending_numbers_len: usize,
        ending_floats: *mut f32,
        ending_floats_len: usize,
    ) -> Reply;
}

/// The six buffers of a call, as long as the call says.
pub struct Buffers {
    pub work_floats: Buffer,
    pub work_numbers: Buffer,
    pub belief_numbers: Buffer,
    pub belief_floats: Buffer,
    pub ending_numbers: Buffer,
    pub ending_floats: Buffer,
}

impl Buffers {
    pub fn lent(call: &Call) -> Buffers {
        Buffers {
            work_floats: Buffer::new(call.lent.work_floats),
            work_numbers: Buffer::new(call.lent.work_words),
            belief_numbers: Buffer::new(call.lent.belief_numbers),
            belief_floats: Buffer::new(call.lent.belief_floats),
            ending_numbers: Buffer::new(call.lent.ending_numbers),
            ending_floats: Buffer::new(call.lent.ending_floats),
        }
    }

    pub fn intact(&self) -> bool {
        let all = [
            &self.work_floats,
            &self.work_numbers,
            &self.belief_numbers,
            &self.belief_floats,
            &self.ending_numbers,
            &self.ending_floats,
        ];
        all.iter().all(|buffer| buffer.intact())
    }
}

pub fn calibrate(call: &Call, lent: &mut Buffers) -> Reply {
    let s = &call.settings;
    unsafe {
        pikaplatinum_calibrate_all_subgraphs(
            s.alpha,
            s.beta,
            s.prior,
            s.regularised,
            s.tolerance,
            s.loop_limit,
            call.grades,
            pointer_to(&call.evidence),
            call.evidence.len(),
            pointer_to(&call.pairs),
            call.pairs.len(),
            lent.work_floats.pointer().cast(),
            lent.work_floats.len(),
            lent.work_numbers.pointer(),
            lent.work_numbers.len(),
            lent.belief_numbers.pointer(),
            lent.belief_numbers.len(),
            lent.belief_floats.pointer().cast(),
            lent.belief_floats.len(),
            lent.ending_numbers.pointer(),
            lent.ending_numbers.len(),
            lent.ending_floats.pointer().cast(),
            lent.ending_floats.len(),
        )
    }
}

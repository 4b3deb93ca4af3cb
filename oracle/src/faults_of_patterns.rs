//! Faults put into an accepted request for all patterns, one kind for each of its
//! checks, and strange evidence, which is no fault here.

use crate::faults;
use crate::limits::{MOST_MARKERS, MOST_PATTERN_MARKERS};
use crate::patterns::Patterns;
use crate::random::Random;

/// In the order of the checks; 5 is there for what the plain call has of it.
pub const CHECKS: [u32; 9] = [18, 1, 2, 3, 4, 5, 6, 7, 8];

/// Puts in a fault that check `number` refuses, if the graph has room for one.
pub fn put_in(random: &mut Random, request: &mut Patterns, number: u32) {
    match number {
        18 => too_many_markers(random, request),
        2 => {
            let needed = request.report_needed();
            faults::too_little_reported(random, &mut request.call, &mut request.report, needed);
        }
        _ => faults::put_in(random, &mut request.call, number),
    }
    // Where the counts have changed, the buffers fit again or are short besides.
    let lendable = request.call.grades <= 4096;
    if number == 8 || matches!(number, 1 | 18) && lendable && random.once_in(2) {
        request.lend_needed();
    }
}

fn too_many_markers(random: &mut Random, request: &mut Patterns) {
    let markers = random.pick(&[MOST_PATTERN_MARKERS + 1, MOST_PATTERN_MARKERS + 1, 12, 128, MOST_MARKERS + 1]);
    let entry = random.pick(&[0.5, 0.5, f32::NAN]);
    request.call.evidence.resize(2 * markers + random.below(2), entry);
}

//! Faults put into an accepted request to try settings, one kind for each of its
//! checks, and strange evidence, which is no fault here.

use crate::faults;
use crate::limits::{MOST_BALES, MOST_SETTINGS};
use crate::random::Random;
use crate::trials::Trials;

/// In the order of the checks; 5 is there for what the plain call has of it.
pub const CHECKS: [u32; 10] = [16, 17, 1, 2, 3, 4, 5, 6, 7, 8];

/// Puts in a fault that check `number` refuses, if the graph has room for one.
pub fn put_in(random: &mut Random, request: &mut Trials, number: u32) {
    match number {
        16 => request.seed = 0,
        17 => too_many(random, request),
        2 => {
            let needed = request.report_needed();
            faults::too_little_reported(random, &mut request.call, &mut request.report, needed);
        }
        3 => bad_setting(random, request),
        _ => faults::put_in(random, &mut request.call, number),
    }
    // Where the counts have changed, the buffers fit again or are short besides.
    let lendable = request.call.grades <= 4096;
    if number == 8 || matches!(number, 1 | 17) && lendable && random.once_in(2) {
        request.lend_needed();
    }
}

fn too_many(random: &mut Random, request: &mut Trials) {
    if random.once_in(2) {
        request.bales = random.pick(&[MOST_BALES + 1, MOST_BALES + 1, 1024, 1 << 31, u32::MAX]);
    } else {
        let count = random.pick(&[MOST_SETTINGS + 1, MOST_SETTINGS + 1, 66, 128, 1000]);
        request.settings.resize(3 * count + random.below(3), random.pick(&[512, 512, 0]));
    }
}

/// One number outside 1 to 1,023, or two; some would be inside if cut to fewer bits.
fn bad_setting(random: &mut Random, request: &mut Trials) {
    if request.setting_count() == 0 {
        request.settings = vec![512; 3];
        request.report += 2;
    }
    let read = 3 * request.setting_count();
    for _ in 0..random.within(1, 2) {
        let any = random.below(read);
        let place = random.pick(&[any, any, 0, read - 1]);
        request.settings[place] =
            random.pick(&[0, 0, 1024, 1024, 1025, 2048, 1 << 16 | 512, 1 << 24 | 1, 1 << 31, u32::MAX, u32::MAX - 511]);
    }
}

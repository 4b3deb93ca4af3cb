//! Calls as a careless caller makes them: lengths one short, nothing lent, the largest counts, NaN and infinities in every float.

use oracle::call::Call;
use oracle::generate::accepted_call;
use oracle::random::Random;

const STRANGE: [f32; 8] = [f32::NAN, -f32::NAN, f32::INFINITY, f32::NEG_INFINITY, -0.0, f32::MIN_POSITIVE, f32::MAX, -1.0];

fn strange(random: &mut Random) -> f32 {
    match random.below(3) {
        0 => f32::from_bits(random.next() as u32),
        _ => random.pick(&STRANGE),
    }
}

fn change_length(random: &mut Random, len: &mut usize) {
    *len = match random.below(4) {
        0 => 0,
        1 => len.saturating_sub(1),
        2 => *len + 1,
        _ => len.saturating_sub(random.within(1, 40)),
    };
}

fn change(random: &mut Random, call: &mut Call) {
    match random.below(14) {
        0 => call.settings.alpha = strange(random),
        1 => call.settings.beta = strange(random),
        2 => call.settings.prior = strange(random),
        3 => call.settings.tolerance = strange(random),
        4 => call.settings.loop_limit = random.pick(&[0, 1, 5, 6, 20_000, 20_001, u32::MAX]),
        5 => call.grades = random.pick(&[0, 1, 1024, 1025, u32::MAX, u32::MAX / 2]),
        6 if !call.evidence.is_empty() => {
            let i = random.below(call.evidence.len());
            call.evidence[i] = strange(random);
        }
        7 if !call.pairs.is_empty() => {
            let i = random.below(call.pairs.len());
            call.pairs[i] = random.pick(&[0, 1, 1023, 1024, u32::MAX]);
        }
        8 => change_length(random, &mut call.lent.work_floats),
        9 => change_length(random, &mut call.lent.work_words),
        10 => change_length(random, &mut call.lent.belief_numbers),
        11 => change_length(random, &mut call.lent.belief_floats),
        12 => change_length(random, &mut call.lent.ending_numbers),
        13 => change_length(random, &mut call.lent.ending_floats),
        _ => call.evidence.truncate(call.evidence.len() / 2),
    }
}

pub fn hostile_call(random: &mut Random) -> Call {
    let mut call = accepted_call(random);
    for _ in 0..random.within(1, 3) {
        change(random, &mut call);
    }
    call
}

//! Faults put into an accepted belt, one kind for each of the checks 1, 2 and 10.

use crate::belt::Belt;
use crate::limits::MOST_READS;
use crate::random::Random;

/// Puts in a fault that check `number` refuses, if the belt has room for one.
pub fn put_in(random: &mut Random, belt: &mut Belt, number: u32) {
    match number {
        1 => too_many(random, belt),
        2 => too_little_lent(random, belt),
        10 => falling(random, belt),
        _ => panic!("no check {number}"),
    }
}

/// In the upper list, in the lower one, or in both.
fn in_lists(random: &mut Random, belt: &mut Belt, mut fault: impl FnMut(&mut Random, &mut Vec<u32>)) {
    let which = random.below(3);
    if which != 1 {
        fault(random, &mut belt.upper);
    }
    if which != 0 {
        fault(random, &mut belt.lower);
    }
}

/// Read upon read of the last tick, which falls nowhere.
fn too_many(random: &mut Random, belt: &mut Belt) {
    let count = random.pick(&[MOST_READS + 1, MOST_READS + 1, 2 * MOST_READS]);
    in_lists(random, belt, |_, numbers| {
        numbers.truncate(numbers.len() / 2 * 2);
        let last = numbers.last_chunk().copied().unwrap_or([0, 0]);
        numbers.extend(last.repeat(count.saturating_sub(numbers.len() / 2)));
    });
    if random.once_in(2) {
        belt.lent = belt.needed();
    }
}

fn too_little_lent(random: &mut Random, belt: &mut Belt) {
    let needed = belt.needed();
    if needed > 0 {
        belt.lent = random.pick(&[needed - 1, needed - 1, needed / 2, 1, 0]);
    }
}

/// One tick is put below the one before it.
fn falling(random: &mut Random, belt: &mut Belt) {
    in_lists(random, belt, |random, numbers| {
        if numbers.len() < 4 {
            return;
        }
        let last = numbers.len() / 2 - 1;
        let any = random.within(1, last);
        let read = random.pick(&[1, last, any]);
        let before = numbers[2 * read - 2].max(1);
        numbers[2 * read - 2] = before;
        numbers[2 * read] = random.pick(&[before - 1, before - 1, before / 2, 0]);
    });
}

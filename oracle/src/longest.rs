//! How long the longest list of matches is, whatever the rule. Two searches,
//! neither of which needs ticks in order.

use crate::belt::Read;

pub fn may_match(upper: Read, lower: Read, window: u32) -> bool {
    upper.marker == lower.marker && upper.tick.abs_diff(lower.tick) <= window
}

/// For each upper read the lower reads that it may have.
fn allowed(upper: &[Read], lower: &[Read], window: u32) -> Vec<Vec<usize>> {
    let of = |&read: &Read| (0..lower.len()).filter(|&j| may_match(read, lower[j], window)).collect();
    upper.iter().map(of).collect()
}

/// Finds upper read `i` a lower read, where need be by finding another one for
/// the read that has it.
fn augment(i: usize, allowed: &[Vec<usize>], holder: &mut [Option<usize>], seen: &mut [bool]) -> bool {
    for &j in &allowed[i] {
        if std::mem::replace(&mut seen[j], true) {
            continue;
        }
        if holder[j].is_none_or(|other| augment(other, allowed, holder, seen)) {
            holder[j] = Some(i);
            return true;
        }
    }
    false
}

/// By augmenting paths.
pub fn longest(upper: &[Read], lower: &[Read], window: u32) -> usize {
    let allowed = allowed(upper, lower, window);
    let mut holder = vec![None; lower.len()];
    let mut found = |i: &usize| augment(*i, &allowed, &mut holder, &mut vec![false; lower.len()]);
    (0..upper.len()).filter(|i| found(i)).count()
}

/// By trying all lists; for a few reads only.
pub fn longest_of_all(upper: &[Read], lower: &[Read], window: u32) -> usize {
    let Some((&first, rest)) = upper.split_first() else {
        return 0;
    };
    let without = longest_of_all(rest, lower, window);
    let with = (0..lower.len()).filter(|&j| may_match(first, lower[j], window)).map(|j| {
        let left = [&lower[..j], &lower[j + 1..]].concat();
        1 + longest_of_all(rest, &left, window)
    });
    with.fold(without, usize::max)
}

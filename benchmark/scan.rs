//! The library's scan, written as one would in plain Rust: what the proved call's time is measured against.

use oracle::limits::MOST_READS;

fn first_fall(reads: &[u32]) -> Option<usize> {
    let count = reads.len() / 2;
    (1..count).find(|&i| reads[2 * i] < reads[2 * i - 2])
}

/// The first check that fails, as its number and place.
fn refusal(upper: &[u32], lower: &[u32], size: usize) -> Option<(u32, u32)> {
    let (uppers, lowers) = (upper.len() / 2, lower.len() / 2);
    if uppers.max(lowers) > MOST_READS {
        return Some((1, 0));
    }
    if size < 2 * uppers.min(lowers) {
        return Some((2, 0));
    }
    let place = first_fall(upper).or_else(|| Some(uppers + first_fall(lower)?))?;
    Some((10, place as u32))
}

fn is_long_before(s: u32, t: u32, window: u32) -> bool {
    u64::from(s) + u64::from(window) < u64::from(t)
}

/// How many matches were written; or the refusal's number and place.
pub fn scan(upper: &[u32], lower: &[u32], window: u32, matches: &mut [u32]) -> Result<u32, (u32, u32)> {
    if let Some(refusal) = refusal(upper, lower, matches.len()) {
        return Err(refusal);
    }
    let lowers = lower.len() / 2;
    let mut used = [false; MOST_READS];
    let (mut first, mut count) = (0, 0);
    for i in 0..upper.len() / 2 {
        let (tick, marker) = (upper[2 * i], upper[2 * i + 1]);
        while first < lowers && (used[first] || is_long_before(lower[2 * first], tick, window)) {
            first += 1;
        }
        for j in first..lowers {
            if is_long_before(tick, lower[2 * j], window) {
                break;
            }
            if lower[2 * j + 1] == marker && !used[j] {
                used[j] = true;
                matches[2 * count] = i as u32;
                matches[2 * count + 1] = j as u32;
                count += 1;
                break;
            }
        }
    }
    Ok(count as u32)
}

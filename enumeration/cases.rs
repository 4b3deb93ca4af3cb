//! The trees that are tried.

use crate::random::Random;

/// What a tree is built of, or what it sends: the factor's message, then its grades', each absent and present.
pub type Messages = Vec<Vec<f32>>;

pub const FACTOR: usize = 0;

/// c: no message has an entry below it.
const LEAST: f32 = 1e-30;

pub fn tree_of(factor: &[f32], grades: &[[f32; 2]]) -> Messages {
    let grades = grades.iter().map(|grade| grade.to_vec());
    std::iter::once(factor.to_vec()).chain(grades).collect()
}

pub const MOST_LEAVES: usize = 12;

/// Small trees, two of them padded, in whose every message each mistake shows.
pub fn fixed() -> [Messages; 3] {
    let grades = [[0.5, 0.4], [0.75, 0.25], [0.9, 0.3], [0.2, 0.1], [0.6, 1.0]];
    let factor = [0.9, 0.2, 0.7, 0.1, 0.4, 0.8];
    [2, 3, 5].map(|n| tree_of(&factor[..=n], &grades[..n]))
}

fn unit(random: &mut Random) -> f32 {
    (random.next() >> 40) as f32 / 16777216.0
}

/// Uniform; log-uniform; all or nearly all at the ends; at the ends or next to them.
const ENTRIES: [fn(&mut Random) -> f32; 5] = [
    |random| unit(random).max(LEAST),
    |random| random.float_within(LEAST, 1.0),
    |random| random.pick(&[LEAST, 1.0]),
    |random| match random.below(8) {
        0 => random.float_within(LEAST, 1.0),
        _ => random.pick(&[LEAST, 1.0]),
    },
    |random| random.pick(&[LEAST, LEAST.next_up(), 1f32.next_down(), 1.0]),
];

fn two_ends(n: usize) -> Vec<f32> {
    let entry = |k| if k % n == 0 { 1.0 } else { LEAST };
    (0..=n).map(entry).collect()
}

/// The two ends, one peak, falling, rising, flat, or each entry drawn.
fn factor(random: &mut Random, n: usize) -> Vec<f32> {
    let (draw, peak) = (random.pick(&ENTRIES), random.below(n + 1));
    let (flat, step) = (draw(random), unit(random) / n as f32);
    let kind = random.below(7);
    let entry = |k| match kind {
        0 => two_ends(n)[k],
        1 if k == peak => flat,
        1 => LEAST,
        2 => LEAST.powf(step * k as f32).max(LEAST),
        3 => LEAST.powf(step * (n - k) as f32).max(LEAST),
        4 => flat,
        _ => draw(random),
    };
    (0..=n).map(entry).collect()
}

/// Of many leaves near [1/2, 1/2], the one whose quotient suffers most from its two divisions, which then round in opposite directions.
fn opposed(random: &mut Random) -> [f32; 2] {
    let error = |[absent, present]: &[f32; 2]| {
        let [a, p] = [absent, present].map(|x| f64::from(x / (absent + present)));
        (a / p * (f64::from(*present) / f64::from(*absent)) - 1.0).abs()
    };
    let leaves = (0..256).map(|_| {
        let absent = random.float_within(0.5, 0.9);
        let nearby = absent.to_bits() + random.below(32) as u32 - 16;
        [absent, f32::from_bits(nearby)]
    });
    let worst = leaves.max_by(|x, y| error(x).total_cmp(&error(y)));
    worst.expect("there are leaves")
}

/// Most are small: each more leaf takes more than twice as long to enumerate.
pub fn tree(random: &mut Random) -> Messages {
    let most = random.pick(&[6, 6, 6, MOST_LEAVES]);
    let n = random.within(2, most);
    let draw = random.pick(&ENTRIES);
    let mut grades = vec![[draw(random), draw(random)]; n];
    match random.below(6) {
        // the errors of leaves that are all alike add up
        0 => return tree_of(&two_ends(n), &vec![opposed(random); n]),
        1 => {}
        _ => grades.fill_with(|| [draw(random), draw(random)]),
    }
    tree_of(&factor(random, n), &grades)
}

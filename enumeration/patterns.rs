//! The exact message that a tree is to send, but for its divisor: sums over all patterns of present grades, in whole numbers.

use crate::cases::{FACTOR, Messages};
use crate::whole::Whole;

/// A sum gone wrong, which the comparison must tell from the right one.
#[derive(Clone, Copy, PartialEq)]
pub enum Mistake {
    OwnMessageLeftIn,
    CountOneOff,
    PatternLeftOut,
}

pub const MISTAKES: [(Mistake, &str); 3] = [
    (Mistake::OwnMessageLeftIn, "own message left in"),
    (Mistake::CountOneOff, "count one off"),
    (Mistake::PatternLeftOut, "a pattern left out"),
];

/// For every pattern, bit i for grade i, the product of its grades' entries.
fn products(grades: &[Vec<Whole>]) -> Vec<Whole> {
    let mut products = vec![Whole::power_of_two(0)];
    for grade in grades {
        let with = |entry| products.iter().map(move |product| product.times(entry));
        products = grade.iter().flat_map(with).collect();
    }
    products
}

/// For each entry sent to a receiver, the sum over its patterns of the products of all messages but the receiver's own.
pub fn sums(tree: &Messages, to: usize, mistake: Option<Mistake>) -> Vec<Whole> {
    let units = |message: &Vec<f32>| message.iter().map(|&x| Whole::units(x)).collect();
    let mut messages: Vec<Vec<Whole>> = tree.iter().map(units).collect();
    if mistake != Some(Mistake::OwnMessageLeftIn) {
        messages[to].fill(Whole::power_of_two(0));
    }
    let (factor, grades) = (&messages[FACTOR], &messages[FACTOR + 1..]);
    let mut sums = vec![Whole::new(vec![]); tree[to].len()];
    for (pattern, product) in products(grades).iter().enumerate() {
        let off = usize::from(mistake == Some(Mistake::CountOneOff));
        let present = (pattern.count_ones() as usize + off) % factor.len();
        let entry = match to {
            FACTOR => present,
            _ => pattern >> (to - 1) & 1,
        };
        if pattern > 0 || mistake != Some(Mistake::PatternLeftOut) {
            sums[entry] = sums[entry].plus(&product.times(&factor[present]));
        }
    }
    sums
}

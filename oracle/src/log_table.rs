//! LOG_TABLE by document 01's rule: entry i is L / 2^24, L the whole part of
//! 2^25 × the sum over k = 0 to 6 of z^(2k+1)/(2k+1), z = i/(2048+i).
//!
//! Over the common denominator 45045 × (2048+i)^13 all is whole; that passes
//! 128 bits, so a small whole number of fixed length stands here. The table is
//! computed while compiling, as the Rust's own build script does.

pub const LOG_TABLE_BITS: u32 = 10;
pub const ENTRIES: usize = (1 << LOG_TABLE_BITS) + 1;

pub static LOG_TABLE: [f32; ENTRIES] = table();

/// Least limb first; 224 bits hold every product below.
const LIMBS: usize = 7;
type Whole = [u32; LIMBS];

/// The least common multiple of 1, 3, 5, 7, 9, 11 and 13.
const MULTIPLE: u32 = 45045;

const fn small(value: u32) -> Whole {
    let mut whole = [0; LIMBS];
    whole[0] = value;
    whole
}

const fn times(whole: Whole, factor: u32) -> Whole {
    let mut product = [0; LIMBS];
    let mut carry = 0u64;
    let mut i = 0;
    while i < LIMBS {
        carry += whole[i] as u64 * factor as u64;
        product[i] = carry as u32;
        carry >>= 32;
        i += 1;
    }
    assert!(carry == 0);
    product
}

const fn plus(left: Whole, right: Whole) -> Whole {
    let mut sum = [0; LIMBS];
    let mut carry = 0u64;
    let mut i = 0;
    while i < LIMBS {
        carry += left[i] as u64 + right[i] as u64;
        sum[i] = carry as u32;
        carry >>= 32;
        i += 1;
    }
    assert!(carry == 0);
    sum
}

const fn at_most(left: Whole, right: Whole) -> bool {
    let mut i = LIMBS;
    while i > 0 {
        i -= 1;
        if left[i] != right[i] {
            return left[i] < right[i];
        }
    }
    true
}

/// The whole part of numerator / denominator, known to be below 2^24.
const fn quotient(numerator: Whole, denominator: Whole) -> u32 {
    let mut found = 0;
    let mut bit = 1 << 24;
    while bit > 1 {
        bit >>= 1;
        if at_most(times(denominator, found + bit), numerator) {
            found += bit;
        }
    }
    found
}

/// L of entry i, by Horner's rule in (i/q)^2 with the denominators cleared.
pub const fn entry(i: u32) -> u32 {
    let q = 2048 + i;
    let mut sum = small(MULTIPLE / 13);
    let mut power = small(1);
    let mut k = 6;
    while k > 0 {
        k -= 1;
        power = times(power, q * q);
        sum = plus(times(sum, i * i), times(power, MULTIPLE / (2 * k + 1)));
    }
    let numerator = times(times(sum, i), 1 << 25);
    let denominator = times(times(power, q), MULTIPLE);
    quotient(numerator, denominator)
}

#[allow(long_running_const_eval)]
const fn table() -> [f32; ENTRIES] {
    let mut entries = [0.0; ENTRIES];
    let mut i = 0;
    while i < ENTRIES {
        entries[i] = entry(i as u32) as f32 / 16_777_216.0;
        i += 1;
    }
    entries
}

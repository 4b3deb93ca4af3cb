//! Document 01's stand-ins for the float functions, and the clamp of a
//! factor's message.

use crate::array_utils::ln_from_table;
use crate::limits::LEAST_ENTRY;

const LOG2_E: f32 = f32::from_bits(0x3FB8_AA3B);
const LN_2: f32 = f32::from_bits(0x3F31_7218);

/// exp(y) for y at most 0. The whole part is taken of the rounded product.
pub fn exp(y: f32) -> f32 {
    if y < -87.0 {
        return 0.0;
    }
    let n = (-y * LOG2_E) as u32;
    let r = y + n as f32 * LN_2;
    let mut h = 1.0;
    for j in (1..=7).rev() {
        h = 1.0 + (r * h) / j as f32;
    }
    // 2^-n, n at most 125, by its exponent bits.
    h * f32::from_bits((127 - n) << 23)
}

/// Square and multiply; the product so far is carried along.
pub fn powi(product: f32, base: f32, exponent: u32) -> f32 {
    if exponent == 0 {
        return product;
    }
    let next = if exponent & 1 == 1 { product * base } else { product };
    powi(next, base * base, exponent >> 1)
}

/// The names that the patched Rust calls in place of the float's own.
pub trait FloatStandIns {
    fn table_ln(self) -> f32;
    fn series_exp(self) -> f32;
    fn halving_powi(self, exponent: i32) -> f32;
}

impl FloatStandIns for f32 {
    #[inline(always)]
    fn table_ln(self) -> f32 {
        ln_from_table(self)
    }

    #[inline]
    fn series_exp(self) -> f32 {
        exp(self)
    }

    fn halving_powi(self, exponent: i32) -> f32 {
        powi(1.0, self, exponent as u32)
    }
}

/// An entry above 1 as 1, one below c as c.
#[inline]
fn clamp(entry: f32) -> f32 {
    if entry > 1.0 {
        1.0
    } else if entry < LEAST_ENTRY {
        LEAST_ENTRY
    } else {
        entry
    }
}

#[inline]
pub fn clamped_pair(message: [f32; 2]) -> [f32; 2] {
    [clamp(message[0]), clamp(message[1])]
}

#[inline]
pub fn clamped(mut message: Vec<f32>) -> Vec<f32> {
    for entry in message.iter_mut() {
        *entry = clamp(*entry);
    }
    message
}

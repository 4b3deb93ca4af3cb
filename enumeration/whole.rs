//! Whole numbers of any size, which never round.

/// Limbs, the least first, the last not zero.
#[derive(Clone, PartialEq)]
pub struct Whole(Vec<u64>);

impl Whole {
    pub fn new(mut limbs: Vec<u64>) -> Whole {
        while limbs.last() == Some(&0) {
            limbs.pop();
        }
        Whole(limbs)
    }

    pub fn power_of_two(exponent: usize) -> Whole {
        let mut limbs = vec![0; exponent / 64];
        limbs.push(1 << (exponent % 64));
        Whole(limbs)
    }

    /// A float that is 0 or above, times 2^149, which is whole. Of a NaN or a negative float it makes more than of any entry.
    pub fn units(x: f32) -> Whole {
        let (exponent, fraction) = (x.to_bits() >> 23, x.to_bits() & 0x7F_FFFF);
        let leading = if exponent > 0 { 1 << 23 } else { 0 };
        let mantissa = Whole::new(vec![u64::from(leading | fraction)]);
        mantissa.times(&Whole::power_of_two(exponent.max(1) as usize - 1))
    }

    pub fn plus(&self, other: &Whole) -> Whole {
        let mut carry = 0;
        let limbs = (0..=self.0.len().max(other.0.len())).map(|i| {
            carry = u128::from(self.limb(i)) + u128::from(other.limb(i)) + (carry >> 64);
            carry as u64
        });
        Whole::new(limbs.collect())
    }

    /// The larger less the smaller.
    pub fn difference(&self, other: &Whole) -> Whole {
        if other.is_above(self) {
            return other.difference(self);
        }
        let mut borrow = 0;
        let limbs = (0..self.0.len()).map(|i| {
            borrow = i128::from(self.limb(i)) - i128::from(other.limb(i)) + (borrow >> 64);
            borrow as u64
        });
        Whole::new(limbs.collect())
    }

    pub fn times(&self, other: &Whole) -> Whole {
        let mut limbs = vec![0; self.0.len() + other.0.len()];
        for (i, &by) in other.0.iter().enumerate() {
            let mut carry = 0;
            for (limb, &own) in limbs[i..].iter_mut().zip(&self.0) {
                carry = u128::from(own) * u128::from(by) + u128::from(*limb) + (carry >> 64);
                *limb = carry as u64;
            }
            limbs[i + self.0.len()] = (carry >> 64) as u64;
        }
        Whole::new(limbs)
    }

    pub fn is_above(&self, other: &Whole) -> bool {
        let (own, others) = (self.0.len(), other.0.len());
        own > others || own == others && self.0.iter().rev().gt(other.0.iter().rev())
    }

    /// Near enough to be printed.
    pub fn log2(&self) -> f64 {
        let leading = self.0.iter().rev().take(2);
        let value = leading.fold(0.0, |value, &limb| value * 2f64.powi(64) + limb as f64);
        value.log2() + 64.0 * self.0.len().saturating_sub(2) as f64
    }

    fn limb(&self, i: usize) -> u64 {
        self.0.get(i).copied().unwrap_or(0)
    }
}

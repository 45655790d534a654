//! Whole numbers below 2^512, for exact sums.

use std::cmp::Ordering;
use std::ops::Add;

const LIMBS: usize = 8;

/// A whole number; the lowest 64 bits come first. A result that does not fit ends the program.
#[derive(Clone, Copy, Debug, PartialEq, Eq, Default)]
pub struct Wide([u64; LIMBS]);

impl Wide {
    /// The number itself times a small one.
    pub fn times(self, factor: u64) -> Wide {
        let mut product = Wide::default();
        let mut carry = 0u128;
        for (limb, &own) in product.0.iter_mut().zip(&self.0) {
            let sum = u128::from(own) * u128::from(factor) + carry;
            *limb = sum as u64;
            carry = sum >> 64;
        }
        assert!(carry == 0, "a product passes 512 bits");
        product
    }

    /// The number itself times a power of a small one.
    pub fn times_power(self, factor: u64, exponent: usize) -> Wide {
        (0..exponent).fold(self, |product, _| product.times(factor))
    }
}

impl From<u64> for Wide {
    fn from(small: u64) -> Wide {
        let mut wide = Wide::default();
        wide.0[0] = small;
        wide
    }
}

impl Add for Wide {
    type Output = Wide;

    fn add(self, other: Wide) -> Wide {
        let mut sum = Wide::default();
        let mut carry = false;
        for i in 0..LIMBS {
            let (part, first) = self.0[i].overflowing_add(other.0[i]);
            let (whole, second) = part.overflowing_add(u64::from(carry));
            sum.0[i] = whole;
            carry = first || second;
        }
        assert!(!carry, "a sum passes 512 bits");
        sum
    }
}

impl Ord for Wide {
    fn cmp(&self, other: &Wide) -> Ordering {
        self.0.iter().rev().cmp(other.0.iter().rev())
    }
}

impl PartialOrd for Wide {
    fn partial_cmp(&self, other: &Wide) -> Option<Ordering> {
        Some(self.cmp(other))
    }
}

#[cfg(test)]
mod tests {
    use super::Wide;

    #[test]
    fn carries_pass_through_every_limb() {
        let mut nearly = Wide::default();
        nearly.0[..7].fill(u64::MAX);
        let mut next = Wide::default();
        next.0[7] = 1;
        assert_eq!(nearly + Wide::from(1), next);
        assert!(nearly < next);
    }

    #[test]
    fn products_agree_with_repeated_sums() {
        let base = Wide::from(u64::MAX).times(u64::MAX);
        let five = (0..5).fold(Wide::default(), |sum, _| sum + base);
        assert_eq!(base.times(5), five);
        assert_eq!(Wide::from(1).times_power(10, 18), Wide::from(crate::WHOLE));
    }

    #[test]
    #[should_panic(expected = "a product passes 512 bits")]
    fn a_product_that_does_not_fit_ends() {
        Wide::from(1).times_power(1 << 63, 9);
    }
}

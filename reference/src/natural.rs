//! Natural numbers of any size.

use std::cmp::Ordering;

const LIMB_BITS: usize = 64;

/// A natural number as 64-bit limbs, lowest first, without high limbs of 0.
#[derive(Clone, Debug, Default, PartialEq, Eq)]
pub struct Natural {
    limbs: Vec<u64>,
}

impl From<u64> for Natural {
    fn from(value: u64) -> Natural {
        Natural::trimmed(vec![value])
    }
}

impl Natural {
    fn trimmed(mut limbs: Vec<u64>) -> Natural {
        while limbs.last() == Some(&0) {
            limbs.pop();
        }
        Natural { limbs }
    }

    fn limb(&self, at: usize) -> u64 {
        self.limbs.get(at).copied().unwrap_or(0)
    }

    pub fn plus(&self, other: &Natural) -> Natural {
        let length = self.limbs.len().max(other.limbs.len());
        let mut limbs = Vec::with_capacity(length + 1);
        let mut carry = 0;
        for at in 0..length {
            let sum = u128::from(self.limb(at)) + u128::from(other.limb(at)) + carry;
            limbs.push(sum as u64);
            carry = sum >> LIMB_BITS;
        }
        limbs.push(carry as u64);
        Natural::trimmed(limbs)
    }

    /// The difference of the two numbers, whichever is the greater.
    pub fn difference(&self, other: &Natural) -> Natural {
        let (greater, lesser) = if self >= other {
            (self, other)
        } else {
            (other, self)
        };
        let mut limbs = Vec::with_capacity(greater.limbs.len());
        let mut borrow = false;
        for (at, &limb) in greater.limbs.iter().enumerate() {
            let (limb, first) = limb.overflowing_sub(lesser.limb(at));
            let (limb, second) = limb.overflowing_sub(u64::from(borrow));
            limbs.push(limb);
            borrow = first || second;
        }
        Natural::trimmed(limbs)
    }

    pub fn times(&self, factor: u64) -> Natural {
        let mut limbs = Vec::with_capacity(self.limbs.len() + 1);
        let mut carry = 0;
        for &limb in &self.limbs {
            let product = u128::from(limb) * u128::from(factor) + carry;
            limbs.push(product as u64);
            carry = product >> LIMB_BITS;
        }
        limbs.push(carry as u64);
        Natural::trimmed(limbs)
    }

    /// How often the divisor, which is not 0, goes into the number; less than 2^64 times.
    pub fn quotient(&self, divisor: &Natural) -> u64 {
        let more_bits = self.bits().saturating_sub(divisor.bits());
        let mut quotient = 0;
        for bit in (0..=more_bits.min(LIMB_BITS - 1)).rev() {
            let larger = quotient | 1 << bit;
            if divisor.times(larger) <= *self {
                quotient = larger;
            }
        }
        quotient
    }

    /// How many bits the number has, without high bits of 0.
    fn bits(&self) -> usize {
        let highest = self.limbs.last();
        let unused = highest.map_or(0, |limb| limb.leading_zeros() as usize);
        LIMB_BITS * self.limbs.len() - unused
    }
}

impl Ord for Natural {
    fn cmp(&self, other: &Natural) -> Ordering {
        let by_length = self.limbs.len().cmp(&other.limbs.len());
        by_length.then_with(|| self.limbs.iter().rev().cmp(other.limbs.iter().rev()))
    }
}

impl PartialOrd for Natural {
    fn partial_cmp(&self, other: &Natural) -> Option<Ordering> {
        Some(self.cmp(other))
    }
}

#[cfg(test)]
mod tests {
    use super::*;

    fn natural(value: u128) -> Natural {
        let high = Natural::from((value >> 64) as u64);
        let low = Natural::from(value as u64);
        high.times(1 << 32).times(1 << 32).plus(&low)
    }

    const SAMPLES: [u128; 9] = [
        0,
        1,
        7,
        u64::MAX as u128,
        1 << 64,
        (1 << 64) + 1,
        u64::MAX as u128 * 5,
        (1 << 100) - 1,
        1 << 100,
    ];

    #[test]
    fn agrees_with_128_bits() {
        for a in SAMPLES {
            for b in SAMPLES {
                let (x, y) = (natural(a), natural(b));
                assert_eq!(x.plus(&y), natural(a + b));
                assert_eq!(x.difference(&y), natural(a.max(b) - a.min(b)));
                assert_eq!(x.cmp(&y), a.cmp(&b));
            }
            assert_eq!(natural(a).times(1 << 20), natural(a << 20));
            assert_eq!(natural(a).times(1_000_003), natural(a * 1_000_003));
        }
    }

    #[test]
    fn quotients_are_rounded_down() {
        for divisor in [1, 7, u64::MAX as u128, 1 << 64, (1 << 100) - 1] {
            for number in SAMPLES {
                if let Ok(quotient) = u64::try_from(number / divisor) {
                    assert_eq!(natural(number).quotient(&natural(divisor)), quotient);
                }
            }
        }
    }

    #[test]
    fn far_beyond_128_bits() {
        let one = Natural::from(1);
        let power = (0..1_000).fold(one.clone(), |power, _| power.times(1_000));
        let below = power.difference(&one);
        assert!(below < power);
        assert_eq!(below.plus(&one), power);
        assert_eq!(power.quotient(&power), 1);
        assert_eq!(below.quotient(&power), 0);
        assert_eq!(power.times(1_650_000).quotient(&power), 1_650_000);
        let just_below = power.times(1_650_000).difference(&one);
        assert_eq!(just_below.quotient(&power), 1_649_999);
        assert_eq!(below.times(7).plus(&Natural::from(7)), power.times(7));
    }

    #[test]
    fn zero_has_no_limbs() {
        assert_eq!(Natural::from(0), Natural::default());
        assert_eq!(Natural::from(5).times(0), Natural::default());
        let five = Natural::from(5);
        assert_eq!(five.difference(&five), Natural::default());
    }
}

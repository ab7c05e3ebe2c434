//! Unsigned whole numbers of any size: as much arithmetic as the series and the exact changes need.

use std::cmp::Ordering;

/// A whole number from 0 on. Limbs run from the lowest to the highest, and the highest is never 0,
/// so that equal numbers have equal limbs.
#[derive(Clone, Debug, PartialEq, Eq)]
pub struct Natural {
    limbs: Vec<u64>,
}

impl Natural {
    fn trimmed(mut limbs: Vec<u64>) -> Natural {
        while limbs.last() == Some(&0) {
            limbs.pop();
        }
        Natural { limbs }
    }

    pub fn is_nil(&self) -> bool {
        self.limbs.is_empty()
    }

    pub fn plus(&self, other: &Natural) -> Natural {
        let (long, short) = if self.limbs.len() >= other.limbs.len() { (self, other) } else { (other, self) };
        let mut limbs = Vec::with_capacity(long.limbs.len() + 1);
        let mut carry = 0u128;
        for (index, limb) in long.limbs.iter().enumerate() {
            let sum = u128::from(*limb) + u128::from(short.limbs.get(index).copied().unwrap_or(0)) + carry;
            limbs.push(sum as u64);
            carry = sum >> 64;
        }
        limbs.push(carry as u64);
        Natural::trimmed(limbs)
    }

    /// `self - other`; `other` must not be the greater one.
    pub fn minus(&self, other: &Natural) -> Natural {
        assert!(*other <= *self, "a whole number cannot go below 0");
        let mut limbs = Vec::with_capacity(self.limbs.len());
        let mut borrow = false;
        for (index, limb) in self.limbs.iter().enumerate() {
            let taken = other.limbs.get(index).copied().unwrap_or(0);
            let (less, first) = limb.overflowing_sub(taken);
            let (less, second) = less.overflowing_sub(u64::from(borrow));
            limbs.push(less);
            borrow = first || second;
        }
        Natural::trimmed(limbs)
    }

    pub fn times(&self, other: &Natural) -> Natural {
        let mut limbs = vec![0u64; self.limbs.len() + other.limbs.len()];
        for (start, left) in self.limbs.iter().enumerate() {
            let mut carry = 0u128;
            for (index, right) in other.limbs.iter().enumerate() {
                let sum = u128::from(*left) * u128::from(*right) + u128::from(limbs[start + index]) + carry;
                limbs[start + index] = sum as u64;
                carry = sum >> 64;
            }
            limbs[start + other.limbs.len()] = carry as u64;
        }
        Natural::trimmed(limbs)
    }

    /// The greatest whole number q with q · divisor at most `self`; it must fit 64 bits.
    /// Found bit by bit: slow and plain, and used only to fill small tables.
    pub fn quotient(&self, divisor: &Natural) -> u64 {
        assert!(!divisor.is_nil(), "division by nil");
        let mut quotient = 0;
        for bit in (0..64).rev() {
            let tried = quotient | 1u64 << bit;
            if divisor.times(&Natural::from(tried)) <= *self {
                quotient = tried;
            }
        }
        assert!(self.minus(&divisor.times(&Natural::from(quotient))) < *divisor, "the quotient passes 64 bits");
        quotient
    }
}

impl From<u64> for Natural {
    fn from(value: u64) -> Natural {
        Natural::trimmed(vec![value])
    }
}

impl Ord for Natural {
    fn cmp(&self, other: &Natural) -> Ordering {
        let by_length = self.limbs.len().cmp(&other.limbs.len());
        by_length.then_with(|| self.limbs.iter().rev().cmp(other.limbs.iter().rev()))
    }
}

impl PartialOrd for Natural {
    fn partial_cmp(&self, other: &Natural) -> Option<Ordering> {
        Some(self.cmp(other))
    }
}

#[cfg(test)]
mod tests {
    use super::Natural;

    fn natural(value: u128) -> Natural {
        let high = Natural::from((value >> 64) as u64);
        high.times(&Natural::from(1 << 63)).times(&Natural::from(2)).plus(&Natural::from(value as u64))
    }

    #[test]
    fn agrees_with_the_machine_below_128_bits() {
        let samples = [0u128, 1, 2, 10, u64::MAX as u128 - 1, u64::MAX as u128, u64::MAX as u128 + 1, 1 << 100];
        for left in samples {
            for right in samples {
                assert_eq!(natural(left).plus(&natural(right)), natural(left + right));
                assert_eq!(natural(left).cmp(&natural(right)), left.cmp(&right));
                if right <= left {
                    assert_eq!(natural(left).minus(&natural(right)), natural(left - right));
                }
                if let Some(product) = left.checked_mul(right) {
                    assert_eq!(natural(left).times(&natural(right)), natural(product));
                }
            }
        }
    }

    #[test]
    fn quotients_are_rounded_down() {
        let divisor = natural(1 << 70);
        let seven = divisor.times(&Natural::from(7));
        assert_eq!(seven.quotient(&divisor), 7);
        assert_eq!(seven.minus(&Natural::from(1)).quotient(&divisor), 6);
        assert_eq!(Natural::from(0).quotient(&divisor), 0);
        assert_eq!(divisor.times(&Natural::from(u64::MAX)).quotient(&divisor), u64::MAX);
    }

    #[test]
    #[should_panic(expected = "passes 64 bits")]
    fn a_quotient_beyond_64_bits_is_not_cut() {
        natural(1 << 64).quotient(&natural(1));
    }
}

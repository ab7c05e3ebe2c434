//! Signed fractions of whole numbers, exact and never reduced.

use crate::natural::Natural;
use std::cmp::Ordering;

#[derive(Clone, Debug)]
pub struct Fraction {
    negative: bool,
    numerator: Natural,
    denominator: Natural,
}

impl Fraction {
    /// `numerator / denominator`; the denominator must not be nil.
    pub fn of(numerator: Natural, denominator: Natural) -> Fraction {
        assert!(!denominator.is_nil(), "a fraction over nil");
        Fraction { negative: false, numerator, denominator }
    }

    pub fn whole(value: i64) -> Fraction {
        let magnitude = Fraction::of(Natural::from(value.unsigned_abs()), Natural::from(1));
        Fraction { negative: value < 0, ..magnitude }
    }

    pub fn one_over(self) -> Fraction {
        let flipped = Fraction::of(self.denominator, self.numerator);
        Fraction { negative: self.negative, ..flipped }
    }

    pub fn negated(self) -> Fraction {
        Fraction { negative: !self.negative, ..self }
    }

    pub fn times(&self, factor: i64) -> Fraction {
        Fraction {
            negative: self.negative != (factor < 0),
            numerator: self.numerator.times(&Natural::from(factor.unsigned_abs())),
            denominator: self.denominator.clone(),
        }
    }

    pub fn plus(&self, other: &Fraction) -> Fraction {
        let left = self.numerator.times(&other.denominator);
        let right = other.numerator.times(&self.denominator);
        let denominator = self.denominator.times(&other.denominator);
        let (negative, numerator) = if self.negative == other.negative {
            (self.negative, left.plus(&right))
        } else if left >= right {
            (self.negative, left.minus(&right))
        } else {
            (other.negative, right.minus(&left))
        };
        Fraction { negative, numerator, denominator }
    }

    pub fn minus(&self, other: &Fraction) -> Fraction {
        self.plus(&other.clone().negated())
    }

    /// Adds pair by pair: partners stay alike in size, which keeps the long multiplications few.
    pub fn sum(mut terms: Vec<Fraction>) -> Fraction {
        while terms.len() > 1 {
            terms = terms
                .chunks(2)
                .map(|pair| pair[1..].iter().fold(pair[0].clone(), |sum, term| sum.plus(term)))
                .collect();
        }
        terms.pop().unwrap_or_else(|| Fraction::whole(0))
    }

    pub fn magnitude(&self) -> Fraction {
        Fraction { negative: false, ..self.clone() }
    }

    pub fn is_positive(&self) -> bool {
        !self.negative && !self.numerator.is_nil()
    }

    /// The nearest whole number, halves up; for fractions from nil up to 64 bits.
    pub fn nearest_whole(&self) -> i64 {
        assert!(!self.negative, "only fractions from nil on are rounded here");
        let two = Natural::from(2);
        let doubled = self.numerator.times(&two).plus(&self.denominator);
        i64::try_from(doubled.quotient(&self.denominator.times(&two))).expect("a number of at most 63 bits")
    }
}

impl Ord for Fraction {
    fn cmp(&self, other: &Fraction) -> Ordering {
        let left = self.numerator.times(&other.denominator);
        let right = other.numerator.times(&self.denominator);
        match (self.negative && !left.is_nil(), other.negative && !right.is_nil()) {
            (false, false) => left.cmp(&right),
            (true, true) => right.cmp(&left),
            (true, false) => Ordering::Less,
            (false, true) => Ordering::Greater,
        }
    }
}

impl PartialOrd for Fraction {
    fn partial_cmp(&self, other: &Fraction) -> Option<Ordering> {
        Some(self.cmp(other))
    }
}

impl PartialEq for Fraction {
    fn eq(&self, other: &Fraction) -> bool {
        self.cmp(other) == Ordering::Equal
    }
}

impl Eq for Fraction {}

#[cfg(test)]
mod tests {
    use super::Fraction;
    use crate::natural::Natural;

    fn fraction(numerator: i64, denominator: u64) -> Fraction {
        Fraction::of(Natural::from(1), Natural::from(denominator)).times(numerator)
    }

    #[test]
    fn sums_and_order_follow_the_signs() {
        assert_eq!(fraction(1, 3).plus(&fraction(-1, 2)), fraction(-1, 6));
        assert_eq!(fraction(1, 2).minus(&fraction(1, 2)), Fraction::whole(0).negated());
        assert!(
            fraction(-1, 2) < fraction(-1, 3) && fraction(-1, 3) < fraction(0, 5) && fraction(1, 3) < fraction(1, 2)
        );
        assert_eq!(Fraction::sum(vec![fraction(1, 2), fraction(1, 3), fraction(1, 6)]), Fraction::whole(1));
        assert_eq!(fraction(-2, 3).one_over(), fraction(-3, 2));
        assert!(!fraction(0, 1).is_positive() && !fraction(-1, 2).is_positive() && fraction(1, 9).is_positive());
        assert_eq!(fraction(-1, 2).magnitude(), fraction(1, 2));
    }

    #[test]
    fn nearest_whole_takes_halves_up() {
        assert_eq!(fraction(5, 2).nearest_whole(), 3);
        assert_eq!(fraction(49, 20).nearest_whole(), 2);
        assert_eq!(fraction(0, 7).nearest_whole(), 0);
    }
}

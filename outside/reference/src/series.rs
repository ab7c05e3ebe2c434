//! The series E and the whole numbers that come from it (01, "Curves and shocks", "Discount factor").

use crate::fraction::Fraction;
use crate::ladder::{BUCKETS, MIDPOINTS};
use crate::natural::Natural;
use std::sync::OnceLock;

const BILLION: i64 = 1_000_000_000;

/// E(numerator / denominator): the sum of x to the j over j factorial, j from 0 to 64.
/// Worked from the inside: 1 + x/1 · (1 + x/2 · (1 + ... (1 + x/64))) has exactly those terms.
pub fn series(numerator: u64, denominator: u64) -> Fraction {
    let mut above = Natural::from(1);
    let mut below = Natural::from(1);
    for j in (1..=64u64).rev() {
        below = below.times(&Natural::from(denominator)).times(&Natural::from(j));
        above = above.times(&Natural::from(numerator)).plus(&below);
    }
    Fraction::of(above, below)
}

/// The nearest whole number to a billion over E(numerator / denominator), halves up.
fn billion_over_series(numerator: u64, denominator: u64) -> i64 {
    series(numerator, denominator).one_over().times(BILLION).nearest_whole()
}

/// Every whole number that 01 takes from the series.
pub struct Tables {
    /// s of each bucket, in billionths.
    pub short_weights: [i64; BUCKETS],
    /// Entry [k][d] belongs to digit d of weight 10^-k.
    pub digit_factors: [[i64; 10]; 11],
    /// Where the factor of a negative exponent starts: a billion times E(1.25).
    pub negative_start: i64,
}

impl Tables {
    fn from_series() -> Tables {
        Tables {
            short_weights: MIDPOINTS.map(|midpoint| billion_over_series(midpoint as u64, 40_000)),
            digit_factors: std::array::from_fn(|row| {
                std::array::from_fn(|digit| billion_over_series(digit as u64, 10u64.pow(row as u32)))
            }),
            negative_start: series(5, 4).times(BILLION).nearest_whole(),
        }
    }
}

/// The tables, worked out on first use.
pub fn tables() -> &'static Tables {
    static TABLES: OnceLock<Tables> = OnceLock::new();
    TABLES.get_or_init(Tables::from_series)
}

#[cfg(test)]
mod tests {
    use super::{series, tables};
    use crate::fraction::Fraction;
    use crate::natural::Natural;

    #[test]
    fn the_series_is_the_sum_of_its_65_terms() {
        let (three, four) = (Natural::from(3), Natural::from(4));
        let (mut above, mut below) = (Natural::from(1), Natural::from(1));
        let mut terms = Vec::new();
        for j in 0..=64u64 {
            terms.push(Fraction::of(above.clone(), below.clone()));
            above = above.times(&three);
            below = below.times(&four).times(&Natural::from(j + 1));
        }
        assert_eq!(series(3, 4), Fraction::sum(terms));
        assert_eq!(series(0, 1), Fraction::whole(1));
    }

    #[test]
    fn the_tables_meet_the_numbers_of_the_paper() {
        assert_eq!(tables().negative_start, 3_490_342_957);
        assert_eq!(tables().digit_factors[0][1], 367_879_441);
        // Worked out apart, in another language.
        let some_weights = [0, 2, 8, 18].map(|bucket| tables().short_weights[bucket]);
        assert_eq!(some_weights, [999_300_245, 959_181_464, 535_261_429, 1_930_454]);
        assert!(tables().digit_factors.iter().all(|row| row[0] == 1_000_000_000));
    }
}

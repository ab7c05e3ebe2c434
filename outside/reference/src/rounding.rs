//! The roundings that 01 names, on signed whole numbers; denominators are positive.

/// The nearest whole number, halves away from zero.
pub fn halves_away(numerator: i128, denominator: i128) -> i64 {
    let magnitude = (2 * numerator.abs() + denominator) / (2 * denominator);
    i64::try_from(magnitude * numerator.signum()).expect("64 bits hold every rounded number of 01")
}

/// The smallest whole number that is not below the quotient; for numerators from 0 on.
pub fn rounded_up(numerator: i128, denominator: i128) -> i64 {
    i64::try_from((numerator + denominator - 1) / denominator).expect("64 bits hold every rounded number of 01")
}

#[cfg(test)]
mod tests {
    use super::{halves_away, rounded_up};

    #[test]
    fn halves_go_away_from_zero_and_nothing_else_does() {
        assert_eq!([4, 5, 14, 15].map(|tenths| halves_away(tenths, 10)), [0, 1, 1, 2]);
        assert_eq!([-4, -5, -14, -15].map(|tenths| halves_away(tenths, 10)), [0, -1, -1, -2]);
        assert_eq!([4, -4, 5, -5].map(|ninths| halves_away(ninths, 9)), [0, 0, 1, -1]);
    }

    #[test]
    fn up_means_up_except_at_whole_numbers() {
        assert_eq!([0, 1, 9, 10, 11].map(|tenths| rounded_up(tenths, 10)), [0, 1, 1, 1, 2]);
    }
}

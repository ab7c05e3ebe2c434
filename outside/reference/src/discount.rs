//! Discount factors, computed and exact (01, "Discount factor, in billionths").

use crate::fraction::Fraction;
use crate::ladder::MIDPOINTS;
use crate::series::{series, tables};

const BILLION: i64 = 1_000_000_000;
const EXPONENT_UNITS: u64 = 10_000_000_000;

/// X: a rate in millionths times a bucket's midpoint, in units of 10^-10.
pub fn exponent(rate: i64, bucket_index: usize) -> i64 {
    rate * MIDPOINTS[bucket_index]
}

/// The computed factor in billionths, digit by digit.
pub fn computed_factor(exponent: i64) -> i64 {
    digit_by_digit(exponent).0
}

/// Whether a product on the way to the factor lies halfway between two whole numbers: "halves up" decides there.
pub fn meets_a_half(exponent: i64) -> bool {
    digit_by_digit(exponent).1
}

fn digit_by_digit(exponent: i64) -> (i64, bool) {
    let (mut factor, digits) = match exponent {
        0.. => (BILLION, exponent),
        _ => (tables().negative_start, 12_500_000_000 + exponent),
    };
    let mut half = false;
    for (row, entries) in tables().digit_factors.iter().enumerate() {
        let digit = digits / 10i64.pow(10 - row as u32) % 10;
        let product = factor * entries[digit as usize];
        half |= product % BILLION == BILLION / 2;
        factor = (product + BILLION / 2) / BILLION;
    }
    (factor, half)
}

/// The exact factor as a part of one: 1 / E(x) from x = 0 on, E(-x) below.
pub fn exact_factor(exponent: i64) -> Fraction {
    let shared = common_divisor(exponent.unsigned_abs(), EXPONENT_UNITS);
    let magnitude = series(exponent.unsigned_abs() / shared, EXPONENT_UNITS / shared);
    if exponent >= 0 {
        magnitude.one_over()
    } else {
        magnitude
    }
}

/// Exponents end in many zeros; without them the exact numbers stay a good deal shorter.
fn common_divisor(left: u64, right: u64) -> u64 {
    if right == 0 {
        left
    } else {
        common_divisor(right, left % right)
    }
}

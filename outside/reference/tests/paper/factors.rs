//! "Every computed factor is within 26 billionths of it", and the changes of rates.

use reference::{computed_factor, exact_factor, exponent, rate_changes, Fraction, BUCKETS};

fn off_by_at_most(exponent: i64, billionths: i64) -> bool {
    let exact = exact_factor(exponent).times(1_000_000_000);
    exact.minus(&Fraction::whole(computed_factor(exponent))).magnitude() <= Fraction::whole(billionths)
}

#[test]
fn computed_factors_are_within_26_billionths() {
    for bucket in 0..BUCKETS {
        for rate in (-50_000..=300_000).step_by(6_997).chain([-50_000, -1, 0, 1, 40_000, 300_000]) {
            assert!(off_by_at_most(exponent(rate, bucket), 26), "rate {rate} in bucket {}", bucket + 1);
        }
    }
}

/// Otherwise the test above could not fail.
#[test]
fn some_computed_factors_are_not_exact() {
    assert!(!off_by_at_most(exponent(-49_999, 18), 0));
}

#[test]
fn factors_fall_as_rates_rise_and_start_at_e_of_one_and_a_quarter() {
    assert_eq!(computed_factor(exponent(-50_000, 18)), 3_490_342_957);
    let factors: Vec<i64> = (-50..=300).map(|thousand| computed_factor(exponent(1_000 * thousand, 18))).collect();
    assert!(factors.windows(2).all(|pair| pair[0] > pair[1]));
}

/// Worked out apart, in another language; rounded down on the way, each but the last would be less.
#[test]
fn factors_of_long_exponents() {
    let terms = [(12_345, 18), (-49_999, 19), (299_999, 19), (-1, 1), (-7_777, 17), (123_457, 3), (1, 1)];
    let expected = [805_705_087, 3_490_255_699, 553_098, 1_000_000_003, 1_102_094_543, 979_630_046, 999_999_997];
    assert_eq!(terms.map(|(rate, bucket)| computed_factor(exponent(rate, bucket - 1))), expected);
}

/// Worked out apart, with s = 645,648,526 for bucket 8.
#[test]
fn rate_changes_of_bucket_8() {
    assert_eq!(rate_changes(10, 1, 4, 7), [1_000, -1_000, 86, -33, 65, -65]);
    assert_eq!(rate_changes(400, 500, 100, 7), [40_000, -40_000, -17_794, 23_700, 32_282, -32_282]);
    assert_eq!(rate_changes(0, 1_000, 1_000, 7), [0, 0, -10_076, 30_391, 64_565, -64_565]);
}

/// Rounded part by part, the steepener would be 404 and 33.
#[test]
fn the_steepener_is_rounded_once() {
    assert_eq!(rate_changes(0, 1, 14, 7)[2], 405);
    assert_eq!(rate_changes(0, 3, 5, 7)[2], 34);
}

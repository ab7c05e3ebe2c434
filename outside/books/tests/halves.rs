//! Books aimed at exact halves meet them.

use books::{halves_case, rates_that_meet_a_half, Draw};
use reference::{computed_factor, exponent, Positions, BUCKETS, CURRENCIES, SCENARIOS};

const BILLION: i128 = 1_000_000_000;

/// The sum of flow times factor of a currency (from 0) in a scenario, in billionths.
fn value(positions: &Positions, currency: usize, scenario: usize) -> i128 {
    let Some(curve) = &positions.curves[currency] else { return 0 };
    let of_bucket = |bucket: usize| {
        let factor = computed_factor(exponent(curve.rates[scenario][bucket], bucket));
        i128::from(positions.net_flow(currency, scenario, bucket)) * i128::from(factor)
    };
    (0..BUCKETS).map(of_bucket).sum()
}

/// Changes with an exact half: gains and losses.
#[test]
fn changes_meet_halves_on_either_side_of_zero() {
    let (mut losses, mut gains) = (0, 0);
    for seed in 0..400 {
        let case = halves_case(&mut Draw::seeded(seed));
        let answer = case.request().answer();
        let positions = &answer.accepted().unwrap_or_else(|| panic!("seed {seed}")).positions;
        for place in 0..CURRENCIES * SCENARIOS {
            let (currency, scenario) = (place / SCENARIOS, place % SCENARIOS + 1);
            let change = value(positions, currency, 0) - value(positions, currency, scenario);
            losses += u32::from(change.rem_euclid(BILLION) == BILLION / 2 && change > 0);
            gains += u32::from(change.rem_euclid(BILLION) == BILLION / 2 && change < 0);
        }
    }
    assert!(losses > 100 && gains > 100, "{losses} {gains}");
}

/// Counted apart, by another program.
#[test]
fn thirty_factors_meet_a_half() {
    assert_eq!(rates_that_meet_a_half().len(), 30);
}

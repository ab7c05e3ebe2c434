//! Curves, shocks and shocked rates (01, "Curves and shocks"; 02, request 5).

use crate::fields::RATES;
use crate::ladder::BUCKETS;
use crate::layout::{Kind, Record, SCENARIOS};
use crate::refusal::{demand, Fault};
use crate::rounding::halves_away;
use crate::series::tables;
use crate::shock_lists::{listed_shocks, Code};

const BILLION: i128 = 1_000_000_000;
const CURVE: u8 = 8;
const LISTED_CURVE: u8 = 10;

/// The kinds that count as a currency's curve wherever 01 says curve.
pub fn is_curve(kind: &Kind) -> bool {
    [CURVE, LISTED_CURVE].contains(&kind.number)
}

/// Parallel, short and long of a curve, in basis points: its own, or those that its edition lists for its code, where it
/// lists them.
pub fn shocks(curve: &Record) -> Option<[i64; 3]> {
    match curve.kind.number {
        LISTED_CURVE => listed_shocks(curve.one("edition"), Code::of_number(curve.one("code"))),
        _ => Some(["parallel", "short", "long"].map(|name| curve.one(name))),
    }
}

/// The rates of one currency in millionths: base first, then the six scenarios.
#[derive(Clone, Debug)]
pub struct Curve {
    pub rates: [[i64; BUCKETS]; SCENARIOS + 1],
}

/// The six changes of a bucket's rate, in millionths, for shocks in basis points.
pub fn rate_changes(parallel: i64, short: i64, long: i64, bucket_index: usize) -> [i64; SCENARIOS] {
    let weight = i128::from(tables().short_weights[bucket_index]);
    let near = i128::from(short) * weight;
    let far = i128::from(long) * (BILLION - weight);
    let rounded = |change: i128| halves_away(change, BILLION);
    [
        100 * parallel,
        -100 * parallel,
        rounded(-65 * near + 90 * far),
        rounded(80 * near - 60 * far),
        rounded(100 * near),
        rounded(-100 * near),
    ]
}

impl Curve {
    /// The curve of a record whose fields have been checked; refuses a shocked rate out of range, at the base rate of
    /// the lowest bucket that has one in any scenario.
    pub fn from_record(record: &Record) -> Result<Curve, Fault> {
        let [parallel, short, long] = shocks(record).expect("the code has been checked");
        let mut rates = [[0; BUCKETS]; SCENARIOS + 1];
        for (bucket, base) in record.all("rates").iter().enumerate() {
            rates[0][bucket] = *base;
            let changes = rate_changes(parallel, short, long, bucket);
            for (index, change) in changes.iter().enumerate() {
                let (scenario, shocked) = (index + 1, base + change);
                demand(RATES.contains(&shocked), 13, || {
                    format!(
                        "shocked rate of scenario {scenario} in bucket {} is {shocked}, outside -50000 to 300000",
                        bucket + 1
                    )
                })
                .map_err(|fault| fault.within(record.kind.place_of("rates", bucket)))?;
                rates[scenario][bucket] = shocked;
            }
        }
        Ok(Curve { rates })
    }
}

#[cfg(test)]
mod tests {
    use crate::series::tables;

    /// So "halves away from zero" decides nothing here, and no book can be aimed at it.
    #[test]
    fn no_shocks_in_range_bring_a_rate_change_to_a_half() {
        const BILLION: i64 = 1_000_000_000;
        let is_half = |change: i64| change.rem_euclid(BILLION) == BILLION / 2;
        let shocks = || (0..=1_000).flat_map(|short| (0..=1_000).map(move |long| (short, long)));
        for weight in tables().short_weights {
            let meets = |(short, long): (i64, i64)| {
                let (near, far) = (short * weight, long * (BILLION - weight));
                is_half(-65 * near + 90 * far) || is_half(80 * near - 60 * far) || is_half(100 * near)
            };
            assert!(!shocks().any(meets), "{weight}");
        }
    }
}

//! What `irdetail` prints for an input: the report, what it was worked out from, and how far the measure is from the limit.

use crate::curve::Curve;
use crate::irreport::{answer_input, lines, spaced, split_input};
use crate::ladder::BUCKETS;
use crate::layout::{split, KINDS, SCENARIOS};
use crate::report::{Return, LIMIT};
use crate::rounding::rounded_up;

/// The whole output for the whole input. For one that is turned down it is that of `irreport`.
pub fn irdetail(input: &[u8]) -> String {
    let answer = answer_input(input);
    let mut text = lines(&answer);
    let (Some(result), Some((capital, book))) = (answer.accepted(), split_input(input)) else { return text };
    let (records, _) = split(book);
    for (currency, curve) in result.positions.curves.iter().enumerate() {
        if let Some(curve) = curve {
            text += &of_currency(result, currency, curve, &taken(&records, currency));
        }
    }
    text + &format!("N {}\n", records.len()) + &against_limit(result.measure, capital as i64)
}

/// How many records of each kind there are in a currency, which stands first in every body.
fn taken(records: &[&[u8]], currency: usize) -> Vec<i64> {
    let of_kind = |kind: u8| records.iter().filter(|record| record[..2] == [kind, currency as u8 + 1]).count() as i64;
    KINDS.iter().map(|kind| of_kind(kind.number)).collect()
}

fn of_currency(result: &Return, currency: usize, curve: &Curve, taken: &[i64]) -> String {
    let number = currency + 1;
    let mut text = format!("U {number}{}\n", spaced(&result.tolerances[currency]));
    for scenario in 0..=SCENARIOS {
        let rates = spaced(&curve.rates[scenario]);
        let flows: [i64; BUCKETS] = std::array::from_fn(|bucket| result.positions.net_flow(currency, scenario, bucket));
        text += &format!("Z {number} {scenario}{rates}\nF {number} {scenario}{}\n", spaced(&flows));
    }
    let add_ons = spaced(&result.positions.add_ons[currency]);
    text + &format!("A {number}{add_ons}\nK {number}{}\n", spaced(taken))
}

/// Limit, headroom and the measure's share of Tier 1 capital, which is rounded up: 15.00 per cent is never said of a
/// measure above the limit.
fn against_limit(measure: i64, capital: i64) -> String {
    let limit = LIMIT * capital;
    let headroom = limit - 100 * measure;
    let share = rounded_up(10_000 * i128::from(measure), i128::from(capital));
    let [limit, headroom, share] = [limit, headroom, share].map(in_units);
    format!("T {capital}\nL {limit}\nH {headroom}\nP {share}\n")
}

/// Hundredths as units with two places after the point. The sign is that of the whole: -0.05 has no unit to carry it.
fn in_units(hundredths: i64) -> String {
    let (sign, magnitude) = (if hundredths < 0 { "-" } else { "" }, hundredths.abs());
    format!("{sign}{}.{:02}", magnitude / 100, magnitude % 100)
}

//! Books whose roundings meet exact halves, which chance hardly ever does. Rounded rate changes are not among them: no
//! shocks in range bring them to a half.

use crate::case::{joined, Case, Expected};
use crate::currencies;
use crate::draw::Draw;
use crate::position::{position, record, some_curve};
use reference::{exponent, meets_a_half, Record, BUCKETS, GREATEST_GROSS, RATES, UPPER_ENDS};
use std::sync::OnceLock;

/// One flow, and at times an add-on, which is added after the rounding.
pub fn case(draw: &mut Draw) -> Case {
    let currency = currencies::any(draw);
    let mut records = if draw.coin() { half_of_a_change(draw, currency) } else { half_of_a_factor(draw, currency) };
    if draw.coin() {
        records.push(position(draw, 7, currency, GREATEST_GROSS));
    }
    draw.shuffle(&mut records);
    Case::of(draw, joined(&records), Expected::Accepted)
}

/// Half a billion times an odd difference of factors ends in half a billion.
fn half_of_a_change(draw: &mut Draw, currency: i64) -> Vec<Record> {
    let bucket = draw.index(BUCKETS);
    vec![some_curve(draw, currency), flow(draw, currency, bucket, GREATEST_GROSS / 2)]
}

/// A billion of flow makes a billionth of the factor one whole unit of the change. The base rate meets the half, or
/// the rate shocked up or down.
fn half_of_a_factor(draw: &mut Draw, currency: i64) -> Vec<Record> {
    let (rate, bucket) = draw.pick(rates_that_meet_a_half());
    let parallel = draw.between(1, 100);
    let near = [rate, rate - 100 * parallel, rate + 100 * parallel];
    let bearable = |base: &i64| RATES.contains(&(base - 100 * parallel)) && RATES.contains(&(base + 100 * parallel));
    let base: Vec<i64> = near.into_iter().filter(bearable).collect();
    let rates = vec![draw.pick(&base); BUCKETS];
    let curve = record(8, &[vec![currency], rates, vec![parallel, 0, 0]].concat());
    vec![curve, flow(draw, currency, bucket, GREATEST_GROSS)]
}

fn flow(draw: &mut Draw, currency: i64, bucket: usize, amount: i64) -> Record {
    let (months, days) = UPPER_ENDS.get(bucket).copied().unwrap_or((241, 0));
    record(1, &[currency, draw.between(1, 2), months, days, amount])
}

/// Every rate and bucket (from 0) whose factor meets a half: few enough to look for all of them, once.
pub fn rates_that_meet_a_half() -> &'static [(i64, usize)] {
    static FOUND: OnceLock<Vec<(i64, usize)>> = OnceLock::new();
    FOUND.get_or_init(|| {
        let of_bucket = |bucket: usize| RATES.map(move |rate| (rate, bucket));
        let all = (0..BUCKETS).flat_map(of_bucket);
        all.filter(|(rate, bucket)| meets_a_half(exponent(*rate, *bucket))).collect()
    })
}

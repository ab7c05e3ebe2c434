//! Records at the limits that 9, 10, 11 and 14 set: exactly at them, or one step beyond.

use crate::aimed::FieldAtFault;
use crate::draw::Draw;
use crate::position::{position, record, KINDS_WITH_FLOWS};
use reference::{flows, Record, BUCKETS, CORE_CAPS, GREATEST_GROSS, SCENARIOS};

fn step(out: bool) -> i64 {
    i64::from(out)
}

/// A ladder that is nil but for the buckets named, from 1 on.
fn in_buckets(named: &[(usize, i64)]) -> Vec<i64> {
    let mut ladder = vec![0; BUCKETS];
    named.iter().for_each(|(bucket, amount)| ladder[bucket - 1] += amount);
    ladder
}

/// The core lies in buckets 1 to 9, far from the cap on its average.
pub fn core_at_its_cap(draw: &mut Draw, currency: i64, out: bool) -> Record {
    let category = draw.between(1, 3);
    let total = draw.amount(GREATEST_GROSS);
    let core = CORE_CAPS[category as usize - 1].0 * total / 100 + step(out);
    let first = draw.between(0, core);
    let (one, other) = (draw.between(1, 9) as usize, draw.between(1, 9) as usize);
    record(4, &[vec![currency, category, total], in_buckets(&[(one, first), (other, core - first)])].concat())
}

/// Equal amounts in two buckets whose midpoints lie evenly around the cap; one coin more in the upper is out.
pub fn core_average_at_its_cap(draw: &mut Draw, currency: i64, out: bool) -> Record {
    let around = [(1, 11, 12), (1, 10, 13), (1, 9, 14), (2, 11, 11), (2, 10, 12), (2, 9, 13), (3, 10, 11), (3, 9, 12)];
    let (category, lower, upper) = draw.pick(&around);
    let half = draw.amount(GREATEST_GROSS / 4 - 1) + 1;
    let moved = step(out);
    let core = match lower == upper {
        true => in_buckets(&[(lower, 2 * half - moved), (upper + 1, moved)]),
        false => in_buckets(&[(lower, half - moved), (upper, half + moved)]),
    };
    record(4, &[vec![currency, category, 4 * half], core].concat())
}

/// Interest in the bucket of the last principal or before it; just out, in the bucket after it or later, and at times
/// in one more after that: the lowest is told.
pub fn interest_at_the_last_principal(draw: &mut Draw, currency: i64, out: bool) -> FieldAtFault {
    let last = draw.between(step(!out), BUCKETS as i64 - step(out));
    let mut principals = vec![0; BUCKETS];
    for bucket in 0..last {
        principals[bucket as usize] = if bucket + 1 == last { 1 + draw.amount(1_000) } else { draw.amount(1_000) };
    }
    let bucket = match out {
        true => draw.between(last + 1, BUCKETS as i64),
        false => draw.between(1, last),
    };
    let bucket = if draw.coin() { last + step(out) } else { bucket };
    let later = if out { draw.between(bucket, BUCKETS as i64) } else { bucket };
    let interests = in_buckets(&[(bucket as usize, 1 + draw.amount(1_000)), (later as usize, draw.amount(1_000))]);
    let record = record(5, &[vec![currency, draw.between(0, 10_000)], principals, interests].concat());
    (record, "interests", bucket as usize - 1)
}

pub fn gross_at_its_limit(draw: &mut Draw, currency: i64, out: bool) -> Vec<Record> {
    match draw.between(0, 5) {
        0 => vec![scheduled_at_the_limit(draw, currency, out)],
        1 => options_at_the_limit(draw, currency, out),
        _ => flows_at_the_limit(draw, currency, out),
    }
}

/// A loan whose 38 scheduled amounts come to the limit.
fn scheduled_at_the_limit(draw: &mut Draw, currency: i64, out: bool) -> Record {
    let interests = draw.split(GREATEST_GROSS - 1, BUCKETS);
    let principal = GREATEST_GROSS - interests.iter().sum::<i64>() + step(out);
    let early = draw.between(step(out), principal - 1);
    let principals = in_buckets(&[(draw.between(1, 18) as usize, early), (BUCKETS, principal - early)]);
    record(5, &[vec![currency, draw.between(0, 10_000)], principals, interests].concat())
}

/// Two add-ons, of either side and sign, whose magnitudes in one scenario come to the limit.
fn options_at_the_limit(draw: &mut Draw, currency: i64, out: bool) -> Vec<Record> {
    let scenario = draw.index(SCENARIOS);
    let first = draw.between(1, GREATEST_GROSS);
    let mut add_on = |magnitude: i64| {
        let value = if draw.coin() { magnitude } else { -magnitude };
        let values: Vec<i64> = (0..SCENARIOS).map(|index| if index == scenario { value } else { 0 }).collect();
        record(7, &[vec![currency, draw.between(1, 2)], values].concat())
    };
    vec![add_on(first), add_on(GREATEST_GROSS - first + step(out))]
}

/// A position of any kind that makes flows, behind single flows of either side that leave room for just it.
fn flows_at_the_limit(draw: &mut Draw, currency: i64, out: bool) -> Vec<Record> {
    let kind = draw.pick(&KINDS_WITH_FLOWS);
    let last = position(draw, kind, currency, GREATEST_GROSS);
    let gross = |ladder: &[i64; BUCKETS]| ladder.iter().map(|flow| flow.abs()).sum::<i64>();
    let greatest = flows(&last).iter().map(gross).max().expect("seven ladders");
    if greatest == 0 {
        return flows_at_the_limit(draw, currency, out);
    }
    let before = GREATEST_GROSS - greatest + step(out);
    let asset = draw.between(0, before);
    vec![record(1, &[currency, 1, 12, 0, asset]), record(1, &[currency, 2, 12, 0, before - asset]), last]
}

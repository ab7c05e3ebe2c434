//! Kinds 2 and 9: the same amount at the end of each period. How many fall by a bucket's end is a division, so that there
//! is no pass over the single coupons.

use crate::fields::{amount, count, days, months, period, side, Refusal};
use crate::holdings::Section;
use crate::ladder::{bucket, BUCKETS, ENDS};

pub fn add_coupons(body: &[u8], section: &mut Section) -> Result<(), Refusal> {
    let side = side(body)?;
    let period = period(body, 2)?;
    let count = count(body, 3, 0, period)?;
    let coupon = amount(body, 5)?;
    let principal = amount(body, 9)?;
    let mut row = regular(0, period, count, side * coupon);
    row[bucket(period * count, 0)] += side * principal;
    section.add_row(&row, i64::from(count) * coupon + principal)
}

/// Principal and coupon at the reset, the spread after it.
pub fn add_floating_spread(body: &[u8], section: &mut Section) -> Result<(), Refusal> {
    let side = side(body)?;
    let months = months(body, 2)?;
    let days = days(body, 4)?;
    let principal = amount(body, 5)?;
    let coupon = amount(body, 9)?;
    let period = period(body, 13)?;
    let count = count(body, 14, months, period)?;
    let spread = amount(body, 16)?;
    // So many days past a month's end is in the bucket of the next month's.
    let start = if days == 0 { months } else { months + 1 };
    let mut row = regular(start, period, count, side * spread);
    row[bucket(months, days)] += side * (principal + coupon);
    section.add_row(&row, i64::from(count) * spread + principal + coupon)
}

/// `count` flows, the first a period after the start.
fn regular(start: u32, period: u32, count: u32, flow: i64) -> [i64; BUCKETS] {
    let mut row = [0; BUCKETS];
    let mut before = 0;
    for (place, end) in row.iter_mut().zip(ENDS) {
        let by = count.min(end.saturating_sub(start) / period);
        *place = i64::from(by - before) * flow;
        before = by;
    }
    row[BUCKETS - 1] = i64::from(count - before) * flow;
    row
}

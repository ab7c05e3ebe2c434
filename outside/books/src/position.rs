//! Good records: curves, and positions whose gross flows stay below a limit.

use crate::draw::Draw;
use reference::{
    listed, rate_changes, Kind, Listed, Record, BUCKETS, CORE_CAPS, LAST_MONTH, MIDPOINTS, RATES, SCENARIOS, UPPER_ENDS,
};

const LAST_DAY: i64 = 30;
const WHOLE_SHARE: i64 = 10_000;

/// The kinds that are positions; of these, the kinds that make flows.
pub const POSITIONS: [u8; 8] = [1, 2, 3, 4, 5, 6, 7, 9];
pub const KINDS_WITH_FLOWS: [u8; 7] = [1, 2, 3, 4, 5, 6, 9];

/// A record from its values as laid out.
pub fn record(kind: u8, values: &[i64]) -> Record {
    Record::new(Kind::numbered(kind).expect("a known kind"), values.to_vec())
}

/// A position whose flows (kind 7: values) come to at most `most` in every scenario.
pub fn position(draw: &mut Draw, kind: u8, currency: i64, most: i64) -> Record {
    let values = match kind {
        1 => single_flow(draw, most),
        2 => fixed_coupons(draw, most),
        3 => floating(draw, most),
        4 => non_maturity_deposit(draw, most),
        5 => prepayable_loan(draw, most),
        6 => [vec![share(draw)], draw.split(most, BUCKETS)].concat(),
        7 => option_add_on(draw, most),
        9 => floating_spread(draw, most),
        _ => panic!("kind {kind} is no position"),
    };
    record(kind, &[&[currency][..], &values].concat())
}

fn side(draw: &mut Draw) -> i64 {
    draw.between(1, 2)
}

/// Months and days; ends of buckets and their neighbours come up often.
fn term(draw: &mut Draw) -> (i64, i64) {
    if draw.coin() {
        return (draw.between(0, LAST_MONTH), draw.between(0, LAST_DAY));
    }
    let (months, days) = draw.pick(&UPPER_ENDS);
    match draw.between(0, 2) {
        0 => (months, days),
        1 => (months, days + 1),
        _ => ((months - 1).max(0), if months > 0 { LAST_DAY } else { 0 }),
    }
}

fn share(draw: &mut Draw) -> i64 {
    let edge = draw.pick(&[0, 1, 8_333, 8_334, WHOLE_SHARE - 1, WHOLE_SHARE]);
    if draw.once_in(3) {
        edge
    } else {
        draw.between(0, WHOLE_SHARE)
    }
}

fn single_flow(draw: &mut Draw, most: i64) -> Vec<i64> {
    let (months, days) = term(draw);
    vec![side(draw), months, days, draw.amount(most)]
}

fn fixed_coupons(draw: &mut Draw, most: i64) -> Vec<i64> {
    let period = draw.pick(&[1, 3, 6, 12]);
    let count = 1 + draw.amount(LAST_MONTH / period - 1);
    let coupon = draw.amount(most / count);
    vec![side(draw), period, count, coupon, draw.amount(most - coupon * count)]
}

fn floating(draw: &mut Draw, most: i64) -> Vec<i64> {
    let (months, days) = term(draw);
    let principal = draw.amount(most);
    vec![side(draw), months, days, principal, draw.amount(most - principal)]
}

/// The reset leaves room for a period; every other one has as many periods as fit, so that the last month is often 600.
fn floating_spread(draw: &mut Draw, most: i64) -> Vec<i64> {
    let period = draw.pick(&[1, 3, 6, 12]);
    let (months, days) = term(draw);
    let months = months.min(LAST_MONTH - period);
    let periods = (LAST_MONTH - months) / period;
    let count = if draw.coin() { periods } else { 1 + draw.amount(periods - 1) };
    let spread = draw.amount(most / count);
    let principal = draw.amount(most - spread * count);
    let coupon = draw.amount(most - spread * count - principal);
    vec![side(draw), months, days, principal, coupon, period, count, spread]
}

/// Core that lies too far out for its category is brought down to bucket 1, from the top.
fn non_maturity_deposit(draw: &mut Draw, most: i64) -> Vec<i64> {
    let category = draw.between(1, 3);
    let (cap, average_cap) = CORE_CAPS[category as usize - 1];
    let total = draw.amount(most);
    let mut core = draw.split(cap * total / 100, BUCKETS);
    for bucket in (1..BUCKETS).rev() {
        let weighted: i64 = core.iter().zip(MIDPOINTS).map(|(amount, midpoint)| amount * midpoint).sum();
        if weighted > average_cap * core.iter().sum::<i64>() {
            core[0] += std::mem::take(&mut core[bucket]);
        }
    }
    [vec![category, total], core].concat()
}

/// Scheduled amounts bound the flows: prepayment only shrinks the interest.
fn prepayable_loan(draw: &mut Draw, most: i64) -> Vec<i64> {
    let principals = draw.split(most, BUCKETS);
    let left = most - principals.iter().sum::<i64>();
    let mut interests = match principals.iter().rposition(|principal| *principal > 0) {
        Some(last) => draw.split(left, last + 1),
        None => Vec::new(),
    };
    interests.resize(BUCKETS, 0);
    [vec![share(draw)], principals, interests].concat()
}

fn option_add_on(draw: &mut Draw, most: i64) -> Vec<i64> {
    let mut values = vec![side(draw)];
    for _ in 0..SCENARIOS {
        let value = draw.amount(most);
        values.push(if draw.coin() { value } else { -value });
    }
    values
}

/// A good curve of either kind.
pub fn some_curve(draw: &mut Draw, currency: i64) -> Record {
    if draw.coin() {
        curve(draw, currency)
    } else {
        listed_curve(draw, currency)
    }
}

/// A good curve of kind 8. The books of a month-end run have no other, and stay as they are.
pub fn curve(draw: &mut Draw, currency: i64) -> Record {
    let shocks: [i64; 3] = std::array::from_fn(|_| draw.amount(1_000));
    let rates = rates_that_bear(draw, shocks);
    record(8, &[vec![currency], rates, shocks.to_vec()].concat())
}

/// A good curve of kind 10, by any edition and any code.
pub fn listed_curve(draw: &mut Draw, currency: i64) -> Record {
    let edition = draw.between(1, 2);
    let Listed { code, shocks } = draw.pick(listed(edition));
    let rates = rates_that_bear(draw, shocks);
    record(10, &[vec![currency, edition, code.number()], rates].concat())
}

/// Rates that bear their shocks, up to the last millionth.
fn rates_that_bear(draw: &mut Draw, shocks: [i64; 3]) -> Vec<i64> {
    let flat = draw.between(-20_000, 120_000);
    let wild = draw.once_in(3);
    let rates = (0..BUCKETS).map(|bucket| {
        let (low, high) = bearable_rates(shocks, bucket);
        let near = flat + draw.between(-3_000, 3_000);
        let rate = if wild { draw.between(low, high) } else { near.clamp(low, high) };
        if draw.once_in(40) {
            draw.pick(&[low, high])
        } else {
            rate
        }
    });
    rates.collect()
}

/// The lowest and the highest rate of a bucket (from 0) whose shocked rates are all in range.
pub fn bearable_rates(shocks: [i64; 3], bucket: usize) -> (i64, i64) {
    let changes = rate_changes(shocks[0], shocks[1], shocks[2], bucket);
    let lowest = changes.iter().copied().fold(0, i64::min);
    let highest = changes.iter().copied().fold(0, i64::max);
    (RATES.start() - lowest, RATES.end() - highest)
}

//! Records written byte by byte from the paper's table, apart from the reference's own layout.

use reference::{Answer, Request};

pub const BILLION: u32 = 1_000_000_000;

pub fn single_flow(currency: u8, side: u8, months: u16, days: u8, amount: u32) -> Vec<u8> {
    [&[1, currency, side][..], &months.to_be_bytes(), &[days], &amount.to_be_bytes()].concat()
}

pub fn fixed_coupons(currency: u8, side: u8, period: u8, count: u16, coupon: u32, principal: u32) -> Vec<u8> {
    let head = [&[2, currency, side, period][..], &count.to_be_bytes()].concat();
    [&head[..], &coupon.to_be_bytes(), &principal.to_be_bytes()].concat()
}

pub fn floating(currency: u8, side: u8, months: u16, days: u8, principal: u32, coupon: u32) -> Vec<u8> {
    let head = [&[3, currency, side][..], &months.to_be_bytes(), &[days]].concat();
    [&head[..], &principal.to_be_bytes(), &coupon.to_be_bytes()].concat()
}

/// Period, count and spread come after the fields of a floating position.
pub fn floating_spread(floating: Vec<u8>, period: u8, count: u16, spread: u32) -> Vec<u8> {
    [&[9][..], &floating[1..], &[period], &count.to_be_bytes(), &spread.to_be_bytes()].concat()
}

pub fn deposit(currency: u8, category: u8, total: u32, core: [u32; 19]) -> Vec<u8> {
    [&[4, currency, category][..], &total.to_be_bytes(), &amounts(core)].concat()
}

pub fn loan(currency: u8, share: u16, principals: [u32; 19], interests: [u32; 19]) -> Vec<u8> {
    [&[5, currency][..], &share.to_be_bytes(), &amounts(principals), &amounts(interests)].concat()
}

pub fn term_deposit(currency: u8, share: u16, deposits: [u32; 19]) -> Vec<u8> {
    [&[6, currency][..], &share.to_be_bytes(), &amounts(deposits)].concat()
}

pub fn options(currency: u8, side: u8, values: [i32; 6]) -> Vec<u8> {
    [&[7, currency, side][..], &values.map(i32::to_be_bytes).concat()].concat()
}

/// Shocks: parallel, short, long.
pub fn curve(currency: u8, rates: [i32; 19], shocks: [u16; 3]) -> Vec<u8> {
    [&[8, currency][..], &rates.map(i32::to_be_bytes).concat(), &shocks.map(u16::to_be_bytes).concat()].concat()
}

pub fn flat_curve(currency: u8, rate: i32) -> Vec<u8> {
    curve(currency, [rate; 19], [0; 3])
}

/// The code is any three bytes.
pub fn listed_curve(currency: u8, edition: u8, code: &[u8; 3], rates: [i32; 19]) -> Vec<u8> {
    [&[10, currency, edition][..], code, &rates.map(i32::to_be_bytes).concat()].concat()
}

fn amounts(values: [u32; 19]) -> Vec<u8> {
    values.map(u32::to_be_bytes).concat()
}

/// A ladder that is nil but for the buckets named (from 1 on).
pub fn in_buckets(named: &[(usize, u32)]) -> [u32; 19] {
    let mut ladder = [0; 19];
    named.iter().for_each(|(bucket, amount)| ladder[bucket - 1] = *amount);
    ladder
}

pub fn answer(records: &[Vec<u8>], capital: u64) -> Answer {
    Request::roomy(&records.concat(), capital).answer()
}

/// Number and place of the refusal, if the records are turned down.
pub fn refused(records: &[Vec<u8>]) -> Option<(u8, usize)> {
    answer(records, 1_000_000).refused()
}

/// One scenario's 19 net flows of currency 1, with a flat curve added for it.
pub fn net_flows(record: Vec<u8>, scenario: usize) -> Vec<i64> {
    let answer = answer(&[flat_curve(1, 0), record], 1_000_000);
    let result = answer.accepted().expect("the record is good");
    result.positions.ledger[19 * scenario..][..19].to_vec()
}

//! Reading a body's fields, and the first that is refused (01, "Records", "Turned down"; places as 02, request 2).

use crate::ladder::BUCKETS;

/// A refusal of a record; its place is counted from the record's first byte until the walk knows where that is.
pub struct Refusal {
    pub number: u32,
    pub place: usize,
}

impl Refusal {
    /// Of a rule that the record breaks as a whole.
    pub fn of_record(number: u32) -> Refusal {
        Refusal { number, place: 0 }
    }

    /// Of the field that begins at this byte of the body.
    pub fn of_field(number: u32, at: usize) -> Refusal {
        Refusal { number, place: at + 1 }
    }
}

pub const GREATEST_AMOUNT: i64 = 1_000_000_000;
pub const LAST_MONTH: u32 = 600;

fn two(body: &[u8], at: usize) -> u32 {
    u16::from_be_bytes([body[at], body[at + 1]]).into()
}

fn four(body: &[u8], at: usize) -> u32 {
    u32::from_be_bytes([body[at], body[at + 1], body[at + 2], body[at + 3]])
}

/// 1 for an asset or an option sold, -1 for a liability or an option bought.
pub fn side(body: &[u8]) -> Result<i64, Refusal> {
    match body[1] {
        1 => Ok(1),
        2 => Ok(-1),
        _ => Err(Refusal::of_field(4, 1)),
    }
}

pub fn months(body: &[u8], at: usize) -> Result<u32, Refusal> {
    let months = two(body, at);
    if months > LAST_MONTH {
        return Err(Refusal::of_field(5, at));
    }
    Ok(months)
}

pub fn days(body: &[u8], at: usize) -> Result<u32, Refusal> {
    if body[at] > 30 {
        return Err(Refusal::of_field(5, at));
    }
    Ok(body[at].into())
}

pub fn period(body: &[u8], at: usize) -> Result<u32, Refusal> {
    match body[at] {
        period @ (1 | 3 | 6 | 12) => Ok(period.into()),
        _ => Err(Refusal::of_field(5, at)),
    }
}

/// The last month is tested with the count.
pub fn count(body: &[u8], at: usize, start: u32, period: u32) -> Result<u32, Refusal> {
    let count = two(body, at);
    if count == 0 || start + period * count > LAST_MONTH {
        return Err(Refusal::of_field(5, at));
    }
    Ok(count)
}

pub fn amount(body: &[u8], at: usize) -> Result<i64, Refusal> {
    let amount = four(body, at).into();
    if amount > GREATEST_AMOUNT {
        return Err(Refusal::of_field(6, at));
    }
    Ok(amount)
}

/// Nineteen amounts in a row, by bucket.
pub fn amounts(body: &[u8], from: usize) -> Result<[i64; BUCKETS], Refusal> {
    let mut amounts = [0; BUCKETS];
    let fields = body[from..from + 4 * BUCKETS].chunks_exact(4);
    for (bucket, (amount, field)) in amounts.iter_mut().zip(fields).enumerate() {
        *amount = four(field, 0).into();
        if *amount > GREATEST_AMOUNT {
            return Err(Refusal::of_field(6, from + 4 * bucket));
        }
    }
    Ok(amounts)
}

pub fn option_value(body: &[u8], at: usize) -> Result<i64, Refusal> {
    let value = i64::from(four(body, at) as i32);
    if value.abs() > GREATEST_AMOUNT {
        return Err(Refusal::of_field(6, at));
    }
    Ok(value)
}

pub fn share(body: &[u8]) -> Result<u64, Refusal> {
    let share = two(body, 1);
    if share > 10_000 {
        return Err(Refusal::of_field(7, 1));
    }
    Ok(share.into())
}

pub fn rate(body: &[u8], at: usize) -> Result<i64, Refusal> {
    let rate = i64::from(four(body, at) as i32);
    if !rate_in_range(rate) {
        return Err(Refusal::of_field(13, at));
    }
    Ok(rate)
}

pub fn rate_in_range(rate: i64) -> bool {
    (-50_000..=300_000).contains(&rate)
}

pub fn shock(body: &[u8], at: usize) -> Result<i64, Refusal> {
    let shock = two(body, at);
    if shock > 1_000 {
        return Err(Refusal::of_field(13, at));
    }
    Ok(shock.into())
}

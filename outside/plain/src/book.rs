//! The walk over the book, and the kinds (01, "Records").

use crate::coupons::{add_coupons, add_floating_spread};
use crate::curve::{add_curve, add_listed_curve};
use crate::fields::{amount, amounts, days, months, option_value, side, Refusal};
use crate::holdings::{Holdings, Section, SHOCKED};
use crate::ladder::{bucket, MIDPOINTS};
use crate::loans::{add_loan, add_term_deposit};

pub fn walk(book: &[u8], holdings: &mut Holdings) -> Result<(), Refusal> {
    let mut at = 0;
    while at < book.len() {
        let kind = book[at];
        let Some(length) = body_length(kind) else { return Err(Refusal { number: 1, place: at }) };
        let Some(body) = book.get(at + 1..at + 1 + length) else { return Err(Refusal { number: 2, place: at }) };
        take(kind, body, holdings).map_err(|refusal| Refusal { place: at + refusal.place, ..refusal })?;
        at += 1 + length;
    }
    match holdings.lacks_curve() {
        Some(currency) => Err(Refusal { number: 15, place: currency }),
        None => Ok(()),
    }
}

fn body_length(kind: u8) -> Option<usize> {
    match kind {
        1 => Some(9),
        2 | 3 => Some(13),
        4 => Some(82),
        5 => Some(155),
        6 => Some(79),
        7 => Some(26),
        8 => Some(83),
        9 => Some(20),
        10 => Some(81),
        _ => None,
    }
}

fn take(kind: u8, body: &[u8], holdings: &mut Holdings) -> Result<(), Refusal> {
    let Some(section) = holdings.section(body[0]) else { return Err(Refusal::of_field(3, 0)) };
    match kind {
        1 => add_single(body, section)?,
        2 => add_coupons(body, section)?,
        3 => add_floating(body, section)?,
        4 => add_deposit(body, section)?,
        5 => add_loan(body, section)?,
        6 => add_term_deposit(body, section)?,
        7 => add_option(body, section)?,
        8 => return add_curve(body, section),
        9 => add_floating_spread(body, section)?,
        _ => return add_listed_curve(body, section),
    }
    section.used = true;
    Ok(())
}

fn add_single(body: &[u8], section: &mut Section) -> Result<(), Refusal> {
    let side = side(body)?;
    let months = months(body, 2)?;
    let days = days(body, 4)?;
    let amount = amount(body, 5)?;
    section.add_amount(bucket(months, days), side, amount)
}

/// Principal and coupon both fall at the reset.
fn add_floating(body: &[u8], section: &mut Section) -> Result<(), Refusal> {
    let side = side(body)?;
    let months = months(body, 2)?;
    let days = days(body, 4)?;
    let principal = amount(body, 5)?;
    let coupon = amount(body, 9)?;
    section.add_amount(bucket(months, days), side, principal + coupon)
}

/// A liability: each core amount in its bucket, total less core in bucket 1.
fn add_deposit(body: &[u8], section: &mut Section) -> Result<(), Refusal> {
    let (cap, average_cap) = match body[1] {
        1 => (90, 50_000),
        2 => (70, 45_000),
        3 => (50, 40_000),
        _ => return Err(Refusal::of_field(8, 1)),
    };
    let total = amount(body, 2)?;
    let core = amounts(body, 6)?;
    let sum: i64 = core.iter().sum();
    if 100 * sum > cap * total {
        return Err(Refusal::of_record(9));
    }
    let weighed: i64 = core.iter().zip(MIDPOINTS).map(|(amount, midpoint)| amount * midpoint).sum();
    if weighed > average_cap * sum {
        return Err(Refusal::of_record(10));
    }
    let mut row = core.map(|amount| -amount);
    row[0] -= total - sum;
    section.add_row(&row, total)
}

fn add_option(body: &[u8], section: &mut Section) -> Result<(), Refusal> {
    let side = side(body)?;
    let mut values = [0; SHOCKED];
    for (scenario, value) in values.iter_mut().enumerate() {
        *value = option_value(body, 2 + 4 * scenario)?;
    }
    section.add_options(side, &values)
}

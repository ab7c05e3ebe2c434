//! Whole books that are accepted, of every size.

use crate::currencies::{all, few, some_of};
use crate::draw::Draw;
use crate::position::{position, some_curve, POSITIONS};
use reference::{Kind, Record, GREATEST_GROSS, LONGEST_BOOK};
use std::collections::BTreeMap;

/// Of kind 8; kind 10 is shorter.
pub const LONGEST_CURVE: usize = 84;
/// Of kind 5.
pub const LONGEST_POSITION: usize = 156;

/// The records of a good book of at most `length` bytes in some of the currencies, shuffled.
pub fn some_records(draw: &mut Draw, currencies: Vec<i64>, length: usize) -> Vec<Record> {
    let count = draw.index(currencies.len() + 1).min(length / LONGEST_CURVE);
    let currencies = some_of(draw, currencies, count);
    in_currencies(draw, &currencies, length)
}

/// The same in all of these currencies, whose curves have to fit.
pub fn in_currencies(draw: &mut Draw, currencies: &[i64], length: usize) -> Vec<Record> {
    if currencies.is_empty() {
        return Vec::new();
    }
    let (curves, curves_length) = curves(draw, currencies);
    let kinds = kinds_up_to(draw, length - curves_length);
    assemble(draw, currencies, curves, &kinds)
}

/// The records of a good book that is as long as a book can be.
pub fn longest_records(draw: &mut Draw) -> Vec<Record> {
    let currencies = if draw.once_in(4) { all() } else { few() };
    let count = 1 + draw.index(currencies.len());
    let currencies = some_of(draw, currencies, count);
    let (curves, curves_length) = curves(draw, &currencies);
    let kinds = kinds_filling(draw, LONGEST_BOOK - curves_length);
    assemble(draw, &currencies, curves, &kinds)
}

/// A curve of either kind for each currency, and the bytes that they take.
fn curves(draw: &mut Draw, currencies: &[i64]) -> (Vec<Record>, usize) {
    let curves: Vec<Record> = currencies.iter().map(|currency| some_curve(draw, *currency)).collect();
    let length = curves.iter().map(Record::length).sum();
    (curves, length)
}

/// The curves of the currencies and one position for each kind, dealt out in turn in every other book; the limits are
/// shared out among the positions.
fn assemble(draw: &mut Draw, currencies: &[i64], curves: Vec<Record>, kinds: &[u8]) -> Vec<Record> {
    let in_turn = draw.coin();
    let mut place = |next: i64| if in_turn { next } else { draw.pick(currencies) };
    let dealt = kinds.iter().zip(currencies.iter().cycle());
    let placed: Vec<(u8, i64)> = dealt.map(|(kind, next)| (*kind, place(*next))).collect();
    let mut records = curves;
    let sharers = |currency: i64| placed.iter().filter(|(_, other)| *other == currency).count() as i64;
    let shares: BTreeMap<i64, i64> = currencies.iter().map(|currency| (*currency, sharers(*currency))).collect();
    for (kind, currency) in &placed {
        records.push(position(draw, *kind, *currency, GREATEST_GROSS / shares[currency]));
    }
    draw.shuffle(&mut records);
    records
}

fn record_length(kind: u8) -> usize {
    1 + Kind::numbered(kind).expect("a known kind").body_length()
}

/// Kinds of positions until the next one would not fit. Some books keep to two kinds, so that records get many.
fn kinds_up_to(draw: &mut Draw, length: usize) -> Vec<u8> {
    let few = [draw.pick(&POSITIONS), draw.pick(&POSITIONS)];
    let keeps_to_few = draw.once_in(3);
    let mut kinds = Vec::new();
    let mut left = length;
    loop {
        let kind = if keeps_to_few { draw.pick(&few) } else { draw.pick(&POSITIONS) };
        if record_length(kind) > left {
            return kinds;
        }
        left -= record_length(kind);
        kinds.push(kind);
    }
}

/// Kinds of positions that fill the length to the byte: the rest of 200 bytes and more is made even by one
/// add-on (27 bytes) where it is odd, then a multiple of 10 by coupons (14), then filled by single flows (10).
fn kinds_filling(draw: &mut Draw, length: usize) -> Vec<u8> {
    let mut kinds = kinds_up_to(draw, length - 200);
    let mut left = length - kinds.iter().map(|kind| record_length(*kind)).sum::<usize>();
    while left % record_length(1) != 0 {
        let kind = if left % 2 == 1 { 7 } else { 2 };
        kinds.push(kind);
        left -= record_length(kind);
    }
    kinds.extend(vec![1; left / record_length(1)]);
    kinds
}

//! Good books that draw from all currencies: any number of them, the last alone, all.

use crate::currencies::{all, LAST};
use crate::draw::Draw;
use crate::position::some_curve;
use crate::valid::{in_currencies, some_records, LONGEST_CURVE, LONGEST_POSITION};
use reference::{Record, CURRENCIES, LONGEST_BOOK};

/// The records of a good book with about `length` bytes for positions behind as many curves as there may be.
pub fn records(draw: &mut Draw, length: usize) -> Vec<Record> {
    let behind = |bytes: usize| (bytes + length).min(LONGEST_BOOK);
    match draw.between(1, 10) {
        1 => in_currencies(draw, &[LAST], behind(LONGEST_CURVE)),
        2 => curves_alone(draw),
        // So many positions that every currency has one where they are dealt out in turn.
        3..=5 => in_currencies(draw, &all(), behind(CURRENCIES * (LONGEST_CURVE + LONGEST_POSITION))),
        _ => some_records(draw, all(), behind(CURRENCIES * LONGEST_CURVE)),
    }
}

/// Every currency has its curve, and none a position.
fn curves_alone(draw: &mut Draw) -> Vec<Record> {
    let mut curves: Vec<Record> = all().into_iter().map(|currency| some_curve(draw, currency)).collect();
    draw.shuffle(&mut curves);
    curves
}

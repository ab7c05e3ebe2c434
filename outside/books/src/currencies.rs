//! Which currencies a book draws from.

use crate::draw::Draw;
use reference::CURRENCIES;

/// Where masks and arrays end.
pub const LAST: i64 = CURRENCIES as i64;

/// Most books keep to these, as most banks have few.
pub fn few() -> Vec<i64> {
    (1..=8).collect()
}

pub fn all() -> Vec<i64> {
    (1..=LAST).collect()
}

/// Any of all; the last one comes up often.
pub fn any(draw: &mut Draw) -> i64 {
    if draw.once_in(4) {
        LAST
    } else {
        draw.between(1, LAST)
    }
}

/// So many of the currencies, whichever.
pub fn some_of(draw: &mut Draw, mut currencies: Vec<i64>, count: usize) -> Vec<i64> {
    draw.shuffle(&mut currencies);
    currencies.truncate(count);
    currencies
}

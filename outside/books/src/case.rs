//! A case: one call with everything it needs.

use crate::draw::Draw;
use reference::{Record, Request, GREATEST_CAPITAL, LEDGER_CELLS, REPORT_CELLS};

/// What the generator knows of the answer, apart from the reference.
#[derive(Clone, Copy, Debug, PartialEq, Eq)]
pub enum Expected {
    Accepted,
    Refused {
        number: u8,
        place: usize,
    },
    /// Just in: whatever comes, it is not this number.
    NotRefusedWith(u8),
    Anything,
}

#[derive(Clone, Debug)]
pub struct Case {
    pub book: Vec<u8>,
    pub capital: u64,
    pub report_room: usize,
    pub ledger_room: usize,
    pub expected: Expected,
}

impl Case {
    /// A book with enough room and some capital.
    pub fn of(draw: &mut Draw, book: Vec<u8>, expected: Expected) -> Case {
        let (report_room, ledger_room) = (REPORT_CELLS + spare(draw), LEDGER_CELLS + spare(draw));
        Case { book, capital: some_capital(draw), report_room, ledger_room, expected }
    }

    pub fn request(&self) -> Request<'_> {
        let Case { book, capital, report_room, ledger_room, .. } = self;
        Request { book, capital: *capital, report_room: *report_room, ledger_room: *ledger_room }
    }

    /// What `irreport` reads: T, then the book.
    pub fn input(&self) -> Vec<u8> {
        [&self.capital.to_be_bytes()[..], &self.book].concat()
    }
}

pub fn joined(records: &[Record]) -> Vec<u8> {
    records.iter().flat_map(Record::bytes).collect()
}

/// Capital from 1 on, of every order of magnitude, the greatest one included.
fn some_capital(draw: &mut Draw) -> u64 {
    let magnitude = 10u64.pow(draw.between(0, 12) as u32).min(GREATEST_CAPITAL);
    if draw.once_in(10) {
        magnitude
    } else {
        draw.between(1, magnitude as i64) as u64
    }
}

/// Cells beyond those that are filled: often none.
fn spare(draw: &mut Draw) -> usize {
    if draw.coin() {
        0
    } else {
        draw.between(1, 40) as usize
    }
}

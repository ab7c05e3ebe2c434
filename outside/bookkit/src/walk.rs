//! The records of a book with their numbers and places.

use reference::{step, Record, Step};

pub struct Placed {
    /// Counted from 1.
    pub number: usize,
    pub place: usize,
    pub record: Record,
}

impl Placed {
    pub fn holds(&self, place: usize) -> bool {
        (self.place..self.place + self.record.length()).contains(&place)
    }
}

/// The whole records from the first byte on.
pub fn whole_records(book: &[u8]) -> Vec<Placed> {
    let mut records: Vec<Placed> = Vec::new();
    let mut place = 0;
    while let Step::Whole(record) = step(book, place) {
        let next = place + record.length();
        records.push(Placed { number: records.len() + 1, place, record });
        place = next;
    }
    records
}

/// Where the last of them ends.
pub fn end(records: &[Placed]) -> usize {
    records.last().map_or(0, |last| last.place + last.record.length())
}

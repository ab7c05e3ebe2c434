//! Damage to books: what transmission, tired fingers and bad programs do.

use crate::draw::Draw;
use reference::split;

/// The book with one to four damages.
pub fn damaged(draw: &mut Draw, mut book: Vec<u8>) -> Vec<u8> {
    for _ in 0..draw.between(1, 4) {
        book = if draw.coin() { damage_bytes(draw, book) } else { damage_records(draw, &book) };
    }
    book
}

/// A run of bytes cut off, lost, put in or overwritten, or one bit flipped.
fn damage_bytes(draw: &mut Draw, mut book: Vec<u8>) -> Vec<u8> {
    let place = draw.index(book.len() + 1);
    let noise: Vec<u8> = (0..draw.amount(12)).map(|_| draw.byte()).collect();
    let end = (place + noise.len()).min(book.len());
    match (draw.between(0, 5), book.get_mut(place)) {
        (0, _) => book.truncate(place),
        (1, _) => drop(book.drain(place..end)),
        (2, _) => drop(book.splice(place..place, noise)),
        (3, _) => drop(book.splice(place..end, noise)),
        (_, Some(byte)) => *byte ^= 1 << draw.between(0, 7),
        (_, None) => {}
    }
    book
}

/// Bytes after the last whole record stay where they are.
fn damage_records(draw: &mut Draw, book: &[u8]) -> Vec<u8> {
    let (mut records, rest) = split(book);
    if records.is_empty() {
        return book.to_vec();
    }
    let (one, other) = (draw.index(records.len()), draw.index(records.len()));
    match draw.between(0, 4) {
        0 => drop(records.remove(one)),
        1 => records.insert(other, records[one]),
        2 => records.swap(one, other),
        3 => draw.shuffle(&mut records),
        _ => return with_damaged_head(draw, &records, one, rest),
    }
    [records.concat(), rest.to_vec()].concat()
}

/// One of a record's first six bytes: kind, currency, side, and whatever stands by them.
fn with_damaged_head(draw: &mut Draw, records: &[&[u8]], one: usize, rest: &[u8]) -> Vec<u8> {
    let mut book = [records.concat(), rest.to_vec()].concat();
    let start: usize = records[..one].iter().map(|record| record.len()).sum();
    book[start + draw.index(6)] = draw.byte() >> draw.between(0, 7);
    book
}

//! The case of a seed, and the good cases among them.

use crate::aimed;
use crate::case::{joined, Case, Expected};
use crate::currencies::few;
use crate::damage::damaged;
use crate::draw::Draw;
use crate::halves;
use crate::valid;
use crate::wide;
use reference::{GREATEST_CAPITAL, LONGEST_BOOK};

/// The case of a seed: good books, books aimed at a refusal number or at a rounding's half, and damaged ones.
pub fn case(seed: u64) -> Case {
    let mut draw = Draw::seeded(seed);
    match draw.between(1, 100) {
        1..=35 => good(&mut draw),
        36..=74 => {
            let (number, out) = (draw.between(1, 20) as u8, draw.coin());
            aimed::case(&mut draw, number, out)
        }
        75 | 76 => halves::case(&mut draw),
        _ => {
            let length = draw.pick(&[200, 400, 1_000, 4_000]);
            let book = some_book(&mut draw, length);
            let book = damaged(&mut draw, book);
            Case::of(&mut draw, book, Expected::Anything)
        }
    }
}

/// A good book of any size, with capital at the verdict's edges in every other one.
pub fn good(draw: &mut Draw) -> Case {
    let book = match draw.between(1, 100) {
        1..=3 => joined(&valid::longest_records(draw)),
        4..=15 => some_book(draw, LONGEST_BOOK as i64),
        16..=40 => some_book(draw, 5_000),
        _ => some_book(draw, 700),
    };
    let mut case = Case::of(draw, book, Expected::Accepted);
    if draw.coin() {
        case.capital = capital_at_an_edge(draw, &case);
    }
    case
}

/// Few currencies in three books of four; where a book may have all, their curves come on top of the length.
fn some_book(draw: &mut Draw, greatest_length: i64) -> Vec<u8> {
    let length = draw.between(0, greatest_length) as usize;
    let records = if draw.once_in(4) { wide::records(draw, length) } else { valid::some_records(draw, few(), length) };
    joined(&records)
}

/// Capital where the verdict turns, or next to it: from over to close, or from close to within.
fn capital_at_an_edge(draw: &mut Draw, case: &Case) -> u64 {
    let answer = case.request().answer();
    let Some(result) = answer.accepted() else { return case.capital };
    let tolerance = draw.pick(&[-result.total_tolerance, result.total_tolerance]);
    let edge = 100 * (result.measure + tolerance) / 15;
    (edge + draw.between(-1, 1)).clamp(1, GREATEST_CAPITAL as i64) as u64
}

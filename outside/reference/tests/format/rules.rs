//! The table of what one field alone does not show: each row with a book, made from the worked records, that earns it.

use crate::page::{number, table};
use crate::records::{code_number, heading, worked};
use reference::{Record, Request};

const WHOLE: &str = "the record's first byte";

fn told(book: &[u8], capital: u64) -> Option<(u8, usize)> {
    Request::roomy(book, capital).answer().refused()
}

fn earned(records: &[Record]) -> Option<(u8, usize)> {
    let book: Vec<u8> = records.iter().flat_map(Record::bytes).collect();
    told(&book, 1)
}

/// Where the page says that a field of a kind begins in its record.
fn offset(kind: u8, field: &str) -> usize {
    let rows = table(&heading(kind), "Offset");
    let row = rows.iter().find(|row| row[2] == field).expect("a field of the page");
    number(&row[0]) as usize
}

/// The place as the page says it in words, and as it then is in the book, from the page's offsets.
#[test]
fn each_rule_has_its_number_and_its_place() {
    let (flow, curve, listed) = (worked(1), worked(8), worked(10));
    let cut = &flow.bytes()[..9];
    let earned = [
        told(cut, 1),
        earned(&[worked(2).with("count", 0, 101)]),
        earned(&[worked(9).with("months", 0, 589)]),
        earned(&[worked(4).with("core", 10, 451)]),
        earned(&[worked(4).with("core", 10, 449).with("core", 11, 451)]),
        earned(&[worked(5).with("interests", 9, 1)]),
        earned(&[curve.clone(), curve.clone()]),
        earned(&[curve.with("rates", 0, -50_000)]),
        earned(&[flow.with("amount", 0, 1_000_000_000), flow.with("amount", 0, 1).with("side", 0, 2)]),
        told(&flow.bytes(), 1),
        told(&[], 0),
        told(&vec![0; 65_529], 1),
        Request { report_room: 201, ..Request::roomy(&[], 1) }.answer().refused(),
        earned(&[curve.clone(), listed.with("edition", 0, 3)]),
        earned(&[curve, listed.with("code", 0, code_number("eur"))]),
    ];
    let places = [
        (WHOLE, 0),
        ("the count", offset(2, "count")),
        ("the count", offset(9, "count")),
        (WHOLE, 0),
        (WHOLE, 0),
        ("the interest of the lowest such bucket", offset(5, "interests") + 9 * 4),
        (WHOLE, 84),
        ("the rate of the lowest bucket at fault, whichever scenario", offset(8, "rates")),
        (WHOLE, 10),
        ("the lowest such currency, no byte", 1),
        ("0", 0),
        ("0", 0),
        ("0", 0),
        (WHOLE, 84),
        (WHOLE, 84),
    ];
    let said = table("## What one field alone does not show", "Refusal");
    assert_eq!(said.iter().map(|row| row[2].as_str()).collect::<Vec<_>>(), places.map(|(words, _)| words));
    let said: Vec<_> = said.iter().zip(places).map(|(row, (_, place))| Some((number(&row[0]) as u8, place))).collect();
    assert_eq!(said, earned);
}

/// The rows of 12 and 13 speak of both kinds of curve; where one of kind 8 earns them is in the table's order above.
#[test]
fn a_listed_curve_earns_12_and_13_as_a_curve_does() {
    let (curve, listed) = (worked(8).with("currency", 0, 2), worked(10));
    assert_eq!(earned(&[curve.clone(), listed.clone()]), Some((12, 84)));
    assert_eq!(earned(&[listed.clone(), curve]), Some((12, 82)));
    assert_eq!(earned(&[listed.with("rates", 0, -50_000)]), Some((13, offset(10, "rates"))));
}

/// What the page says of amounts that go together beyond their own ranges passes at equality.
#[test]
fn at_their_caps_they_pass() {
    let (flow, curve) = (worked(1), worked(8));
    assert_eq!(earned(&[worked(2).with("count", 0, 100), curve.clone()]), None);
    assert_eq!(earned(&[worked(9).with("months", 0, 588), curve.clone()]), None);
    assert_eq!(earned(&[worked(4), curve.clone()]), None);
    let whole = [flow.with("amount", 0, 999_999_999), flow.with("amount", 0, 1).with("side", 0, 2), curve];
    assert_eq!(earned(&whole), None);
}

//! The tables of fields: offset, width and name of each as the layout has them; range, refusal number and place as the
//! reference answers a record with such a value.

use crate::page::{number, table};
use crate::records::{code_number, heading, worked};
use reference::{Field, Record, Request, KINDS};

const OFFSET: usize = 0;
const BYTES: usize = 1;
const FIELD: usize = 2;
const RANGE: usize = 3;
const REFUSAL: usize = 5;
/// The range of a code.
const LISTED: &str = "as listed";

#[test]
fn the_kinds_at_a_glance() {
    let rows = table("## The records at a glance", "Kind");
    assert_eq!(rows.len(), KINDS.len());
    for (row, kind) in rows.iter().zip(&KINDS) {
        let body = kind.body_length() as i64;
        assert_eq!((number(&row[0]), row[1].as_str()), (kind.number.into(), format!("`{}`", kind.name).as_str()));
        assert_eq!((number(&row[2]), number(&row[3])), (body, body + 1), "{}", kind.name);
    }
}

#[test]
fn offsets_widths_and_names() {
    for kind in &KINDS {
        let rows = table(&heading(kind.number), "Offset");
        assert_eq!(rows[0], ["0", "1", "kind", &kind.number.to_string(), "", "1"]);
        let mut offset = 1;
        for (row, field) in rows[1..].iter().zip(kind.fields) {
            assert_eq!((number(&row[OFFSET]), row[FIELD].as_str()), (offset as i64, field.name), "{}", kind.name);
            assert_eq!(bytes_of(&row[BYTES]), (field.times, field.item.width()), "{} of {}", field.name, kind.name);
            offset += field.times * field.item.width();
        }
        assert_eq!((rows.len(), offset), (1 + kind.fields.len(), 1 + kind.body_length()), "{}", kind.name);
    }
}

fn bytes_of(cell: &str) -> (usize, usize) {
    let (times, width) = cell.split_once(" x ").unwrap_or(("1", cell));
    (number(times) as usize, number(width) as usize)
}

#[test]
fn a_value_earns_its_refusal_at_its_offset_just_outside_its_range() {
    for kind in &KINDS {
        let record = roomy(kind.number);
        for (row, field) in table(&heading(kind.number), "Offset")[1..].iter().zip(kind.fields) {
            let refusal = number(&row[REFUSAL]) as u8;
            for value in tried(&record, field, &row[RANGE]) {
                let due = !is_in(&row[RANGE], value);
                for index in [0, field.times - 1] {
                    let answer = told(&record.with(field.name, index, value));
                    let what = format!("{} {value} of {}: {answer:?}", field.name, kind.name);
                    assert_eq!(answer == Some((refusal, place(row, refusal, index))), due, "{what}");
                }
            }
        }
    }
}

/// Where the page says that a fault of a field's number is told, which for 19 and 20 is the record's first byte.
fn place(row: &[String], refusal: u8, index: usize) -> usize {
    let (_, width) = bytes_of(&row[BYTES]);
    if [19, 20].contains(&refusal) {
        0
    } else {
        number(&row[OFFSET]) as usize + index * width
    }
}

/// The page's record, changed so that no other rule gives the number of a field: one period of a month, from today on;
/// rates that every shock leaves in range.
fn roomy(kind: u8) -> Record {
    let record = worked(kind);
    let flat = |record| (0..19).fold(record, |record: Record, index| record.with("rates", index, 100_000));
    match kind {
        2 => record.with("period", 0, 1).with("count", 0, 1),
        9 => record.with("months", 0, 0).with("period", 0, 1).with("count", 0, 1),
        8 => flat(record.with("parallel", 0, 0).with("short", 0, 0).with("long", 0, 0)),
        10 => flat(record),
        _ => record,
    }
}

fn told(record: &Record) -> Option<(u8, usize)> {
    Request::roomy(&record.bytes(), 1).answer().refused()
}

/// All that one byte holds; all codes that are listed, in capitals and in small letters; else the ends of the range and of
/// what the bytes hold, and what lies beside them.
fn tried(record: &Record, field: &Field, range: &str) -> Vec<i64> {
    let (low, high) = field.item.bounds();
    if field.item.width() == 1 {
        return (low..=high).collect();
    }
    if range == LISTED {
        let small = |code: &String| code.to_ascii_lowercase();
        return listed_codes()
            .iter()
            .flat_map(|code| [code.clone(), small(code)])
            .map(|code| code_number(&code))
            .collect();
    }
    let (first, last) = range.split_once(" to ").expect("a range");
    let (first, last) = (number(first), number(last));
    // No listed shock is nil: it takes the ends of the range out of it.
    let good = if record.kind.number == 10 { [100_000; 2] } else { [first, last] };
    let edges = [low, first - 1, good[0], good[1], last + 1, high];
    edges.into_iter().filter(|value| (low..=high).contains(value)).collect()
}

fn is_in(range: &str, value: i64) -> bool {
    match range.split_once(" to ") {
        Some((first, last)) => (number(first)..=number(last)).contains(&value),
        None if range == LISTED => listed_codes().iter().any(|code| code_number(code) == value),
        None => range.replace(" or ", ", ").split(", ").any(|one| number(one) == value),
    }
}

/// Both editions of the page have them all.
fn listed_codes() -> Vec<String> {
    table(&heading(10), "Code").into_iter().map(|row| row[0].clone()).collect()
}

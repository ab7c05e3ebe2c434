//! What stands where a refusal points.

use super::expected::{expected, expected_of_record, value};
use super::{At, Finding};
use crate::figure::{grouped, with_commas};
use crate::show::record_line;
use crate::source::{Source, LONGEST_INPUT};
use crate::trade::{kind_name, span};
use crate::walk::Placed;
use reference::{is_curve, Field, Kind, CAPITAL_BYTES, GREATEST_CAPITAL, KINDS};
use std::ops::Range;

pub struct Seen {
    pub record: Option<String>,
    pub field: Option<String>,
    /// Bytes of the file, capital included.
    pub range: Option<Range<usize>>,
    pub value: String,
    pub expected: String,
    pub text: Option<String>,
}

pub fn seen(finding: &Finding, source: &Source) -> Seen {
    match &finding.at {
        At::Field { record, field, index } => of_field(finding, &finding.records[*record], field, *index),
        At::Record(record) => of_record(finding, &finding.records[*record]),
        At::UnknownKind(kind) => of_unknown_kind(finding, *kind),
        At::CutShort { kind, left } => of_cut_short(finding, kind, *left),
        At::Currency => of_currency(finding),
        At::Capital => of_capital(source),
        At::TooLong => of_too_long(source),
    }
}

fn named(number: usize, kind: &str, place: usize) -> String {
    format!("{}, counted from 1; {kind}; it begins at place {place}", grouped(number as i64))
}

fn named_kind(kind: &Kind) -> String {
    format!("kind {}, {}", kind.number, kind_name(kind.number))
}

fn bytes_of(place: usize, length: usize) -> Option<Range<usize>> {
    Some(CAPITAL_BYTES + place..CAPITAL_BYTES + place + length)
}

fn of_field(finding: &Finding, placed: &Placed, field: &'static Field, index: usize) -> Seen {
    let record = &placed.record;
    let place = placed.place + record.kind.place_of(field.name, index);
    let width = field.item.width();
    let by_bucket = field.times > 1 && field.counted_by() == "bucket";
    let span = if by_bucket { format!(" ({})", span(index)) } else { String::new() };
    let bytes = if width == 1 { "1 byte".to_string() } else { format!("{width} bytes") };
    Seen {
        record: Some(named(placed.number, &named_kind(record.kind), placed.place)),
        field: Some(format!("{}{}{span}, place {place}, {bytes}", field.name, field.which(index))),
        range: bytes_of(place, width),
        value: value(record, field, index),
        expected: expected(finding.refused.number, record, field, index),
        text: Some(record_line(record)),
    }
}

fn of_record(finding: &Finding, placed: &Placed) -> Seen {
    let record = &placed.record;
    let is_earlier =
        |other: &&Placed| is_curve(other.record.kind) && other.record.one("currency") == record.one("currency");
    let value = match (finding.refused.number, finding.records.iter().find(is_earlier)) {
        (12, Some(earlier)) => {
            format!(
                "a curve of currency {}, which record {} has at place {} already",
                record.one("currency"),
                earlier.number,
                earlier.place
            )
        }
        _ => "the record as a whole, as its text below says".to_string(),
    };
    Seen {
        record: Some(named(placed.number, &named_kind(record.kind), placed.place)),
        field: None,
        range: bytes_of(placed.place, record.length()),
        value,
        expected: expected_of_record(finding.refused.number).to_string(),
        text: Some(record_line(record)),
    }
}

fn of_unknown_kind(finding: &Finding, kind: u8) -> Seen {
    let place = finding.refused.place;
    Seen {
        record: Some(named(finding.records.len() + 1, "of no kind", place)),
        field: Some(format!("kind, place {place}, 1 byte")),
        range: bytes_of(place, 1),
        value: kind.to_string(),
        expected: format!("1 to {}", KINDS.len()),
        text: None,
    }
}

fn of_cut_short(finding: &Finding, kind: &'static Kind, left: usize) -> Seen {
    let place = finding.refused.place;
    Seen {
        record: Some(named(finding.records.len() + 1, &named_kind(kind), place)),
        field: None,
        range: bytes_of(place, 1 + left),
        value: format!("a body of {left} bytes, and then the book's end"),
        expected: format!("a body of {} bytes", kind.body_length()),
        text: None,
    }
}

/// 15: the first record that uses the currency, and the curves that there are.
fn of_currency(finding: &Finding) -> Seen {
    let currency = finding.refused.place as i64;
    let user = finding.records.iter().find(|placed| placed.record.one("currency") == currency);
    let curves = finding.records.iter().filter(|placed| is_curve(placed.record.kind));
    let curves: Vec<String> = curves.map(|placed| placed.record.one("currency").to_string()).collect();
    let value = match &curves[..] {
        [] => "no curve at all".to_string(),
        [only] => format!("a curve of currency {only} alone"),
        _ => format!("curves of the currencies {} alone", curves.join(", ")),
    };
    Seen {
        record: user
            .map(|user| named(user.number, &named_kind(user.record.kind), user.place) + ", the first of this currency"),
        field: None,
        range: user.and_then(|user| bytes_of(user.place, user.record.length())),
        value,
        expected: format!("a curve of currency {currency}, of kind 8 or 10"),
        text: user.map(|user| record_line(&user.record)),
    }
}

fn of_capital(source: &Source) -> Seen {
    let value = match source.capital() {
        Some(capital) => with_commas(&capital.to_string()),
        None => format!("{}, too few for capital", source.size()),
    };
    Seen {
        record: None,
        field: Some(format!("Tier 1 capital, the first {CAPITAL_BYTES} bytes of the file")),
        range: Some(0..CAPITAL_BYTES),
        value,
        expected: format!("1 to {} thousand", grouped(GREATEST_CAPITAL as i64)),
        text: None,
    }
}

fn of_too_long(source: &Source) -> Seen {
    let expected = format!("at most {} bytes", grouped(LONGEST_INPUT as i64));
    Seen { record: None, field: None, range: None, value: source.size(), expected, text: None }
}

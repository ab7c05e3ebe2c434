//! What a field holds, and what it should have held.

use crate::figure::grouped;
use crate::plain::plain;
use reference::{Code, Field, Item, Kind, Record, LAST_MONTH};

/// The number in a field, and for a code its letters.
pub fn value(record: &Record, field: &Field, index: usize) -> String {
    let value = record.all(field.name)[index];
    match field.item {
        Item::Code => format!("\"{}\"", plain(&Code::of_number(value).0)),
        _ => grouped(value),
    }
}

/// What is expected in a field that earned a number. A field in its range earned it together with others.
pub fn expected(number: u8, record: &Record, field: &Field, index: usize) -> String {
    let (_, allowed) = field.item.allowed();
    let in_range = allowed.contains(&record.all(field.name)[index]);
    let range = format!("{} to {}", grouped(*allowed.start()), grouped(*allowed.end()));
    match (number, field.item) {
        (_, Item::Period) => "1, 3, 6 or 12".to_string(),
        (_, Item::Side) => sides(record.kind).to_string(),
        (_, Item::Code) => "a code of three capital letters that the edition lists, as EUR".to_string(),
        (11, _) => "0, or scheduled principal in this bucket or a later one".to_string(),
        (5, Item::Count) if in_range => last_month(record),
        (13, Item::Rate) if in_range => format!("a rate that stays within {range} in every scenario"),
        _ => format!("{range}{}", unit(field.item)),
    }
}

/// What is expected of a record that earned a number as a whole.
pub fn expected_of_record(number: u8) -> &'static str {
    match number {
        9 => "a core of at most 90, 70 or 50 per cent of the total, for category 1, 2 or 3",
        10 => "an average midpoint of the core of at most 5, 4.5 or 4 years, for category 1, 2 or 3",
        12 => "one curve for each currency",
        _ => "magnitudes of at most 1,000,000,000 thousand in one currency and scenario, this record and those before it added",
    }
}

fn sides(kind: &Kind) -> &'static str {
    match kind.number {
        7 => "1 (sold) or 2 (bought)",
        _ => "1 (asset) or 2 (liability)",
    }
}

fn last_month(record: &Record) -> String {
    let reset = if record.kind.fields.iter().any(|field| field.name == "months") { "months plus " } else { "" };
    format!("so few that {reset}period times count is at most {LAST_MONTH} months")
}

fn unit(item: Item) -> &'static str {
    match item {
        Item::Amount | Item::OptionValue => " thousand",
        Item::Share => " hundredths of a per cent",
        Item::Rate => " millionths",
        Item::Shock => " basis points",
        _ => "",
    }
}

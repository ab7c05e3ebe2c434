//! A refusal in words: which record and field it is about, what stands there, and what was expected. It is put together from
//! the number, the place and the bytes; that the book is turned down, and where, is `irdetail`'s finding alone.

mod bytes;
mod expected;
mod rows;
mod seen;

pub use rows::{before, rows};

use crate::detail::Refused;
use crate::explain::{explanation, Explanation};
use crate::source::Source;
use crate::walk::{end, whole_records, Placed};
use reference::{is_curve, step, Field, Kind, Step, CURRENCIES, GREATEST_CAPITAL};

pub struct Finding {
    pub refused: Refused,
    explanation: &'static Explanation,
    /// The whole records of the book.
    records: Vec<Placed>,
    at: At,
}

/// What a refusal is about. Records are given by their place among the whole ones, from 0.
enum At {
    Field { record: usize, field: &'static Field, index: usize },
    Record(usize),
    UnknownKind(u8),
    CutShort { kind: &'static Kind, left: usize },
    Currency,
    Capital,
    TooLong,
}

impl Finding {
    /// Nothing where the number cannot be told at that place of this input.
    pub fn of(refused: Refused, source: &Source) -> Option<Finding> {
        let records = whole_records(source.book());
        let explanation = explanation(refused.number)?;
        let at = match (refused.number, refused.place) {
            (15, 1..=CURRENCIES) => At::Currency,
            (16, 0) if !has_good_capital(source) => At::Capital,
            (17, 0) if source.is_too_long() => At::TooLong,
            (15..=18, _) => return None,
            (1 | 2, place) if place != end(&records) => return None,
            (1, place) => unknown_kind(source.book(), place)?,
            (2, place) => cut_short(source.book(), place)?,
            _ => of_record(refused, &records)?,
        };
        Some(Finding { refused, explanation, records, at })
    }

    /// How many whole records lie before the one at fault; nothing where no record is.
    fn at_fault(&self) -> Option<usize> {
        match self.at {
            At::Field { record, .. } | At::Record(record) => Some(record),
            At::UnknownKind(_) | At::CutShort { .. } => Some(self.records.len()),
            At::Currency | At::Capital | At::TooLong => None,
        }
    }

    pub fn called(&self) -> &'static str {
        self.explanation.called()
    }

    pub fn meaning(&self) -> &'static str {
        self.explanation.meaning
    }

    pub fn look_at(&self) -> &'static str {
        self.explanation.look_at
    }

    pub fn causes(&self) -> &'static [&'static str] {
        self.explanation.causes
    }
}

fn has_good_capital(source: &Source) -> bool {
    source.capital().is_some_and(|capital| (1..=GREATEST_CAPITAL).contains(&capital))
}

fn unknown_kind(book: &[u8], place: usize) -> Option<At> {
    match step(book, place) {
        Step::UnknownKind(kind) => Some(At::UnknownKind(kind)),
        _ => None,
    }
}

fn cut_short(book: &[u8], place: usize) -> Option<At> {
    match step(book, place) {
        Step::CutShort { kind, left } => Some(At::CutShort { kind, left }),
        _ => None,
    }
}

/// 19 and 20 are told at their record, and it is known which field earns them.
fn of_record(refused: Refused, records: &[Placed]) -> Option<At> {
    let record = records.iter().position(|placed| placed.holds(refused.place))?;
    let placed = &records[record];
    let within = refused.place - placed.place;
    let kind = placed.record.kind;
    let named = |name: &str| kind.fields.iter().find(|field| field.name == name);
    let (field, index) = match (refused.number, within) {
        (9 | 10, 0) => return named("core").map(|_| At::Record(record)),
        (12, 0) => return is_curve(kind).then_some(At::Record(record)),
        (14, 0) => return (!is_curve(kind)).then_some(At::Record(record)),
        (19, 0) => (named("edition")?, 0),
        (20, 0) => (named("code")?, 0),
        (3..=8 | 11 | 13, _) => kind.begins_at(within).filter(|(field, _)| earns(field, refused.number))?,
        _ => return None,
    };
    Some(At::Field { record, field, index })
}

/// Interest without principal is in its range, and earns its number by what it lacks.
fn earns(field: &Field, number: u8) -> bool {
    match number {
        11 => field.name == "interests",
        _ => field.item.allowed().0 == number,
    }
}

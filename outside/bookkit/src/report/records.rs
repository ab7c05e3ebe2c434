//! What the input is, and which records were taken from it: so that a lost one is seen.

use crate::detail::{Currency, Figures};
use crate::document::{Column, Part, Section, Table};
use crate::figure::grouped;
use crate::source::Source;
use crate::trade::kind_name;
use reference::KINDS;

/// What tells this input from another.
pub fn input(source: &Source, records: Option<i64>) -> Section {
    let digest = source.digest().unwrap_or_else(|| "none was taken: no more was read than irdetail takes".to_string());
    let rows = [
        ("File", Some(source.name.clone())),
        ("Size", Some(source.size())),
        ("SHA-256", Some(digest)),
        ("Records taken", records.map(grouped)),
    ];
    let rows = rows.into_iter().filter_map(|(what, told)| Some(vec![what.to_string(), told?])).collect();
    let columns = vec![Column::words("What"), Column::sentences("Of this input")];
    let caption = "Compare with the source: another size or another SHA-256 is another input.".to_string();
    Section::new("input", "Input", vec![Part::Table(Table { caption, columns, rows })])
}

pub fn section(figures: &Figures) -> Section {
    let said = format!("{} records were taken in all, as follows.", grouped(figures.records));
    let kinds = KINDS.iter().map(|kind| Column::figures(format!("{} {}", kind.number, kind_name(kind.number))));
    let columns = [Column::words("Currency")].into_iter().chain(kinds).collect();
    let rows = figures.currencies.iter().map(of_currency).collect();
    let table = Table { caption: "Records by currency and kind.".to_string(), columns, rows };
    let parts = match figures.currencies.is_empty() {
        true => vec![Part::sentence("No record was taken: the book is empty.")],
        false => vec![Part::Sentence(said), Part::Table(table)],
    };
    Section::new("records", "Records", parts)
}

fn of_currency(currency: &Currency) -> Vec<String> {
    [currency.number.to_string()].into_iter().chain(currency.taken.iter().map(|count| grouped(*count))).collect()
}

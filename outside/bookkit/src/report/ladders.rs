//! The net flows and the rates of a currency, bucket by bucket.

use crate::detail::Currency;
use crate::document::{Column, Laid, Part, Section, Table};
use crate::draw;
use crate::figure::{grouped, per_cent};
use crate::trade::{scenario, span};
use reference::{BUCKETS, SCENARIOS};

/// Everything: all seven scenarios, and the pictures of them.
pub fn whole(currency: &Currency, worst: usize) -> Section {
    let flows = "Net flows by bucket in every scenario; what comes in is plus, what goes out minus. Thousands.";
    let rates = "Rates by bucket in every scenario, per cent.";
    let scenarios: Vec<usize> = (0..=SCENARIOS).collect();
    let parts = vec![
        Part::pictures(vec![draw::ladder(currency, worst)], Laid::Stacked, &draw::how_to_read_ladder(worst)),
        Part::Table(table(flows, &[column_set(&currency.flows, &scenarios, "", grouped)])),
        Part::pictures(vec![draw::curves(currency)], Laid::Stacked, &draw::how_to_read_curves()),
        Part::Table(table(rates, &[column_set(&currency.rates, &scenarios, "", per_cent)])),
    ];
    section(currency, parts)
}

/// The base and the worst scenario, flows and rates side by side.
pub fn short(currency: &Currency, worst: usize) -> Section {
    let scenarios: Vec<usize> = [0].into_iter().chain((worst > 0).then_some(worst)).collect();
    let flows = column_set(&currency.flows, &scenarios, "flow in ", grouped);
    let rates = column_set(&currency.rates, &scenarios, "rate in ", per_cent);
    let caption =
        "Net flows in thousands (what comes in is plus) and rates in per cent, in the base and in the worst scenario.";
    section(currency, vec![Part::Table(table(caption, &[flows, rates]))])
}

fn section(currency: &Currency, parts: Vec<Part>) -> Section {
    let number = currency.number;
    Section::new(&format!("currency-{number}"), &format!("Currency {number}"), parts)
}

/// Columns that belong together: their heads, and the figures of each bucket.
struct ColumnSet {
    heads: Vec<String>,
    rows: Vec<Vec<String>>,
}

fn column_set(
    figures: &[[i64; BUCKETS]; SCENARIOS + 1],
    scenarios: &[usize],
    head: &str,
    written: fn(i64) -> String,
) -> ColumnSet {
    let of_bucket = |bucket: usize| scenarios.iter().map(|number| written(figures[*number][bucket])).collect();
    let heads = scenarios.iter().map(|number| format!("{head}{}", scenario(*number))).collect();
    ColumnSet { heads, rows: (0..BUCKETS).map(of_bucket).collect() }
}

fn table(caption: &str, sets: &[ColumnSet]) -> Table {
    let heads = sets.iter().flat_map(|set| &set.heads).map(|head| Column::figures(head.as_str()));
    let columns = [Column::figures("Bucket"), Column::words("Span")].into_iter().chain(heads).collect();
    let row = |bucket: usize| {
        let heads = [(bucket + 1).to_string(), span(bucket)];
        heads.into_iter().chain(sets.iter().flat_map(|set| set.rows[bucket].clone())).collect()
    };
    Table { caption: caption.to_string(), columns, rows: (0..BUCKETS).map(row).collect() }
}

//! The changes in economic value by scenario and currency, with their tolerances, and the add-ons in them.

use crate::detail::{Currency, Figures};
use crate::document::{Column, Laid, Part, Section, Table};
use crate::draw;
use crate::figure::grouped;
use crate::trade::scenario;
use reference::SCENARIOS;

pub fn section(figures: &Figures) -> Section {
    let said = "A loss is plus, a gain minus, option add-ons included. The sums add the losses over currencies: a gain in one \
                currency is not set against a loss in another. The greatest sum is the measure.";
    let pictures = [vec![draw::sums(figures)], draw::changes(&figures.currencies)].into_iter().flatten();
    let parts = vec![
        Part::sentence(said),
        Part::pictures(pictures.collect(), Laid::SideBySide, draw::HOW_TO_READ_BARS),
        Part::Table(table(figures)),
    ];
    Section::new("changes", "Changes in economic value", parts)
}

fn table(figures: &Figures) -> Table {
    let mut rows: Vec<Vec<String>> = figures.currencies.iter().flat_map(of_currency).collect();
    rows.push(row("sum".to_string(), &figures.sums));
    let caption =
        "Changes by currency, and beneath each, after ±, its tolerance: the exact change is at most so far from it. \
                   Thousands.";
    Table { caption: caption.to_string(), columns: by_scenario("Currency"), rows }
}

fn of_currency(currency: &Currency) -> [Vec<String>; 2] {
    let number = currency.number;
    [row(number.to_string(), &currency.changes), row(format!("{number} ±"), &currency.tolerances)]
}

/// A column for the head of each row, and one for each scenario.
fn by_scenario(head: &str) -> Vec<Column> {
    let scenarios = (1..=SCENARIOS).map(|number| Column::figures(scenario(number)));
    [Column::words(head)].into_iter().chain(scenarios).collect()
}

fn row(head: String, figures: &[i64]) -> Vec<String> {
    [head].into_iter().chain(figures.iter().map(|figure| grouped(*figure))).collect()
}

/// The option add-ons, where there are any.
pub fn add_ons(figures: &Figures) -> Option<Section> {
    let with = figures.currencies.iter().filter(|currency| currency.add_ons.iter().any(|add_on| *add_on != 0));
    let rows: Vec<Vec<String>> = with.map(|currency| row(currency.number.to_string(), &currency.add_ons)).collect();
    let caption = "Option add-ons by currency, as they are in the changes above: a loss is plus. Currencies without any are left \
                   out. Thousands.";
    let table = Table { caption: caption.to_string(), columns: by_scenario("Currency"), rows };
    (!table.rows.is_empty()).then(|| Section::new("add-ons", "Option add-ons", vec![Part::Table(table)]))
}

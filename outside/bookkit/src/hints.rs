//! What looks odd in an accepted book. Hints change nothing: the verdict stands as `irdetail` gave it.

use crate::assessed::{Assessed, Outcome};
use crate::detail::{Currency, Figures};
use crate::figure::{grouped, per_cent};
use crate::source::Source;
use crate::trade::{kind_name, LISTED_CURVE, RECOLLECTED};
use crate::walk::whole_records;
use reference::{is_curve, Code, KINDS};

/// Capital above so many times all flows taken together is likely to be in units.
const FAR_ABOVE: i128 = 10;
/// Rates in basis points hardly go further from nought than this; in millionths hardly any curve stays so near.
const NEAR_NOUGHT: std::ops::RangeInclusive<i64> = -1_000..=1_000;

/// None for a book that was turned down: it has no figures.
pub fn hints(assessed: &Assessed) -> Vec<String> {
    let Outcome::Accepted(figures) = &assessed.outcome else { return Vec::new() };
    let mut found: Vec<String> = empty(figures).into_iter().chain(capital_in_units(figures)).collect();
    found.extend(figures.currencies.iter().filter_map(curve_alone));
    found.extend(figures.currencies.iter().filter_map(rates_in_basis_points));
    found.extend(recollected(&assessed.source));
    found
}

fn empty(figures: &Figures) -> Option<String> {
    let said = "The book is empty: 0 records were taken. Look whether the export wrote anything after the capital.";
    (figures.records == 0).then(|| said.to_string())
}

fn capital_in_units(figures: &Figures) -> Option<String> {
    let flows =
        || figures.currencies.iter().flat_map(|currency| currency.flows[0].iter().map(move |flow| (currency, *flow)));
    let together: i128 = flows().map(|(_, flow)| i128::from(flow.unsigned_abs())).sum();
    let (currency, greatest) = flows().max_by_key(|(_, flow)| flow.unsigned_abs()).filter(|(_, flow)| *flow != 0)?;
    (i128::from(figures.capital) > FAR_ABOVE * together).then(|| {
        format!(
            "Tier 1 capital of {} thousand is more than ten times all base net flows together, the greatest of which is {} \
             thousand, in currency {}. Look whether capital was given in units in place of thousands.",
            grouped(figures.capital),
            grouped(greatest),
            currency.number
        )
    })
}

fn curve_alone(currency: &Currency) -> Option<String> {
    let taken = || KINDS.iter().zip(currency.taken).filter(|(_, count)| *count > 0);
    let said: Vec<String> =
        taken().map(|(kind, count)| format!("{} {}", grouped(count), kind_name(kind.number))).collect();
    taken().all(|(kind, _)| is_curve(kind)).then(|| {
        format!(
            "Currency {} has a curve and no position; its records are: {}. Look for positions that were lost, or that carry \
             another currency's number.",
            currency.number,
            said.join(", ")
        )
    })
}

fn rates_in_basis_points(currency: &Currency) -> Option<String> {
    let rates = currency.rates[0];
    let (lowest, highest) = (rates.iter().min()?, rates.iter().max()?);
    let near = rates.iter().all(|rate| NEAR_NOUGHT.contains(rate)) && rates.iter().any(|rate| *rate != 0);
    near.then(|| {
        format!(
            "The base rates of currency {} go from {} to {} millionths, which is {} to {} per cent. Look whether they were \
             given in basis points: 200 basis points is 20,000 millionths.",
            currency.number,
            grouped(*lowest),
            grouped(*highest),
            per_cent(*lowest),
            per_cent(*highest)
        )
    })
}

/// The edition stands in the book alone: `irdetail` prints the shocked rates and not where the shocks are from.
fn recollected(source: &Source) -> Vec<String> {
    let records = whole_records(source.book()).into_iter().map(|placed| placed.record);
    let second = records.filter(|record| record.kind.number == LISTED_CURVE && record.one("edition") == 2);
    let said = second.map(|record| {
        let Code(code) = Code::of_number(record.one("code"));
        let (currency, code) = (record.one("currency"), code.escape_ascii());
        format!("Currency {currency} has the shocks that edition 2 lists for {code}: {RECOLLECTED}.")
    });
    said.collect()
}

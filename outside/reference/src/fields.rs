//! The fields of a record, judged one after the other as laid out (01, "Turned down": 3 to 8, 12, 13; 02, request 5: 19,
//! 20), each told at its own place (02, request 2).

use crate::curve::{is_curve, shocks};
use crate::layout::{Field, Item, Kind, Record, CURRENCIES};
use crate::refusal::{demand, Fault};
use crate::shock_lists::Code;
use std::ops::RangeInclusive;

/// Rates and shocked rates alike, in millionths.
pub const RATES: RangeInclusive<i64> = -50_000..=300_000;
pub const LAST_MONTH: i64 = 600;
const GREATEST_AMOUNT: i64 = 1_000_000_000;
const FLOATING_SPREAD: u8 = 9;

/// Judges every field in turn. `has_curve` says whether a currency has a curve from an earlier record.
pub fn check_fields(record: &Record, has_curve: impl Fn(i64) -> bool) -> Result<(), Fault> {
    for field in record.kind.fields {
        for (index, value) in record.all(field.name).iter().enumerate() {
            check_value(record, field, index, *value)
                .map_err(|fault| fault.within(told_at(record.kind, field, index)))?;
        }
        // "In a curve 12 comes after the currency."
        if is_curve(record.kind) && field.item == Item::Currency {
            let currency = record.one("currency");
            demand(!has_curve(currency), 12, || format!("currency {currency} has a curve already"))?;
        }
    }
    Ok(())
}

/// Where in the record a field's fault is told: at the field, but for 19 and 20, which are told of the record.
fn told_at(kind: &Kind, field: &Field, index: usize) -> usize {
    match field.item {
        Item::Edition | Item::Code => 0,
        _ => kind.place_of(field.name, index),
    }
}

impl Item {
    /// The refusal number of a value out of range, and the range. Not all of it is good for a period, a count or a code.
    pub fn allowed(self) -> (u8, RangeInclusive<i64>) {
        match self {
            Item::Currency => (3, 1..=CURRENCIES as i64),
            Item::Side => (4, 1..=2),
            Item::Months => (5, 0..=LAST_MONTH),
            Item::Days => (5, 0..=30),
            Item::Period => (5, 1..=12),
            Item::Count => (5, 1..=LAST_MONTH),
            Item::Amount => (6, 0..=GREATEST_AMOUNT),
            Item::OptionValue => (6, -GREATEST_AMOUNT..=GREATEST_AMOUNT),
            Item::Share => (7, 0..=10_000),
            Item::Category => (8, 1..=3),
            Item::Rate => (13, RATES),
            Item::Shock => (13, 0..=1_000),
            Item::Edition => (19, 1..=2),
            Item::Code => (20, 0..=0xff_ff_ff),
        }
    }
}

fn check_value(record: &Record, field: &Field, index: usize, value: i64) -> Result<(), Fault> {
    if field.item == Item::Period {
        return check_period(value);
    }
    let (number, allowed) = field.item.allowed();
    demand(allowed.contains(&value), number, || {
        let (name, which) = (field.name, field.which(index));
        format!("{name}{which} is {value}, outside {} to {}", allowed.start(), allowed.end())
    })?;
    match field.item {
        Item::Count => check_last_month(record, value),
        Item::Code => check_code(record),
        _ => Ok(()),
    }
}

/// The edition, which stands before the code, has been checked.
fn check_code(record: &Record) -> Result<(), Fault> {
    demand(shocks(record).is_some(), 20, || {
        let code = Code::of_number(record.one("code"));
        format!("code \"{}\" is not listed in edition {}", code.0.escape_ascii(), record.one("edition"))
    })
}

fn check_period(period: i64) -> Result<(), Fault> {
    demand([1, 3, 6, 12].contains(&period), 5, || format!("period is {period}, not 1, 3, 6 or 12"))
}

/// Months from which a record counts its periods: from the reset of a floating position, else from today.
pub fn periods_start(record: &Record) -> i64 {
    if record.kind.number == FLOATING_SPREAD {
        record.one("months")
    } else {
        0
    }
}

/// The last month is tested with the count, hence before what is laid out after it.
fn check_last_month(record: &Record, count: i64) -> Result<(), Fault> {
    let (start, period) = (periods_start(record), record.one("period"));
    let last = start + period * count;
    demand(last <= LAST_MONTH, 5, || {
        let after = if start == 0 { String::new() } else { format!(" after {start} months") };
        format!("period {period} times count {count}{after} ends at {last} months, above {LAST_MONTH}")
    })
}

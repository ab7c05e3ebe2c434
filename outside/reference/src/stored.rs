//! Reports that were stored before request 7 of 02, over 8 currencies, as such over 32.

use crate::layout::{CURRENCIES, SCENARIOS};
use crate::refusal::{demand, Refusal};
use crate::report::{report_cells, REPORT_CELLS};

pub const STORED_CURRENCIES: usize = 8;
pub const STORED_CELLS: usize = report_cells(STORED_CURRENCIES);

/// The changes of a stored report, and those that a report has beyond them.
const FIRST: usize = STORED_CURRENCIES * SCENARIOS;
const ADDED: usize = CURRENCIES * SCENARIOS - FIRST;

/// Fills the first 202 cells of the report's room with the first 48 of the stored numbers, 144 zeros and the last ten,
/// whatever they are. Where 58 are not given, or the room is too short, it is 18, and the room stays as it was.
pub fn widen(stored: &[i64], report: &mut [i64]) -> Result<(), Refusal> {
    let (given, room) = (stored.len(), report.len());
    demand(given == STORED_CELLS && room >= REPORT_CELLS, 18, || {
        format!("{given} stored cells and room for {room}; {STORED_CELLS} and {REPORT_CELLS} are needed")
    })
    .map_err(|fault| fault.at(0))?;
    let (first, last) = stored.split_at(FIRST);
    report[..REPORT_CELLS].copy_from_slice(&[first, &[0; ADDED], last].concat());
    Ok(())
}

//! What the records have come to so far, currency by currency, and the limits of 14.

use crate::fields::{Refusal, GREATEST_AMOUNT};
use crate::ladder::BUCKETS;

pub const CURRENCIES: usize = 32;
/// The base and the six scenarios.
pub const SCENARIOS: usize = 7;
/// The scenarios that shock the curve.
pub const SHOCKED: usize = 6;
pub const SECTION: usize = SCENARIOS * BUCKETS;
pub const LEDGER_CELLS: usize = CURRENCIES * SECTION;

/// A section for each currency that has come up: a book in one of them has nothing to clear for the others.
pub struct Holdings {
    pub sections: [Option<Box<Section>>; CURRENCIES],
}

/// What the records of one currency have come to.
pub struct Section {
    pub flows: [[i64; BUCKETS]; SCENARIOS],
    pub rates: [[i64; BUCKETS]; SCENARIOS],
    pub add_ons: [i64; SHOCKED],
    gross_flows: [i64; SCENARIOS],
    gross_options: [i64; SHOCKED],
    pub used: bool,
    pub curved: bool,
}

impl Holdings {
    pub fn new() -> Holdings {
        Holdings { sections: [const { None }; CURRENCIES] }
    }

    /// The section of a currency, 1 to 32.
    pub fn section(&mut self, currency: u8) -> Option<&mut Section> {
        let section = self.sections.get_mut(usize::from(currency).wrapping_sub(1))?;
        Some(section.get_or_insert_with(|| Box::new(Section::new())))
    }

    /// The lowest currency that is used and has no curve.
    pub fn lacks_curve(&self) -> Option<usize> {
        let lacks = |section: &Section| section.used && !section.curved;
        let index = self.sections.iter().position(|section| section.as_deref().is_some_and(lacks))?;
        Some(index + 1)
    }

    /// Zeros for a currency that has not come up.
    pub fn write_flows(&self, ledger: &mut [i64]) {
        for (cells, section) in ledger.chunks_exact_mut(SECTION).zip(&self.sections) {
            match section {
                Some(section) => cells.copy_from_slice(section.flows.as_flattened()),
                None => cells.fill(0),
            }
        }
    }
}

impl Section {
    fn new() -> Section {
        Section {
            flows: [[0; BUCKETS]; SCENARIOS],
            rates: [[0; BUCKETS]; SCENARIOS],
            add_ons: [0; SHOCKED],
            gross_flows: [0; SCENARIOS],
            gross_options: [0; SHOCKED],
            used: false,
            curved: false,
        }
    }

    /// One amount in one bucket of every scenario.
    pub fn add_amount(&mut self, bucket: usize, side: i64, amount: i64) -> Result<(), Refusal> {
        self.add_gross(amount)?;
        let flow = side * amount;
        for cells in &mut self.flows {
            cells[bucket] += flow;
        }
        Ok(())
    }

    /// The same nineteen flows, which come to `gross`, in every scenario.
    pub fn add_row(&mut self, row: &[i64; BUCKETS], gross: i64) -> Result<(), Refusal> {
        self.add_gross(gross)?;
        for cells in &mut self.flows {
            add(cells, row);
        }
        Ok(())
    }

    /// In each scenario one of three rows; `gross` is what each of the three comes to.
    pub fn add_rows(
        &mut self,
        which: &[usize; SCENARIOS],
        rows: &[[i64; BUCKETS]; 3],
        gross: &[i64; 3],
    ) -> Result<(), Refusal> {
        for (sum, row) in self.gross_flows.iter_mut().zip(which) {
            grow(sum, gross[*row])?;
        }
        for (cells, row) in self.flows.iter_mut().zip(which) {
            add(cells, &rows[*row]);
        }
        Ok(())
    }

    pub fn add_options(&mut self, side: i64, values: &[i64; SHOCKED]) -> Result<(), Refusal> {
        for scenario in 0..SHOCKED {
            grow(&mut self.gross_options[scenario], values[scenario].abs())?;
            self.add_ons[scenario] += side * values[scenario];
        }
        Ok(())
    }

    fn add_gross(&mut self, gross: i64) -> Result<(), Refusal> {
        for sum in &mut self.gross_flows {
            grow(sum, gross)?;
        }
        Ok(())
    }
}

/// A refused book leaves nothing behind, so what was added before the refusal does no harm.
fn grow(sum: &mut i64, more: i64) -> Result<(), Refusal> {
    *sum += more;
    if *sum > GREATEST_AMOUNT {
        return Err(Refusal::of_record(14));
    }
    Ok(())
}

fn add(cells: &mut [i64; BUCKETS], row: &[i64; BUCKETS]) {
    for (cell, flow) in cells.iter_mut().zip(row) {
        *cell += flow;
    }
}

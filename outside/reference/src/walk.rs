//! The walk over the book, record by record (01, "Records", "Turned down").

use crate::curve::{is_curve, Curve};
use crate::fields::check_fields;
use crate::flows::{check_record, flows, Flows, GREATEST_GROSS};
use crate::ladder::BUCKETS;
use crate::layout::{step, Record, Step, CURRENCIES, KINDS, SCENARIOS};
use crate::refusal::{demand, Fault, Refusal};

pub const LEDGER_CELLS: usize = CURRENCIES * (SCENARIOS + 1) * BUCKETS;

/// The ledger's cell of a net flow. Currency and bucket are counted from 0; scenario 0 is the base.
pub fn cell(currency: usize, scenario: usize, bucket: usize) -> usize {
    133 * currency + 19 * scenario + bucket
}

/// What the records of an accepted book come to.
#[derive(Clone, Debug)]
pub struct Positions {
    pub ledger: Vec<i64>,
    pub curves: [Option<Curve>; CURRENCIES],
    pub add_ons: [[i64; SCENARIOS]; CURRENCIES],
    used: [bool; CURRENCIES],
    gross_flows: [[i64; SCENARIOS + 1]; CURRENCIES],
    gross_options: [[i64; SCENARIOS]; CURRENCIES],
}

pub fn walk(book: &[u8]) -> Result<Positions, Refusal> {
    let mut positions = Positions::none();
    let mut place = 0;
    loop {
        match step(book, place) {
            Step::End => break,
            Step::Whole(record) => {
                positions.take(&record).map_err(|fault| fault.at(place))?;
                place += record.length();
            }
            Step::UnknownKind(number) => {
                let because = format!("kind is {number}, outside 1 to {}", KINDS.len());
                return Err(Fault::of_record(1, because).at(place));
            }
            Step::CutShort { kind, left } => {
                let because =
                    format!("the body of a {} has {} bytes and {left} are left", kind.name, kind.body_length());
                return Err(Fault::of_record(2, because).at(place));
            }
        }
    }
    positions.check_curves()?;
    Ok(positions)
}

impl Positions {
    fn none() -> Positions {
        Positions {
            ledger: vec![0; LEDGER_CELLS],
            curves: std::array::from_fn(|_| None),
            add_ons: [[0; SCENARIOS]; CURRENCIES],
            used: [false; CURRENCIES],
            gross_flows: [[0; SCENARIOS + 1]; CURRENCIES],
            gross_options: [[0; SCENARIOS]; CURRENCIES],
        }
    }

    pub fn net_flow(&self, currency: usize, scenario: usize, bucket: usize) -> i64 {
        self.ledger[cell(currency, scenario, bucket)]
    }

    /// The currencies with a curve, from 0. Of an accepted book these are all that it has: what is used has one.
    pub fn curved(&self) -> impl Iterator<Item = usize> + '_ {
        (0..CURRENCIES).filter(|currency| self.curves[*currency].is_some())
    }

    /// Whether every currency has a position.
    pub fn uses_all(&self) -> bool {
        self.used.iter().all(|used| *used)
    }

    fn take(&mut self, record: &Record) -> Result<(), Fault> {
        check_fields(record, |currency| self.curves[currency as usize - 1].is_some())?;
        check_record(record)?;
        let currency = record.currency_index();
        if is_curve(record.kind) {
            self.curves[currency] = Some(Curve::from_record(record)?);
            return Ok(());
        }
        if record.kind.number == 7 {
            self.add_options(currency, record)?;
        } else {
            self.add_flows(currency, &flows(record))?;
        }
        self.used[currency] = true;
        Ok(())
    }

    /// One record's flows all have one sign, so the magnitudes of its buckets are the magnitudes of its flows.
    fn add_flows(&mut self, currency: usize, flows: &Flows) -> Result<(), Fault> {
        for (scenario, ladder) in flows.iter().enumerate() {
            let gross = &mut self.gross_flows[currency][scenario];
            *gross += ladder.iter().map(|flow| flow.abs()).sum::<i64>();
            check_gross("flows", currency, scenario, *gross)?;
            for (bucket, flow) in ladder.iter().enumerate() {
                self.ledger[cell(currency, scenario, bucket)] += flow;
            }
        }
        Ok(())
    }

    fn add_options(&mut self, currency: usize, record: &Record) -> Result<(), Fault> {
        let sold = record.one("side") == 1;
        for (index, value) in record.all("values").iter().enumerate() {
            let gross = &mut self.gross_options[currency][index];
            *gross += value.abs();
            check_gross("option values", currency, index + 1, *gross)?;
            self.add_ons[currency][index] += if sold { *value } else { -value };
        }
        Ok(())
    }

    /// 15: its place is the lowest currency used without a curve.
    fn check_curves(&self) -> Result<(), Refusal> {
        match (0..CURRENCIES).find(|currency| self.used[*currency] && self.curves[*currency].is_none()) {
            None => Ok(()),
            Some(index) => {
                let currency = index + 1;
                Err(Fault::of_record(15, format!("currency {currency} is used and has no curve")).at(currency))
            }
        }
    }
}

/// 14, for what one currency has come to in one scenario.
fn check_gross(what: &str, currency: usize, scenario: usize, gross: i64) -> Result<(), Fault> {
    demand(gross <= GREATEST_GROSS, 14, || {
        let whose = format!("{what} of currency {} in scenario {scenario}", currency + 1);
        format!("magnitudes of the {whose}, up to here, come to {gross}, above {GREATEST_GROSS}")
    })
}

//! The answer to a book, and what the two rooms hold after it (01, "Turned down").

use crate::refusal::{demand, Fault, Refusal};
use crate::report::{Return, REPORT_CELLS};
use crate::walk::{walk, LEDGER_CELLS};

pub const LONGEST_BOOK: usize = 65_528;
pub const GREATEST_CAPITAL: u64 = 1_000_000_000_000;

/// One call: a book, Tier 1 capital T, and the lengths of the rooms for report and ledger.
#[derive(Clone, Copy)]
pub struct Request<'a> {
    pub book: &'a [u8],
    pub capital: u64,
    pub report_room: usize,
    pub ledger_room: usize,
}

pub enum Answer {
    Accepted(Box<Return>),
    Refused(Refusal),
}

impl<'a> Request<'a> {
    /// A request whose rooms are just long enough.
    pub fn roomy(book: &'a [u8], capital: u64) -> Request<'a> {
        Request { book, capital, report_room: REPORT_CELLS, ledger_room: LEDGER_CELLS }
    }

    /// 18, 17, 16, in this order; their place is 0.
    fn check(&self) -> Result<(), Fault> {
        let (report, ledger) = (self.report_room, self.ledger_room);
        demand(report >= REPORT_CELLS && ledger >= LEDGER_CELLS, 18, || {
            format!("room for {report} report and {ledger} ledger cells; {REPORT_CELLS} and {LEDGER_CELLS} are needed")
        })?;
        let length = self.book.len();
        demand(length <= LONGEST_BOOK, 17, || format!("the book has {length} bytes, above {LONGEST_BOOK}"))?;
        demand((1..=GREATEST_CAPITAL).contains(&self.capital), 16, || {
            format!("capital is {}, outside 1 to {GREATEST_CAPITAL}", self.capital)
        })
    }

    pub fn answer(&self) -> Answer {
        let result = self.check().map_err(|fault| fault.at(0)).and_then(|()| walk(self.book));
        match result {
            Ok(positions) => Answer::Accepted(Box::new(Return::of(positions, self.capital as i64))),
            Err(refusal) => Answer::Refused(refusal),
        }
    }
}

impl Answer {
    /// Number and place of a refusal.
    pub fn refused(&self) -> Option<(u8, usize)> {
        match self {
            Answer::Accepted(_) => None,
            Answer::Refused(refusal) => Some((refusal.number, refusal.place)),
        }
    }

    pub fn accepted(&self) -> Option<&Return> {
        match self {
            Answer::Accepted(result) => Some(result),
            Answer::Refused(_) => None,
        }
    }

    /// Turns the rooms as they were before the call into what they hold after it. The rooms are those whose
    /// lengths the request named.
    pub fn fill(&self, report: &mut [i64], ledger: &mut [i64]) {
        match self {
            Answer::Accepted(result) => {
                report[..REPORT_CELLS].copy_from_slice(&result.report());
                ledger[..LEDGER_CELLS].copy_from_slice(&result.positions.ledger);
            }
            Answer::Refused(Refusal { number: 16..=18, .. }) => {}
            Answer::Refused(_) => ledger[..LEDGER_CELLS].fill(0),
        }
    }
}

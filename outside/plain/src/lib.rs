//! The same task in plain Rust: one pass over the book, arrays, the same table and digits (02, request 4). It is what the
//! product's time is held against (`outside/month-end`), no reference: `compare` holds it to the reference as it holds the product.
#![forbid(unsafe_code)]

mod book;
mod coupons;
mod curve;
mod fields;
mod holdings;
mod ladder;
mod listed;
mod loans;
mod report;
mod table;

use fields::Refusal;
use holdings::Holdings;

pub use holdings::LEDGER_CELLS;
pub use report::REPORT_CELLS;

const LONGEST_BOOK: usize = 65_528;
const GREATEST_CAPITAL: u64 = 1_000_000_000_000;

/// Fills the report, or says number and place of the refusal; the ledger is then all zeros, or untouched for 16 to 18.
pub fn assess(book: &[u8], capital: u64, report: &mut [i64], ledger: &mut [i64]) -> Result<(), (u32, usize)> {
    if report.len() < REPORT_CELLS || ledger.len() < LEDGER_CELLS {
        return Err((18, 0));
    }
    if book.len() > LONGEST_BOOK {
        return Err((17, 0));
    }
    if capital == 0 || capital > GREATEST_CAPITAL {
        return Err((16, 0));
    }
    let ledger = &mut ledger[..LEDGER_CELLS];
    let mut holdings = Holdings::new();
    match book::walk(book, &mut holdings) {
        Ok(()) => {
            holdings.write_flows(ledger);
            report::write(&holdings, capital as i64, &mut report[..REPORT_CELLS]);
            Ok(())
        }
        Err(Refusal { number, place }) => {
            ledger.fill(0);
            Err((number, place))
        }
    }
}

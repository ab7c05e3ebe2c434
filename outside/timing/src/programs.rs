//! The two programs behind one call, and the books that they assess.

use std::time::{Duration, Instant};

const CAPITAL_BYTES: usize = 8;

/// Number and place, 0 and 0 for a report, and the rooms.
#[derive(PartialEq, Eq)]
pub struct Answer {
    pub number: u32,
    pub place: u64,
    report: Vec<i64>,
    ledger: Vec<i64>,
}

impl Answer {
    fn cleared() -> Answer {
        Answer { number: 0, place: 0, report: vec![0; plain::REPORT_CELLS], ledger: vec![0; plain::LEDGER_CELLS] }
    }

    fn clear(&mut self) {
        self.report.fill(0);
        self.ledger.fill(0);
    }
}

pub type Program = fn(&[u8], u64, &mut Answer);

pub static PLAIN: Program = plain_assess;
pub static PRODUCT: Program = product_assess;

/// Not inlined and by this name, so that callgrind can tell it.
#[no_mangle]
#[inline(never)]
fn plain_assess(book: &[u8], capital: u64, answer: &mut Answer) {
    let refused = plain::assess(book, capital, &mut answer.report, &mut answer.ledger).err();
    let (number, place) = refused.unwrap_or((0, 0));
    (answer.number, answer.place) = (number, place as u64);
}

// The C face (`face/vorlegan.h`).
extern "C" {
    fn vorlegan_assess(
        book: *const u8,
        book_bytes: usize,
        tier1: u64,
        report: *mut i64,
        report_cells: usize,
        ledger: *mut i64,
        ledger_cells: usize,
        place: *mut u64,
        place_cells: usize,
    ) -> u32;
}

fn product_assess(book: &[u8], capital: u64, answer: &mut Answer) {
    let Answer { number, place, report, ledger } = answer;
    let (cells, rooms) = ((report.len(), ledger.len()), (report.as_mut_ptr(), ledger.as_mut_ptr()));
    // SAFETY: each room is lent as its first cell and its length, and nothing else holds it while the call lasts.
    *number = unsafe {
        vorlegan_assess(book.as_ptr(), book.len(), capital, rooms.0, cells.0, rooms.1, cells.1, place, 1)
    };
}

pub struct Book {
    capital: u64,
    book: Vec<u8>,
}

impl Book {
    pub fn read(path: &str) -> Result<Book, String> {
        let input = std::fs::read(path).map_err(|error| format!("{path}: cannot be read: {error}"))?;
        let (capital, book) = input.split_at_checked(CAPITAL_BYTES).ok_or(format!("{path}: no input of irreport"))?;
        Ok(Book { capital: u64::from_be_bytes(capital.try_into().expect("eight bytes")), book: book.to_vec() })
    }

    pub fn bytes(&self) -> usize {
        self.book.len()
    }

    pub fn assessed_by(&self, program: &Program) -> Answer {
        let mut answer = Answer::cleared();
        program(&self.book, self.capital, &mut answer);
        answer
    }

    /// So many assessments one after the other, the clock stopped while the rooms are cleared.
    pub fn timed(&self, program: &Program, times: usize) -> Duration {
        let mut answer = Answer::cleared();
        let mut took = Duration::ZERO;
        for _ in 0..times {
            answer.clear();
            let begin = Instant::now();
            program(&self.book, self.capital, &mut answer);
            took += begin.elapsed();
        }
        took
    }
}

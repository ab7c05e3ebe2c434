//! Kinds 5 and 6, whose flows differ by scenario: there are three rates, of which each scenario has one.

use crate::fields::{amounts, share, Refusal, GREATEST_AMOUNT};
use crate::holdings::{Section, SCENARIOS};
use crate::ladder::{BUCKETS, WIDTHS};

const MULTIPLES: [u64; 3] = [10, 8, 12];
const LOAN_RATES: [usize; SCENARIOS] = [0, 1, 2, 1, 2, 1, 2];
const TERM_DEPOSIT_RATES: [usize; SCENARIOS] = [0, 2, 1, 1, 2, 2, 1];
const WHOLE_RATE: u64 = 100_000;

type Row = [i64; BUCKETS];

fn rates(share: u64) -> [u64; 3] {
    MULTIPLES.map(|multiple| (share * multiple).min(WHOLE_RATE))
}

pub fn add_loan(body: &[u8], section: &mut Section) -> Result<(), Refusal> {
    let share = share(body)?;
    let principals = amounts(body, 3)?;
    let interests = amounts(body, 79)?;
    let principal: i64 = principals.iter().sum();
    let mut left = principal;
    for bucket in 0..BUCKETS {
        if interests[bucket] > 0 && left == 0 {
            return Err(Refusal::of_field(11, 79 + 4 * bucket));
        }
        left -= principals[bucket];
    }
    if principal + interests.iter().sum::<i64>() > GREATEST_AMOUNT {
        return Err(Refusal::of_record(14));
    }
    let mut rows = [[0; BUCKETS]; 3];
    let mut gross = [0; 3];
    for (index, rate) in rates(share).into_iter().enumerate() {
        gross[index] = fill_loan(rate, principal as u64, &principals, &interests, &mut rows[index]);
    }
    section.add_rows(&LOAN_RATES, &rows, &gross)
}

/// What is paid, prepaid and due as interest, bucket by bucket.
fn fill_loan(rate: u64, principal: u64, principals: &Row, interests: &Row, row: &mut Row) -> i64 {
    let mut gross = 0;
    let mut outstanding = principal;
    let mut scheduled = principal;
    for bucket in 0..BUCKETS {
        let paid = outstanding.min(principals[bucket] as u64);
        let prepaid = (outstanding * rate * WIDTHS[bucket] / (12 * WHOLE_RATE)).min(outstanding - paid);
        let interest = match interests[bucket] as u64 {
            0 => 0,
            interest => interest * outstanding / scheduled,
        };
        row[bucket] = (paid + prepaid + interest) as i64;
        gross += row[bucket];
        outstanding -= paid + prepaid;
        scheduled -= principals[bucket] as u64;
    }
    gross
}

/// A liability: part of each amount moves to bucket 1.
pub fn add_term_deposit(body: &[u8], section: &mut Section) -> Result<(), Refusal> {
    let share = share(body)?;
    let amounts = amounts(body, 3)?;
    let mut rows = [[0; BUCKETS]; 3];
    for (rate, row) in rates(share).into_iter().zip(&mut rows) {
        fill_term_deposit(rate, &amounts, row);
    }
    let gross = amounts.iter().sum();
    section.add_rows(&TERM_DEPOSIT_RATES, &rows, &[gross; 3])
}

fn fill_term_deposit(rate: u64, amounts: &Row, row: &mut Row) {
    let mut early = 0;
    for bucket in 0..BUCKETS {
        let moved = (amounts[bucket] as u64 * rate / WHOLE_RATE) as i64;
        row[bucket] = moved - amounts[bucket];
        early += moved;
    }
    row[0] -= early;
}

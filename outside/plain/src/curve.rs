//! Kinds 8 and 10 and the shocks (01, "Curves and shocks"; 02, request 5).

use crate::fields::{rate, rate_in_range, shock, Refusal};
use crate::holdings::{Section, SCENARIOS};
use crate::ladder::BUCKETS;
use crate::listed::listed_shocks;
use crate::report::rounded;
use crate::table::SHORT_SHARES;

const BILLION: i64 = 1_000_000_000;

/// 12 comes after the currency, shocked rates last.
pub fn add_curve(body: &[u8], section: &mut Section) -> Result<(), Refusal> {
    refuse_second(section)?;
    let base = rates(body, 1)?;
    let shocks = [shock(body, 77)?, shock(body, 79)?, shock(body, 81)?];
    add_shocked(&base, 1, shocks, section)
}

/// 12, then 19 and 20, then the rates.
pub fn add_listed_curve(body: &[u8], section: &mut Section) -> Result<(), Refusal> {
    refuse_second(section)?;
    let shocks = listed_shocks(body, 1)?;
    let base = rates(body, 5)?;
    add_shocked(&base, 5, shocks, section)
}

fn refuse_second(section: &Section) -> Result<(), Refusal> {
    if section.curved {
        return Err(Refusal::of_record(12));
    }
    Ok(())
}

/// Nineteen rates in a row, by bucket.
fn rates(body: &[u8], from: usize) -> Result<[i64; BUCKETS], Refusal> {
    let mut rates = [0; BUCKETS];
    for (bucket, place) in rates.iter_mut().enumerate() {
        *place = rate(body, from + 4 * bucket)?;
    }
    Ok(rates)
}

/// The base rates stand in the body from this byte on: a shocked rate out of range is told there.
fn add_shocked(
    base: &[i64; BUCKETS],
    from: usize,
    [parallel, short, long]: [i64; 3],
    section: &mut Section,
) -> Result<(), Refusal> {
    for bucket in 0..BUCKETS {
        let changes = changes(parallel, short, long, SHORT_SHARES[bucket]);
        for (scenario, change) in changes.iter().enumerate() {
            let shocked = base[bucket] + change;
            if !rate_in_range(shocked) {
                return Err(Refusal::of_field(13, from + 4 * bucket));
            }
            section.rates[scenario][bucket] = shocked;
        }
    }
    section.curved = true;
    Ok(())
}

/// The changes of a bucket's rate, the base's first, which is none.
fn changes(parallel: i64, short: i64, long: i64, share: i64) -> [i64; SCENARIOS] {
    let (near, far) = (short * share, long * (BILLION - share));
    [
        0,
        100 * parallel,
        -100 * parallel,
        rounded(-65 * near + 90 * far),
        rounded(80 * near - 60 * far),
        rounded(100 * near),
        rounded(-100 * near),
    ]
}

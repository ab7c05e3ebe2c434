//! From flows to the verdict (01, "Discount factor", "From flows to verdict").

use crate::holdings::{Holdings, Section, CURRENCIES, SHOCKED};
use crate::ladder::{BUCKETS, MIDPOINTS};
use crate::table::FACTORS;

pub const REPORT_CELLS: usize = CURRENCIES * SHOCKED + SHOCKED + 4;

const BILLION: i64 = 1_000_000_000;

/// Over a billion, halves away from zero.
pub fn rounded(billionths: i64) -> i64 {
    if billionths < 0 {
        (billionths - BILLION / 2) / BILLION
    } else {
        (billionths + BILLION / 2) / BILLION
    }
}

pub fn write(holdings: &Holdings, capital: i64, report: &mut [i64]) {
    let mut sums = [0; SHOCKED];
    let mut tolerances = [0; SHOCKED];
    let (changes, rest) = report.split_at_mut(SHOCKED * CURRENCIES);
    changes.fill(0);
    for (changes, section) in changes.chunks_exact_mut(SHOCKED).zip(&holdings.sections) {
        // In an accepted book every section has its curve.
        if let Some(section) = section {
            add_currency(section, changes, &mut sums, &mut tolerances);
        }
    }
    let measure = sums.iter().copied().fold(0, i64::max);
    let worst = match sums.iter().position(|sum| *sum == measure) {
        Some(index) if measure > 0 => index as i64 + 1,
        _ => 0,
    };
    let tolerance = tolerances.iter().copied().fold(0, i64::max);
    rest[..SHOCKED].copy_from_slice(&sums);
    rest[SHOCKED..].copy_from_slice(&[measure, worst, tolerance, verdict(measure, tolerance, capital)]);
}

fn verdict(measure: i64, tolerance: i64, capital: i64) -> i64 {
    if 100 * (measure - tolerance) > 15 * capital {
        1
    } else if 100 * (measure + tolerance) <= 15 * capital {
        2
    } else {
        3
    }
}

/// One currency's changes, added to the sums of losses, and its tolerances.
fn add_currency(section: &Section, changes: &mut [i64], sums: &mut [i64; SHOCKED], tolerances: &mut [i64; SHOCKED]) {
    let (base, base_size) = valued(section, 0);
    for index in 0..SHOCKED {
        let (value, size) = valued(section, index + 1);
        changes[index] = rounded(base - value) + section.add_ons[index];
        sums[index] += changes[index].max(0);
        tolerances[index] += tolerance(base_size + size);
    }
}

fn tolerance(size: i64) -> i64 {
    if size == 0 {
        return 0;
    }
    1 + (26 * size + BILLION - 1) / BILLION
}

/// A scenario's sum of flow times factor, and its sum of magnitudes of flows.
fn valued(section: &Section, scenario: usize) -> (i64, i64) {
    let flows = &section.flows[scenario];
    let rates = &section.rates[scenario];
    let (mut value, mut size) = (0, 0);
    for bucket in 0..BUCKETS {
        value += flows[bucket] * factor(rates[bucket] * MIDPOINTS[bucket]);
        size += flows[bucket].abs();
    }
    (value, size)
}

/// In billionths, by the eleven digits of the exponent, highest first.
fn factor(exponent: i64) -> i64 {
    let (mut product, mut rest) = if exponent < 0 {
        (3_490_342_957, (12_500_000_000 + exponent) as u64)
    } else {
        (1_000_000_000, exponent as u64)
    };
    let mut weight = 10_000_000_000;
    for row in &FACTORS {
        product = (product * row[(rest / weight) as usize] + 500_000_000) / 1_000_000_000;
        rest %= weight;
        weight /= 10;
    }
    product as i64
}

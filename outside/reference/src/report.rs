//! From flows to verdict (01, "From flows to verdict").

use crate::curve::Curve;
use crate::discount::{computed_factor, exponent};
use crate::ladder::BUCKETS;
use crate::layout::{CURRENCIES, SCENARIOS};
use crate::rounding::{halves_away, rounded_up};
use crate::walk::Positions;

pub const REPORT_CELLS: usize = report_cells(CURRENCIES);

/// The numbers of a report over so many currencies.
pub const fn report_cells(currencies: usize) -> usize {
    currencies * SCENARIOS + SCENARIOS + 4
}

/// Of Tier 1 capital, in per cent.
pub const LIMIT: i64 = 15;

const BILLION: i128 = 1_000_000_000;
/// What a computed factor may be off, in billionths.
const FACTOR_TOLERANCE: i128 = 26;

pub type PerScenario = [i64; SCENARIOS];

#[derive(Clone, Copy, Debug, PartialEq, Eq)]
pub enum Verdict {
    Over = 1,
    Within = 2,
    Close = 3,
}

/// The return of an accepted book.
#[derive(Clone, Debug)]
pub struct Return {
    pub positions: Positions,
    /// Currency by currency, and so are the tolerances.
    pub changes: Vec<PerScenario>,
    pub tolerances: Vec<PerScenario>,
    pub sums: PerScenario,
    pub measure: i64,
    pub worst: i64,
    pub total_tolerance: i64,
    pub verdict: Verdict,
}

impl Return {
    pub fn of(positions: Positions, capital: i64) -> Return {
        Return::over(CURRENCIES, positions, capital)
    }

    /// The return over the first so many currencies, for positions that have no others: over 8, as it was made before
    /// request 7 of 02.
    pub fn over(currencies: usize, positions: Positions, capital: i64) -> Return {
        assert!(positions.curved().all(|currency| currency < currencies), "a currency above {currencies}");
        let changes: Vec<PerScenario> = (0..currencies).map(|currency| changes(&positions, currency)).collect();
        let tolerances: Vec<PerScenario> = (0..currencies).map(|currency| tolerances(&positions, currency)).collect();
        let losses = |of_currency: &PerScenario| of_currency.map(|change| change.max(0));
        let sums = over_currencies(&changes.iter().map(losses).collect::<Vec<_>>());
        let measure = greatest(&sums);
        let total_tolerance = greatest(&over_currencies(&tolerances));
        Return {
            positions,
            changes,
            tolerances,
            sums,
            measure,
            worst: worst(&sums, measure),
            total_tolerance,
            verdict: verdict(measure, total_tolerance, capital),
        }
    }

    /// The numbers in their order: 202, over all currencies.
    pub fn report(&self) -> Vec<i64> {
        let last = [self.measure, self.worst, self.total_tolerance, self.verdict as i64];
        [self.changes.as_flattened(), &self.sums, &last].concat()
    }
}

fn changes(positions: &Positions, currency: usize) -> PerScenario {
    let Some(curve) = &positions.curves[currency] else { return [0; SCENARIOS] };
    let base = present_value(positions, curve, currency, 0);
    std::array::from_fn(|index| {
        let shocked = present_value(positions, curve, currency, index + 1);
        halves_away(base - shocked, BILLION) + positions.add_ons[currency][index]
    })
}

/// The sum of flow times factor, in billionths of the money.
fn present_value(positions: &Positions, curve: &Curve, currency: usize, scenario: usize) -> i128 {
    let of_bucket = |bucket: usize| {
        let factor = computed_factor(exponent(curve.rates[scenario][bucket], bucket));
        i128::from(positions.net_flow(currency, scenario, bucket)) * i128::from(factor)
    };
    (0..BUCKETS).map(of_bucket).sum()
}

fn tolerances(positions: &Positions, currency: usize) -> PerScenario {
    let magnitudes = |scenario: usize| -> i128 {
        (0..BUCKETS).map(|bucket| i128::from(positions.net_flow(currency, scenario, bucket).abs())).sum()
    };
    std::array::from_fn(|index| match magnitudes(0) + magnitudes(index + 1) {
        0 => 0,
        all => 1 + rounded_up(FACTOR_TOLERANCE * all, BILLION),
    })
}

fn over_currencies(numbers: &[PerScenario]) -> PerScenario {
    std::array::from_fn(|index| numbers.iter().map(|of_currency| of_currency[index]).sum())
}

fn greatest(numbers: &PerScenario) -> i64 {
    numbers.iter().copied().fold(0, i64::max)
}

fn worst(sums: &PerScenario, measure: i64) -> i64 {
    match sums.iter().position(|sum| *sum == measure) {
        Some(index) if measure > 0 => index as i64 + 1,
        _ => 0,
    }
}

fn verdict(measure: i64, tolerance: i64, capital: i64) -> Verdict {
    if 100 * (measure - tolerance) > LIMIT * capital {
        Verdict::Over
    } else if 100 * (measure + tolerance) <= LIMIT * capital {
        Verdict::Within
    } else {
        Verdict::Close
    }
}

//! Exact changes and the exact measure, as fractions (01, "From flows to verdict").

use crate::curve::Curve;
use crate::discount::{exact_factor, exponent};
use crate::fraction::Fraction;
use crate::ladder::BUCKETS;
use crate::layout::{CURRENCIES, SCENARIOS};
use crate::report::{Return, Verdict, LIMIT};
use crate::walk::Positions;

pub struct Exact {
    /// Currency by currency, scenarios 1 to 6.
    pub changes: Vec<Vec<Fraction>>,
    pub measure: Fraction,
}

impl Exact {
    pub fn of(positions: &Positions) -> Exact {
        let changes: Vec<Vec<Fraction>> = (0..CURRENCIES)
            .map(|currency| (1..=SCENARIOS).map(|scenario| exact_change(positions, currency, scenario)).collect())
            .collect();
        let losses = |index: usize| changes.iter().map(|c| &c[index]).filter(|c| c.is_positive()).cloned().collect();
        let measure = (0..SCENARIOS).map(|index| Fraction::sum(losses(index))).max();
        Exact { measure: measure.expect("there are six scenarios"), changes }
    }

    /// Says what of the return is not borne out: a change or the measure off by more than its tolerance, or a
    /// verdict that the exact measure contradicts. Nothing, if all is sound.
    pub fn complaint(&self, result: &Return, capital: i64) -> Option<String> {
        for (currency, of_currency) in self.changes.iter().enumerate() {
            for (index, exact) in of_currency.iter().enumerate() {
                if !within(exact, result.changes[currency][index], result.tolerances[currency][index]) {
                    return Some(format!("change of currency {} in scenario {}", currency + 1, index + 1));
                }
            }
        }
        if !within(&self.measure, result.measure, result.total_tolerance) {
            return Some("measure".to_string());
        }
        let over = self.measure.times(100) > Fraction::whole(LIMIT * capital);
        match (result.verdict, over) {
            (Verdict::Over, false) | (Verdict::Within, true) => Some(format!("verdict {:?}", result.verdict)),
            _ => None,
        }
    }
}

fn within(exact: &Fraction, reported: i64, tolerance: i64) -> bool {
    exact.minus(&Fraction::whole(reported)).magnitude() <= Fraction::whole(tolerance)
}

fn exact_change(positions: &Positions, currency: usize, scenario: usize) -> Fraction {
    let Some(curve) = &positions.curves[currency] else { return Fraction::whole(0) };
    let mut terms = exact_values(positions, curve, currency, 0);
    terms.extend(exact_values(positions, curve, currency, scenario).into_iter().map(Fraction::negated));
    terms.push(Fraction::whole(positions.add_ons[currency][scenario - 1]));
    Fraction::sum(terms)
}

fn exact_values(positions: &Positions, curve: &Curve, currency: usize, scenario: usize) -> Vec<Fraction> {
    let flows = (0..BUCKETS).map(|bucket| (bucket, positions.net_flow(currency, scenario, bucket)));
    flows
        .filter(|(_, flow)| *flow != 0)
        .map(|(bucket, flow)| exact_factor(exponent(curve.rates[scenario][bucket], bucket)).times(flow))
        .collect()
}

//! What `irdetail` printed, taken apart: every figure that a report shows comes from here.

mod agreement;
mod lines;

use agreement::disagreement;
use lines::Lines;
use reference::{BUCKETS, KINDS, SCENARIOS};

/// The share that equals the limit, in hundredths of a per cent.
pub const LIMIT_SHARE: i64 = 15_00;

pub enum Detail {
    Accepted(Box<Figures>),
    Refused(Refused),
}

/// A refusal's number and place.
#[derive(Clone, Copy, Debug, PartialEq, Eq)]
pub struct Refused {
    pub number: u8,
    pub place: usize,
}

#[derive(Clone, Copy, Debug, PartialEq, Eq)]
pub enum Verdict {
    Over,
    Within,
    Close,
}

/// The figures of an accepted book. Money is in thousands, rates are in millionths; `limit` and `headroom` are in hundredths
/// of a thousand, `share` is in hundredths of a per cent.
pub struct Figures {
    pub currencies: Vec<Currency>,
    pub sums: [i64; SCENARIOS],
    pub measure: i64,
    /// The first scenario that reaches the measure; 0 if there is no loss.
    pub worst: usize,
    pub tolerance: i64,
    pub verdict: Verdict,
    pub records: i64,
    pub capital: i64,
    pub limit: i64,
    pub headroom: i64,
    pub share: i64,
}

pub struct Currency {
    pub number: i64,
    pub changes: [i64; SCENARIOS],
    pub tolerances: [i64; SCENARIOS],
    pub rates: [[i64; BUCKETS]; SCENARIOS + 1],
    pub flows: [[i64; BUCKETS]; SCENARIOS + 1],
    pub add_ons: [i64; SCENARIOS],
    /// How many records of each kind were taken.
    pub taken: [i64; KINDS.len()],
}

/// Takes the text apart, or says on one line why it is not what `irdetail` prints. Nothing is passed over, for a program
/// that prints anything else is not the one that is proved.
pub fn read(printed: &str) -> Result<Detail, String> {
    let mut lines = Lines::of(printed)?;
    let detail = if lines.begins_with("R") {
        let [number, place] = lines.numbers("R")?;
        Detail::Refused(refused(number, place).ok_or("there is no such refusal")?)
    } else {
        Detail::Accepted(Box::new(figures(&mut lines)?))
    };
    lines.end()?;
    match &detail {
        Detail::Accepted(figures) => disagreement(figures).map_or(Ok(()), |what| Err(what.to_string()))?,
        Detail::Refused(_) => {}
    }
    Ok(detail)
}

fn refused(number: i64, place: i64) -> Option<Refused> {
    let number = u8::try_from(number).ok().filter(|number| (1..=20).contains(number))?;
    Some(Refused { number, place: usize::try_from(place).ok()? })
}

fn figures(lines: &mut Lines) -> Result<Figures, String> {
    let mut changes: Vec<[i64; 1 + SCENARIOS]> = Vec::new();
    while lines.begins_with("C") {
        changes.push(lines.numbers("C")?);
    }
    let sums = lines.numbers("S")?;
    let [measure, worst, tolerance] = lines.numbers("M")?;
    let verdict = lines.verdict()?;
    let currencies: Result<Vec<Currency>, String> = changes.iter().map(|changes| currency(lines, changes)).collect();
    let currencies = currencies?;
    let [records] = lines.numbers("N")?;
    let [capital] = lines.numbers("T")?;
    let (limit, headroom, share) = (lines.hundredths("L")?, lines.hundredths("H")?, lines.hundredths("P")?);
    let worst = usize::try_from(worst).ok().filter(|worst| *worst <= SCENARIOS);
    let worst = worst.ok_or("the worst scenario is none of 0 to 6")?;
    Ok(Figures { currencies, sums, measure, worst, tolerance, verdict, records, capital, limit, headroom, share })
}

/// The lines of one currency, which has to be that of the changes.
fn currency(lines: &mut Lines, changes: &[i64; 1 + SCENARIOS]) -> Result<Currency, String> {
    let [number, changes @ ..] = *changes;
    let tolerances = lines.after("U", [number])?;
    let (mut rates, mut flows) = ([[0; BUCKETS]; SCENARIOS + 1], [[0; BUCKETS]; SCENARIOS + 1]);
    for scenario in 0..=SCENARIOS {
        rates[scenario] = lines.after("Z", [number, scenario as i64])?;
        flows[scenario] = lines.after("F", [number, scenario as i64])?;
    }
    let add_ons = lines.after("A", [number])?;
    let taken = lines.after("K", [number])?;
    Ok(Currency { number, changes, tolerances, rates, flows, add_ons, taken })
}

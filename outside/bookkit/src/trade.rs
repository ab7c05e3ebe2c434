//! The words of the trade, each said once: scenarios, kinds of record, buckets.

use reference::{KINDS, SCENARIOS, UPPER_ENDS};

/// By number; the base is scenario 0.
const SCENARIO_NAMES: [&str; SCENARIOS + 1] =
    ["base", "parallel up", "parallel down", "steepener", "flattener", "short rates up", "short rates down"];

/// By number less one, as people write what the text form writes with hyphens.
const KIND_NAMES: [&str; KINDS.len()] = [
    "single flow",
    "fixed coupons",
    "floating",
    "non-maturity deposit",
    "prepayable loan",
    "term deposit",
    "option add-on",
    "curve",
    "floating spread",
    "listed curve",
];

pub const LISTED_CURVE: u8 = 10;

/// What to think of the second list of shocks.
pub const RECOLLECTED: &str = "edition 2 was entered from recollection and must be held against the published table \
                               (BCBS d578, July 2024) before filing";

pub fn scenario_name(number: usize) -> &'static str {
    SCENARIO_NAMES[number]
}

/// A scenario's number and name.
pub fn scenario(number: usize) -> String {
    format!("{number} {}", scenario_name(number))
}

/// A kind of record, from its number.
pub fn kind_name(number: u8) -> &'static str {
    KIND_NAMES[usize::from(number) - 1]
}

/// The time that a bucket spans, as words. Buckets are counted from 0 here.
pub fn span(bucket: usize) -> String {
    let end = |bucket: usize| UPPER_ENDS[bucket].0;
    match bucket {
        0 => "overnight".to_string(),
        1 => format!("up to {} month", end(1)),
        _ if bucket == UPPER_ENDS.len() => format!("above {} years", end(bucket - 1) / 12),
        _ if end(bucket - 1) % 12 == 0 && end(bucket) % 12 == 0 => {
            format!("{} to {} years", end(bucket - 1) / 12, end(bucket) / 12)
        }
        _ => format!("{} to {} months", end(bucket - 1), end(bucket)),
    }
}

/// Where a bucket ends, short enough to stand beneath a bar.
pub fn upper_end(bucket: usize) -> String {
    match UPPER_ENDS.get(bucket) {
        Some((0, days)) => format!("{days} day"),
        Some((months, _)) if months % 12 == 0 => format!("{} y", months / 12),
        Some((months, _)) => format!("{months} m"),
        None => "longer".to_string(),
    }
}

#[cfg(test)]
mod tests {
    use super::{kind_name, span, upper_end};
    use reference::{BUCKETS, KINDS};

    #[test]
    fn kinds_are_called_as_in_the_text_form() {
        for kind in &KINDS {
            assert_eq!(kind_name(kind.number).replace(' ', "-"), kind.name);
        }
    }

    #[test]
    fn buckets_span_what_the_ladder_says() {
        let spans: Vec<String> = (0..BUCKETS).map(span).collect();
        assert_eq!(spans[..4], ["overnight", "up to 1 month", "1 to 3 months", "3 to 6 months"]);
        assert_eq!(spans[5..9], ["9 to 12 months", "12 to 18 months", "18 to 24 months", "2 to 3 years"]);
        assert_eq!(spans[15..], ["9 to 10 years", "10 to 15 years", "15 to 20 years", "above 20 years"]);
        let ends: Vec<String> = [0, 1, 5, 6, 7, 17, 18].map(upper_end).to_vec();
        assert_eq!(ends, ["1 day", "1 m", "1 y", "18 m", "2 y", "20 y", "longer"]);
    }
}

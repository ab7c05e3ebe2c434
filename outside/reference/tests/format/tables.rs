//! Sizes, ladder, scenarios, categories and refusal numbers of the page.

use crate::page::{number, section, table};
use crate::records::{code_number, heading, worked};
use reference::{
    bucket_index, flows, listed, rate_changes, shocks, width, Request, BUCKETS, CAPITAL_BYTES, CORE_CAPS, CURRENCIES,
    GREATEST_CAPITAL, KINDS, LAST_MONTH, LONGEST_BOOK, MIDPOINTS, SCENARIOS, UPPER_ENDS,
};
use std::collections::BTreeSet;

#[test]
fn sizes() {
    let said: Vec<i64> = table("## The input", "What").iter().map(|row| number(&row[1])).collect();
    let (book, capital) = (LONGEST_BOOK as i64, CAPITAL_BYTES as i64);
    assert_eq!(said, [capital, 1, GREATEST_CAPITAL as i64, book, book + capital, CURRENCIES as i64]);
    let refused =
        |capital, length| Request::roomy(&vec![0; length], capital).answer().refused().map(|(number, _)| number);
    assert_eq!([refused(0, 0), refused(1, 0), refused(GREATEST_CAPITAL + 1, 0)], [Some(16), None, Some(16)]);
    assert_eq!([refused(1, LONGEST_BOOK), refused(1, LONGEST_BOOK + 1)], [Some(1), Some(17)]);
}

#[test]
fn the_ladder() {
    let rows = table("## The ladder", "Bucket");
    let midpoints: Vec<i64> = rows.iter().map(|row| number(&row[3])).collect();
    assert_eq!(midpoints, MIDPOINTS);
    let widths: Vec<i64> = rows.iter().map(|row| number(&row[4])).collect();
    assert_eq!(widths, std::array::from_fn::<_, BUCKETS, _>(width));
    for (index, row) in rows.iter().enumerate() {
        assert_eq!(number(&row[0]), index as i64 + 1);
        if index + 1 == BUCKETS {
            assert_eq!((row[1].as_str(), bucket_index(LAST_MONTH, 30)), ("none", index));
            continue;
        }
        let (months, days) = (number(&row[1]), number(&row[2]));
        assert_eq!((months, days), UPPER_ENDS[index]);
        assert_eq!([bucket_index(months, days), bucket_index(months, days + 1)], [index, index + 1]);
    }
}

/// A term deposit of a million in the last bucket, of which a share of 1,000 moves to the first; a loan of twelve
/// million, of which a twelfth of the share comes in the month of the second.
#[test]
fn the_scenarios_multiply_shares() {
    let far = |kind, name, amount| {
        worked(kind).with("share", 0, 1_000).with(name, 8, 0).with(name, 5, 0).with(name, 18, amount)
    };
    let loan = flows(&far(5, "principals", 12_000_000).with("interests", 8, 0));
    let deposit = flows(&far(6, "amounts", 1_000_000));
    for (scenario, row) in table("## The scenarios", "Scenario").iter().enumerate() {
        assert_eq!(number(&row[0]), scenario as i64);
        assert_eq!(loan[scenario][1], 10_000 * number(&row[5]), "kind 5, scenario {scenario}");
        assert_eq!(deposit[scenario][0], -10_000 * number(&row[6]), "kind 6, scenario {scenario}");
    }
}

#[test]
fn the_scenarios_move_rates() {
    let rows = table("## The scenarios", "Scenario");
    assert_eq!(rows.len(), SCENARIOS + 1);
    for (bucket, midpoint) in MIDPOINTS.iter().enumerate() {
        let weight = (-*midpoint as f64 / 40_000.0).exp();
        for (p, h, g) in [(400, 0, 0), (0, 500, 0), (0, 0, 300), (1_000, 999, 998)] {
            let changes = rate_changes(p, h, g, bucket);
            let amounts = [p as f64, h as f64 * weight, g as f64 * (1.0 - weight)];
            for (row, change) in rows[1..].iter().zip(changes) {
                let due: f64 = row[2..5].iter().zip(amounts).map(|(times, amount)| number(times) as f64 * amount).sum();
                assert!((due - change as f64).abs() < 0.51, "{} in bucket {}: {due}, {change}", row[1], bucket + 1);
            }
        }
    }
    assert_eq!(rows[0][2..5], ["0", "0", "0"]);
}

#[test]
fn the_categories() {
    let rows = table(&heading(4), "Category");
    let said: Vec<(i64, i64)> = rows.iter().map(|row| (number(&row[2]), number(&row[3]))).collect();
    assert_eq!(said, CORE_CAPS);
    assert_eq!(rows.iter().map(|row| number(&row[0])).collect::<Vec<_>>(), [1, 2, 3]);
}

/// All that the page lists, and nothing else, is what the reference lists.
#[test]
fn the_listed_shocks() {
    let rows = table(&heading(10), "Code");
    for (edition, columns) in [(1, 1..4), (2, 4..7)] {
        let of_row = |row: &Vec<String>| {
            let sizes: Vec<i64> = row[columns.clone()].iter().map(|size| number(size)).collect();
            (code_number(&row[0]), sizes)
        };
        let due: Vec<_> = listed(edition).iter().map(|listed| (listed.code.number(), listed.shocks.to_vec())).collect();
        assert_eq!(rows.iter().map(of_row).collect::<Vec<_>>(), due, "edition {edition}");
    }
}

#[test]
fn the_shocks_named_beside_the_worked_record_are_those_of_its_row() {
    let said = section(&heading(10)).join(" ");
    let [parallel, short, long] = shocks(&worked(10)).expect("a listed code");
    let due = format!("The shocks are those of EUR in edition 1: parallel {parallel}, short {short} and long {long}.");
    assert!(said.contains(&due), "{due}");
}

#[test]
fn every_refusal_number_is_named() {
    let of_fields = KINDS.iter().flat_map(|kind| table(&heading(kind.number), "Offset")).map(|row| number(&row[5]));
    let of_rules = table("## What one field alone does not show", "Refusal").into_iter().map(|row| number(&row[0]));
    let named: BTreeSet<i64> = of_fields.chain(of_rules).collect();
    assert!(named.into_iter().eq(1..=20));
}

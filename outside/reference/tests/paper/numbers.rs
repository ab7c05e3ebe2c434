//! Every number of "Numbers to hold to"; those of kind 5 worked by hand for request 3 of 02.

use crate::hand::*;
use reference::{bucket_index, computed_factor, exponent, irreport};

fn worked_input(capital: u64, months: u16) -> Vec<u8> {
    let book = [curve(1, [0; 19], [400, 0, 0]), single_flow(1, 1, months, 0, 1_000_000)].concat();
    [&capital.to_be_bytes()[..], &book].concat()
}

#[test]
fn terms_fall_into_their_buckets() {
    let terms = [(0, 1), (0, 2), (1, 0), (1, 1), (240, 0), (240, 1)];
    assert_eq!(terms.map(|(months, days)| bucket_index(months, days) + 1), [1, 2, 2, 3, 18, 19]);
}

#[test]
fn factors() {
    assert_eq!(computed_factor(0), 1_000_000_000);
    assert_eq!(computed_factor(exponent(40_000, 18)), 367_879_441);
    assert_eq!(computed_factor(exponent(40_000, 17)), 496_585_304);
}

/// Ten per cent a year in the base, eight in scenario 1: in bucket 2 a twelfth of it, in bucket 7 a half.
#[test]
fn a_prepayable_loan() {
    let record = loan(1, 1_000, in_buckets(&[(9, 1_000)]), in_buckets(&[(9, 100)]));
    let base = net_flows(record.clone(), 0);
    assert_eq!(base[..9], [0, 8, 16, 24, 23, 23, 45, 43, 818 + 81]);
    let first = net_flows(record, 1);
    assert_eq!(first[..9], [0, 6, 13, 19, 19, 18, 37, 35, 853 + 85]);
    assert!(base[9..].iter().chain(&first[9..]).all(|flow| *flow == 0));
}

#[test]
fn a_term_deposit() {
    let flows = net_flows(term_deposit(1, 6_000, in_buckets(&[(6, 1_000)])), 1);
    assert_eq!((flows[0], flows[5]), (-720, -280));
    let flows = net_flows(term_deposit(1, 9_000, in_buckets(&[(6, 1_000)])), 1);
    assert_eq!((flows[0], flows[5]), (-1_000, 0));
}

#[test]
fn a_non_maturity_deposit() {
    let with_core = |core: &[(usize, u32)]| refused(&[deposit(1, 1, 1_000, in_buckets(core)), flat_curve(1, 0)]);
    assert_eq!(with_core(&[(11, 450), (12, 450)]), None);
    assert_eq!(with_core(&[(11, 449), (12, 451)]), Some((10, 0)));
    assert_eq!(with_core(&[(2, 901)]), Some((9, 0)));
}

#[test]
fn the_worked_report() {
    let printed = irreport(&worked_input(4_214_126, 241));
    assert_eq!(printed, "C 1 632121 -1718282 0 0 0 0\nS 632121 0 0 0 0 0\nM 632121 1 2\nV OVER\n");
}

#[test]
fn the_worked_report_turns_with_capital() {
    let verdict = |capital| irreport(&worked_input(capital, 241)).lines().last().map(str::to_string);
    let verdicts = [4_214_126, 4_214_127, 4_214_153, 4_214_154].map(|capital| verdict(capital).unwrap());
    assert_eq!(verdicts, ["V OVER", "V CLOSE", "V CLOSE", "V WITHIN"]);
}

#[test]
fn the_worked_report_at_the_end_of_bucket_18() {
    assert!(irreport(&worked_input(4_214_126, 240)).starts_with("C 1 503415 "));
}

#[test]
fn an_empty_book() {
    assert_eq!(irreport(&1u64.to_be_bytes()), "S 0 0 0 0 0 0\nM 0 0 0\nV WITHIN\n");
}

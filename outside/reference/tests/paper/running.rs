//! 14 and 15: what only shows over all records so far.

use crate::hand::*;

const HALF: u32 = BILLION / 2;

/// The refusal of a record of currency 1 that comes after `before`.
fn after(before: Vec<u8>, record: Vec<u8>) -> Option<(u8, usize)> {
    let place = 84 + before.len();
    let refusal = refused(&[flat_curve(1, 0), before, record]);
    assert!(refusal.is_none_or(|found| found == (14, place)), "{refusal:?}");
    refusal
}

#[test]
fn flows_of_every_kind_count_in_full() {
    let before = || single_flow(1, 1, 1, 0, HALF);
    let lone = |amount| in_buckets(&[(19, amount)]);
    for (extra, out) in [(0, false), (1, true)] {
        let amount = HALF + extra;
        let records = [
            single_flow(1, 2, 600, 0, amount),
            fixed_coupons(1, 2, 12, 50, 1_000, amount - 50_000),
            floating(1, 2, 3, 0, amount - 7, 7),
            floating_spread(floating(1, 2, 3, 0, amount - 50_007, 7), 12, 40, 1_250),
            deposit(1, 3, amount, lone(0)),
            deposit(1, 1, amount, in_buckets(&[(2, amount / 2)])),
            loan(1, 0, lone(amount), lone(0)),
            term_deposit(1, 7_777, in_buckets(&[(3, 7), (19, amount - 7)])),
        ];
        for record in records {
            assert_eq!(after(before(), record.clone()).is_some(), out, "kind {} with {amount}", record[0]);
        }
    }
}

#[test]
fn a_lone_record_can_be_out() {
    assert_eq!(refused(&[fixed_coupons(1, 1, 1, 600, 1_666_666, 400)]), Some((15, 1)));
    assert_eq!(refused(&[fixed_coupons(1, 1, 1, 600, 1_666_666, 401)]), Some((14, 0)));
    assert_eq!(refused(&[floating(1, 1, 1, 0, BILLION, 1)]), Some((14, 0)));
    assert_eq!(refused(&[term_deposit(1, 0, [100_000_000; 19])]), Some((14, 0)));
}

/// The interest shrinks with prepayment, so the flows stay below a billion: the scheduled amounts decide.
#[test]
fn scheduled_amounts_of_a_loan_count_by_themselves() {
    let with = |interest| loan(1, 10_000, in_buckets(&[(19, BILLION - 100)]), in_buckets(&[(19, interest)]));
    assert_eq!(refused(&[flat_curve(1, 0), with(100)]), None);
    assert_eq!(refused(&[flat_curve(1, 0), with(101)]), Some((14, 84)));
}

/// Scheduled 500 + 100 in bucket 10; all prepaid before it in scenarios 2, 4 and 6 alone (share 9,000 times 12 passes
/// 100,000, and bucket 9 is a year), so interest is left in the base, 100 · 6 / 500, and in scenarios 1, 3 and 5,
/// 100 · 27 / 500.
#[test]
fn a_loan_counts_the_flows_of_each_scenario() {
    let record = || loan(1, 9_000, in_buckets(&[(10, 500)]), in_buckets(&[(10, 100)]));
    let base: i64 = net_flows(record(), 0).iter().sum();
    let first: i64 = net_flows(record(), 1).iter().sum();
    let second: i64 = net_flows(record(), 2).iter().sum();
    assert_eq!((base, first, second), (501, 505, 500));
    assert_eq!(after(single_flow(1, 1, 0, 0, BILLION - 505), record()), None);
    assert!(after(single_flow(1, 1, 0, 0, BILLION - 504), record()).is_some());
}

#[test]
fn option_values_have_their_own_totals() {
    let full = |side, value| options(1, side, [value, 0, 0, 0, 0, -value]);
    assert_eq!(after(full(1, 500_000_000), full(2, 500_000_000)), None);
    assert!(after(full(1, 500_000_000), full(2, 500_000_001)).is_some());
    assert!(after(full(1, 500_000_000), options(1, 1, [0, 0, 0, 0, 0, 500_000_001])).is_some());
    assert_eq!(after(full(1, 500_000_000), options(1, 1, [0, 1_000_000_000, 0, 0, 0, 0])), None, "by scenario");
    assert_eq!(after(single_flow(1, 1, 0, 0, BILLION), full(1, 1_000_000_000)), None, "not pooled with flows");
}

#[test]
fn totals_are_by_currency_and_before_netting() {
    let (asset, liability) = (single_flow(1, 1, 5, 0, BILLION), single_flow(1, 2, 5, 0, 1));
    assert!(after(asset.clone(), liability.clone()).is_some());
    assert!(after(liability, asset.clone()).is_some());
    let other = single_flow(2, 1, 5, 0, BILLION);
    assert_eq!(refused(&[flat_curve(1, 0), flat_curve(2, 0), asset, other]), None);
}

#[test]
fn number_15_names_the_lowest_currency() {
    let flow = |currency| single_flow(currency, 1, 0, 0, 0);
    assert_eq!(refused(&[flow(32)]), Some((15, 32)));
    assert_eq!(refused(&[flow(32), flow(31)]), Some((15, 31)));
    assert_eq!(refused(&[flow(7), flow(3), flat_curve(7, 0), flow(5)]), Some((15, 3)));
    assert_eq!(refused(&[flow(3), flat_curve(3, 0)]), None, "a curve may follow");
    let all_but_the_last: Vec<u8> = (1..=31).flat_map(|currency| flat_curve(currency, 0)).collect();
    assert_eq!(refused(&[all_but_the_last, flow(32)]), Some((15, 32)));
    assert_eq!(refused(&[options(4, 2, [0; 6])]), Some((15, 4)), "add-ons of nil use a currency too");
    assert_eq!(refused(&[flat_curve(4, 0)]), None, "a curve alone uses nothing");
}

#[test]
fn every_kind_of_position_uses_its_currency() {
    let nil = [0; 19];
    let positions = [
        single_flow(6, 1, 0, 0, 0),
        fixed_coupons(6, 1, 1, 1, 0, 0),
        floating(6, 1, 0, 0, 0, 0),
        floating_spread(floating(6, 1, 0, 0, 0, 0), 1, 1, 0),
        deposit(6, 1, 0, nil),
        loan(6, 0, nil, nil),
        term_deposit(6, 0, nil),
        options(6, 1, [0; 6]),
    ];
    for record in positions {
        assert_eq!(refused(&[record]), Some((15, 6)));
    }
}

//! Halves, and what is rounded up or down.

use crate::hand::*;

fn line_of(records: &[Vec<u8>]) -> ([i64; 6], [i64; 6]) {
    let answer = answer(records, 1_000_000);
    let result = answer.accepted().expect("the records are good");
    (result.changes[0], result.tolerances[0])
}

/// The factor falls from 1,000,000,000 to 367,879,441, by 632,120,559: half a billion of money makes a half.
#[test]
fn a_change_of_a_half_goes_away_from_zero() {
    let steep = || curve(1, [0; 19], [400, 0, 0]);
    let change = |side| line_of(&[steep(), single_flow(1, side, 241, 0, 500_000_000)]).0[0];
    assert_eq!((change(1), change(2)), (316_060_280, -316_060_280));
    let below_half = |side| line_of(&[steep(), single_flow(1, side, 241, 0, 499_999_998)]).0[0];
    assert_eq!((below_half(1), below_half(2)), (316_060_278, -316_060_278));
}

/// The add-on comes after the rounding: rounded together, 0.5 less 1 would go to -1.
#[test]
fn the_add_on_is_added_after_rounding() {
    let records = |side, value| {
        [
            curve(1, [0; 19], [400, 0, 0]),
            single_flow(1, side, 241, 0, 500_000_000),
            options(1, 1, [value, 0, 0, 0, 0, 0]),
        ]
    };
    assert_eq!(line_of(&records(1, -316_060_280)).0[0], 0);
    assert_eq!(line_of(&records(2, 316_060_280)).0[0], 0);
}

/// 26 · 2 · 500,000,000 over a billion is 26 without a rest.
#[test]
fn a_tolerance_is_rounded_up() {
    let tolerance = |amount| line_of(&[flat_curve(1, 0), single_flow(1, 1, 241, 0, amount)]).1[0];
    assert_eq!([0, 1, 19_230_769, 19_230_770, 500_000_000, 500_000_001].map(tolerance), [0, 2, 2, 3, 27, 28]);
}

/// Rounded down bucket by bucket: 0.9 of each of ten coins stays nil where 0.9 of ten is 9.
#[test]
fn a_term_deposit_is_rounded_down_in_each_bucket() {
    let flows = net_flows(term_deposit(1, 9_000, [1; 19]), 0);
    assert_eq!(flows, [-1; 19]);
    assert_eq!(net_flows(term_deposit(1, 9_000, in_buckets(&[(19, 10)])), 0)[0], -9);
}

/// 7 of 10 due in bucket 17. At 10 per cent a year 1 is gone in bucket 9; five years' half of the other 9 would be 4,
/// and payment leaves 2. At 4 per cent nothing is gone before; five years' fifth of 10 is 2, and 1 is left.
#[test]
fn prepayment_takes_what_payment_leaves() {
    let due = |share| net_flows(loan(1, share, in_buckets(&[(17, 7), (18, 3)]), [0; 19]), 0);
    let expected = |ninth, last: [i64; 3]| [&[0; 8][..], &[ninth], &[0; 7], &last].concat();
    assert_eq!(due(1_000).to_vec(), expected(1, [7 + 2, 0, 0]));
    assert_eq!(due(400).to_vec(), expected(0, [7 + 2, 1, 0]));
}

/// A year's 5 per cent of 19 is nil in each bucket up to ten years; for bucket 17's five years it is 4 and not five
/// times nil.
#[test]
fn prepayment_is_rounded_once() {
    let flows = net_flows(loan(1, 500, in_buckets(&[(18, 19)]), [0; 19]), 0);
    assert_eq!(flows.to_vec(), [&[0; 16][..], &[4, 15, 0]].concat());
}

/// Outstanding 9 of scheduled 10 in bucket 10: interest 9 · 9 / 10, rounded down.
#[test]
fn interest_shrinks_with_what_is_outstanding() {
    let flows = net_flows(loan(1, 1_000, in_buckets(&[(10, 10)]), in_buckets(&[(9, 3), (10, 9)])), 0);
    assert_eq!(flows[7..11], [0, 1 + 3, 9 + 8, 0]);
}

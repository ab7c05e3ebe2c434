//! The order of the checks: a record full of faults, mended one by one, shows its numbers in turn.

use crate::hand::*;
use reference::Request;

/// Each record stands behind a curve of currency 1, 84 bytes; nothing is left of the last one. Beside the number, how far
/// into the record its place is, counted by hand from the paper's table.
fn assert_turn(records: Vec<(Vec<u8>, Option<(u8, usize)>)>) {
    for (step, (record, told)) in records.into_iter().enumerate() {
        let expected = told.map(|(number, within)| (number, 84 + within));
        assert_eq!(refused(&[flat_curve(1, 0), record]), expected, "step {step}");
    }
}

const BAD: u32 = BILLION + 1;
const BAD_LADDER: [u32; 19] = [BAD; 19];
const NIL: [u32; 19] = [0; 19];

#[test]
fn single_flow_in_turn() {
    assert_turn(vec![
        (single_flow(0, 0, 601, 31, BAD)[..9].to_vec(), Some((2, 0))),
        (single_flow(0, 0, 601, 31, BAD), Some((3, 1))),
        (single_flow(1, 0, 601, 31, BAD), Some((4, 2))),
        (single_flow(1, 1, 601, 31, BAD), Some((5, 3))),
        (single_flow(1, 1, 600, 31, BAD), Some((5, 5))),
        (single_flow(1, 1, 600, 30, BAD), Some((6, 6))),
        (single_flow(1, 1, 600, 30, BILLION), None),
    ]);
}

#[test]
fn fixed_coupons_in_turn() {
    assert_turn(vec![
        (fixed_coupons(33, 3, 2, 601, BAD, BAD), Some((3, 1))),
        (fixed_coupons(1, 3, 2, 601, BAD, BAD), Some((4, 2))),
        (fixed_coupons(1, 2, 2, 601, BAD, BAD), Some((5, 3))),
        (fixed_coupons(1, 2, 12, 51, BAD, BAD), Some((5, 4))),
        (fixed_coupons(1, 2, 12, 50, BAD, BAD), Some((6, 6))),
        (fixed_coupons(1, 2, 12, 50, BILLION, BAD), Some((6, 10))),
        (fixed_coupons(1, 2, 12, 50, BILLION, BILLION), Some((14, 0))),
        (fixed_coupons(1, 2, 12, 50, 20_000_000, 0), None),
    ]);
}

#[test]
fn floating_in_turn() {
    assert_turn(vec![
        (floating(33, 3, 601, 31, BAD, BAD), Some((3, 1))),
        (floating(1, 3, 601, 31, BAD, BAD), Some((4, 2))),
        (floating(1, 2, 601, 31, BAD, BAD), Some((5, 3))),
        (floating(1, 2, 600, 31, BAD, BAD), Some((5, 5))),
        (floating(1, 2, 600, 30, BAD, BAD), Some((6, 6))),
        (floating(1, 2, 600, 30, BILLION, BAD), Some((6, 10))),
        (floating(1, 2, 600, 30, BILLION, BILLION), Some((14, 0))),
        (floating(1, 2, 600, 30, BILLION, 0), None),
    ]);
}

#[test]
fn floating_spread_in_turn() {
    assert_turn(vec![
        (floating_spread(floating(33, 3, 601, 31, BAD, BAD), 2, 0, BAD)[..20].to_vec(), Some((2, 0))),
        (floating_spread(floating(33, 3, 601, 31, BAD, BAD), 2, 0, BAD), Some((3, 1))),
        (floating_spread(floating(1, 3, 601, 31, BAD, BAD), 2, 0, BAD), Some((4, 2))),
        (floating_spread(floating(1, 2, 601, 31, BAD, BAD), 2, 0, BAD), Some((5, 3))),
        (floating_spread(floating(1, 2, 588, 31, BAD, BAD), 2, 0, BAD), Some((5, 5))),
        (floating_spread(floating(1, 2, 588, 30, BAD, BAD), 2, 0, BAD), Some((6, 6))),
        (floating_spread(floating(1, 2, 588, 30, BILLION, BAD), 2, 0, BAD), Some((6, 10))),
        (floating_spread(floating(1, 2, 588, 30, BILLION, BILLION), 2, 0, BAD), Some((5, 14))),
        (floating_spread(floating(1, 2, 588, 30, BILLION, BILLION), 12, 2, BAD), Some((5, 15))),
        (floating_spread(floating(1, 2, 588, 30, BILLION, BILLION), 12, 1, BAD), Some((6, 17))),
        (floating_spread(floating(1, 2, 588, 30, BILLION, BILLION), 12, 1, BILLION), Some((14, 0))),
        (floating_spread(floating(1, 2, 588, 30, 0, 0), 12, 1, BILLION), None),
    ]);
}

#[test]
fn non_maturity_deposit_in_turn() {
    assert_turn(vec![
        (deposit(33, 4, BAD, BAD_LADDER), Some((3, 1))),
        (deposit(1, 4, BAD, BAD_LADDER), Some((8, 2))),
        (deposit(1, 1, BAD, NIL), Some((6, 3))),
        (deposit(1, 1, 100, in_buckets(&[(19, BAD)])), Some((6, 7 + 4 * 18))),
        (deposit(1, 1, 100, in_buckets(&[(19, 91)])), Some((9, 0))),
        (deposit(1, 1, 100, in_buckets(&[(19, 90)])), Some((10, 0))),
        (deposit(1, 1, 100, in_buckets(&[(11, 90)])), None),
    ]);
    let full = single_flow(1, 1, 0, 0, BILLION);
    let behind = |core: [u32; 19]| refused(&[full.clone(), deposit(1, 1, 100, core)]);
    assert_eq!(behind(in_buckets(&[(19, 90)])), Some((10, 10)), "10 before 14");
    assert_eq!(behind(in_buckets(&[(11, 90)])), Some((14, 10)));
}

#[test]
fn prepayable_loan_in_turn() {
    let billions = [BILLION; 19];
    assert_turn(vec![
        (loan(33, 10_001, BAD_LADDER, BAD_LADDER), Some((3, 1))),
        (loan(1, 10_001, BAD_LADDER, BAD_LADDER), Some((7, 2))),
        (loan(1, 10_000, in_buckets(&[(19, BAD)]), NIL), Some((6, 4 + 4 * 18))),
        (loan(1, 10_000, NIL, in_buckets(&[(19, BAD)])), Some((6, 80 + 4 * 18))),
        (loan(1, 10_000, in_buckets(&[(1, BILLION)]), billions), Some((11, 80 + 4))),
        (loan(1, 10_000, billions, billions), Some((14, 0))),
        (loan(1, 10_000, in_buckets(&[(19, 1)]), in_buckets(&[(19, 1)])), None),
    ]);
}

#[test]
fn term_deposit_and_add_on_in_turn() {
    assert_turn(vec![
        (term_deposit(33, 10_001, BAD_LADDER), Some((3, 1))),
        (term_deposit(1, 10_001, BAD_LADDER), Some((7, 2))),
        (term_deposit(1, 10_000, in_buckets(&[(1, BILLION), (19, BAD)])), Some((6, 4 + 4 * 18))),
        (term_deposit(1, 10_000, in_buckets(&[(1, BILLION), (19, 1)])), Some((14, 0))),
        (options(33, 3, [i32::MIN; 6]), Some((3, 1))),
        (options(1, 3, [i32::MIN; 6]), Some((4, 2))),
        (options(1, 2, [i32::MIN; 6]), Some((6, 3))),
        (options(1, 2, [0, 0, 0, 0, 0, i32::MIN]), Some((6, 3 + 4 * 5))),
        (options(1, 2, [-1_000_000_000; 6]), None),
    ]);
}

#[test]
fn curve_in_turn() {
    assert_turn(vec![
        (curve(33, [300_001; 19], [1_001; 3]), Some((3, 1))),
        (curve(1, [300_001; 19], [1_001; 3]), Some((12, 0))),
        (curve(2, [300_001; 19], [1_001; 3]), Some((13, 2))),
        (curve(2, [300_000; 19], [1_001; 3]), Some((13, 78))),
        (curve(2, [300_000; 19], [1_000; 3]), Some((13, 2))),
        (curve(2, [100_000; 19], [1_000; 3]), None),
    ]);
}

/// Bucket 1 is out once shocked, bucket 19 as read: what is read comes first.
#[test]
fn listed_curve_in_turn() {
    let last = |first, last| std::array::from_fn(|bucket| if bucket == 18 { last } else { first });
    assert_turn(vec![
        (listed_curve(33, 3, b"eur", [300_001; 19])[..81].to_vec(), Some((2, 0))),
        (listed_curve(33, 3, b"eur", [300_001; 19]), Some((3, 1))),
        (listed_curve(1, 3, b"eur", [300_001; 19]), Some((12, 0))),
        (listed_curve(2, 3, b"eur", [300_001; 19]), Some((19, 0))),
        (listed_curve(2, 2, b"eur", [300_001; 19]), Some((20, 0))),
        (listed_curve(2, 2, b"EUR", [300_001; 19]), Some((13, 6))),
        (listed_curve(2, 2, b"EUR", last(300_000, 300_001)), Some((13, 6 + 4 * 18))),
        (listed_curve(2, 2, b"EUR", [300_000; 19]), Some((13, 6))),
        (listed_curve(2, 2, b"EUR", last(100_000, 300_000)), Some((13, 6 + 4 * 18))),
        (listed_curve(2, 2, b"EUR", [100_000; 19]), None),
    ]);
}

#[test]
fn rooms_then_length_then_capital_then_records() {
    let long = vec![0; 65_529];
    let request = |report_room, ledger_room, book, capital| Request { book, capital, report_room, ledger_room };
    let refused = |request: Request| request.answer().refused();
    assert_eq!(refused(request(201, 4_256, &long, 0)), Some((18, 0)));
    assert_eq!(refused(request(202, 4_255, &long, 0)), Some((18, 0)));
    assert_eq!(refused(request(202, 4_256, &long, 0)), Some((17, 0)));
    assert_eq!(refused(request(202, 4_256, &long[..65_528], 0)), Some((16, 0)));
    assert_eq!(refused(request(202, 4_256, &long[..65_528], 1)), Some((1, 0)));
    assert_eq!(refused(request(202, 4_256, &[], 1)), None);
}

#[test]
fn the_first_record_with_a_fault_decides() {
    let flow = single_flow(3, 1, 0, 0, 1);
    assert_eq!(refused(&[flow.clone(), single_flow(1, 3, 0, 0, 1), vec![0]]), Some((4, 10 + 2)));
    assert_eq!(refused(&[flow.clone(), flow.clone(), vec![0]]), Some((1, 20)), "15 waits for the last record");
    assert_eq!(refused(&[flow.clone(), flow]), Some((15, 3)));
}

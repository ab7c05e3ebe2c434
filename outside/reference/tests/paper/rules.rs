//! Rules that the numbers to hold to leave untouched, the trade's slips among them.

use crate::hand::*;
use reference::{irreport, Record, Verdict, KINDS};

fn input(records: &[Vec<u8>]) -> Vec<u8> {
    [&1_000u64.to_be_bytes()[..], &records.concat()].concat()
}

#[test]
fn upper_ends_belong_to_their_buckets() {
    let months = [1, 3, 6, 9, 12, 18, 24, 36, 48, 60, 72, 84, 96, 108, 120, 180, 240];
    for (index, month) in months.into_iter().enumerate() {
        let bucket = |days| net_flows(single_flow(1, 1, month, days, 1), 0).iter().position(|flow| *flow == 1);
        assert_eq!((bucket(0), bucket(1)), (Some(index + 1), Some(index + 2)));
    }
}

#[test]
fn coupons_fall_at_each_end_of_period_and_principal_with_the_last() {
    let flows = net_flows(fixed_coupons(1, 2, 6, 5, 10, 1_000), 4);
    let mut expected = [0; 19];
    [(4, -10), (6, -10), (7, -10), (8, -10), (9, -1_010)]
        .iter()
        .for_each(|(bucket, flow)| expected[bucket - 1] = *flow);
    assert_eq!(flows, expected);
}

#[test]
fn floating_falls_at_the_reset() {
    let flows = net_flows(floating(1, 1, 3, 1, 1_000, 10), 0);
    assert_eq!((flows[3], flows.iter().sum::<i64>()), (1_010, 1_010));
}

/// Principal and coupon at the reset; the spread a period after it for the first time, and at the same days.
#[test]
fn a_spread_falls_after_each_period_from_the_reset() {
    let flows = |floating, period, count| net_flows(floating_spread(floating, period, count, 5), 4);
    let expected = |named: &[(usize, i64)]| {
        let mut ladder = [0; 19];
        named.iter().for_each(|(bucket, flow)| ladder[bucket - 1] = *flow);
        ladder
    };
    let reset = |months, days| floating(1, 1, months, days, 1_000, 10);
    assert_eq!(flows(reset(9, 0), 3, 4), expected(&[(5, 1_010), (6, 5), (7, 10), (8, 5)]));
    assert_eq!(flows(reset(9, 1), 3, 4), expected(&[(6, 1_010), (7, 10), (8, 10)]), "12 months and a day");
    assert_eq!(flows(reset(0, 1), 12, 1), expected(&[(1, 1_010), (7, 5)]), "past the end of 12 months");
    assert_eq!(flows(reset(0, 0), 12, 1), expected(&[(1, 1_010), (6, 5)]));
    assert_eq!(flows(reset(240, 0), 12, 30), expected(&[(18, 1_010), (19, 150)]), "up to month 600");
    assert_eq!(flows(floating(1, 2, 1, 30, 7, 0), 1, 2), expected(&[(3, -12), (4, -5)]));
    let nil = net_flows(floating_spread(reset(9, 1), 3, 4, 0), 0);
    assert_eq!(nil, net_flows(reset(9, 1), 0), "with a spread of nil it is kind 3");
}

#[test]
fn what_is_not_core_joins_bucket_1() {
    let flows = net_flows(deposit(1, 3, 1_000, in_buckets(&[(1, 100), (9, 200)])), 6);
    assert_eq!((flows[0], flows[8], flows.iter().sum::<i64>()), (-800, -200, -1_000));
}

/// The multiples of 10 that each scenario takes of the share: of a loan seen in bucket 2, a month wide, of a deposit
/// in bucket 1.
#[test]
fn behaviour_follows_the_scenario() {
    let loan = loan(1, 1_000, in_buckets(&[(19, 12_000)]), [0; 19]);
    let deposit = term_deposit(1, 1_000, in_buckets(&[(19, 1_000)]));
    let seen = |record: &[u8], bucket: usize| {
        (0..7).map(|scenario| net_flows(record.to_vec(), scenario)[bucket - 1].abs()).collect::<Vec<_>>()
    };
    assert_eq!(seen(&loan, 2), [100, 80, 120, 80, 120, 80, 120]);
    assert_eq!(seen(&deposit, 1), [100, 120, 80, 80, 120, 120, 80]);
}

/// Six per cent a year of what is left: for a month half a per cent, for one night nothing. The last bucket has the
/// rest.
#[test]
fn prepayment_goes_by_the_width_of_the_bucket() {
    let months = [0, 1, 2, 3, 3, 3, 6, 6, 12, 12, 12, 12, 12, 12, 12, 12, 60, 60];
    let mut left = 120_000;
    let flows = net_flows(loan(1, 600, in_buckets(&[(19, 120_000)]), [0; 19]), 0);
    for (bucket, months) in months.into_iter().enumerate() {
        assert_eq!(flows[bucket], left * 6 * months / 1_200, "bucket {}", bucket + 1);
        left -= flows[bucket];
    }
    assert_eq!(flows[18], left);
}

/// A year asks for all of it at the whole rate, and so does the year of scenario 2 from a share of 8,334 on.
#[test]
fn a_year_at_the_whole_rate_takes_all() {
    let left_to = |share, scenario| net_flows(loan(1, share, in_buckets(&[(10, 1_000_000)]), [0; 19]), scenario)[9];
    assert_eq!([left_to(10_000, 0), left_to(8_334, 2), left_to(10_000, 2)], [0, 0, 0]);
    assert!(left_to(9_999, 0) > 0 && left_to(8_333, 2) > 0 && left_to(10_000, 1) > 0);
}

#[test]
fn a_loan_returns_its_principal_in_every_scenario() {
    let principals = std::array::from_fn(|bucket| 1_000 + 37 * bucket as u32);
    for share in [0, 1, 333, 5_000, 10_000] {
        for scenario in 0..7 {
            let returned: i64 = net_flows(loan(1, share, principals, [0; 19]), scenario).iter().sum();
            assert_eq!(returned, principals.iter().map(|principal| i64::from(*principal)).sum::<i64>());
        }
    }
}

/// Currency 1 loses what currency 2 gains: the gain is not set off.
#[test]
fn gains_in_one_currency_do_not_pay_for_losses_in_another() {
    let curves = || [curve(1, [0; 19], [400, 0, 0]), curve(2, [0; 19], [400, 0, 0])].concat();
    let both = [curves(), single_flow(1, 1, 241, 0, 1_000_000), single_flow(2, 2, 241, 0, 1_000_000)];
    let expected =
        "C 1 632121 -1718282 0 0 0 0\nC 2 -632121 1718282 0 0 0 0\nS 632121 1718282 0 0 0 0\nM 1718282 2 4\nV OVER\n";
    assert_eq!(irreport(&input(&both)), expected);
}

#[test]
fn the_smallest_scenario_is_the_worst_and_add_ons_alone_count() {
    let sold = options(3, 1, [0, 5, -9, 5, 5, 4]);
    let bought = options(3, 2, [0, 0, -9, 0, 0, 0]);
    let expected = "C 3 0 5 0 5 5 4\nS 0 5 0 5 5 4\nM 5 2 0\nV WITHIN\n";
    assert_eq!(irreport(&input(&[sold, flat_curve(3, 0), bought])), expected);
}

#[test]
fn curves_alone_print_lines_of_zeros_in_order() {
    let expected = "C 2 0 0 0 0 0 0\nC 10 0 0 0 0 0 0\nC 32 0 0 0 0 0 0\nS 0 0 0 0 0 0\nM 0 0 0\nV WITHIN\n";
    assert_eq!(irreport(&input(&[flat_curve(32, 9), flat_curve(10, 9), flat_curve(2, -9)])), expected);
}

/// Base -1 per cent, up to 3, down to -5: factors E(0.25), 1 / E(0.75) and E(1.25) in bucket 19.
#[test]
fn rates_are_signed() {
    let records = [curve(1, [-10_000; 19], [400, 0, 0]), single_flow(1, 1, 600, 0, 1_000_000)];
    let answer = answer(&records, 1_000);
    assert_eq!(answer.accepted().unwrap().changes[0][..2], [811_659, -2_206_318]);
}

#[test]
fn the_total_tolerance_takes_every_currency_and_the_greatest_scenario() {
    let book = [
        curve(1, [0; 19], [400, 0, 0]),
        flat_curve(2, 0),
        single_flow(1, 1, 241, 0, 100_000_000),
        single_flow(2, 2, 241, 0, 500_000_000),
    ];
    let answer = answer(&book, 1_000);
    assert_eq!(answer.accepted().unwrap().total_tolerance, (1 + 6) + (1 + 26));
}

/// A flow of 1 that no shock moves brings a tolerance of 2; the add-on makes the measure.
#[test]
fn the_verdict_at_equality() {
    let verdict = |measure: i32, capital| {
        let records = [flat_curve(1, 0), single_flow(1, 1, 0, 0, 1), options(1, 1, [measure, 0, 0, 0, 0, 0])];
        answer(&records, capital).accepted().expect("good records").verdict
    };
    assert_eq!([99, 100].map(|capital| verdict(15 + 2, capital)), [Verdict::Over, Verdict::Close]);
    assert_eq!([99, 100].map(|capital| verdict(15 - 2, capital)), [Verdict::Close, Verdict::Within]);
}

/// Netted in one bucket, an asset and a liability leave no flow, hence no tolerance and no change.
#[test]
fn tolerance_is_of_net_flows() {
    let pair = [single_flow(1, 1, 60, 0, 400), single_flow(1, 2, 55, 0, 400), curve(1, [500; 19], [100, 0, 0])];
    assert_eq!(irreport(&input(&pair)), "C 1 0 0 0 0 0 0\nS 0 0 0 0 0 0\nM 0 0 0\nV WITHIN\n");
}

#[test]
fn the_layout_writes_what_the_hand_writes() {
    let by_layout = |kind: usize, values: Vec<i64>| Record::new(&KINDS[kind - 1], values).bytes();
    let counted: Vec<i64> = (1..=19).collect();
    let amounts: [u32; 19] = std::array::from_fn(|bucket| bucket as u32 + 1);
    assert_eq!(by_layout(1, vec![8, 2, 600, 30, 1_000]), single_flow(8, 2, 600, 30, 1_000));
    assert_eq!(by_layout(2, vec![1, 2, 12, 50, 7, 70_000]), fixed_coupons(1, 2, 12, 50, 7, 70_000));
    assert_eq!(by_layout(3, vec![1, 2, 300, 5, 70_000, 7]), floating(1, 2, 300, 5, 70_000, 7));
    assert_eq!(by_layout(4, [&[1, 3, 999][..], &counted].concat()), deposit(1, 3, 999, amounts));
    assert_eq!(by_layout(5, [&[1, 400][..], &counted, &[0; 19]].concat()), loan(1, 400, amounts, [0; 19]));
    assert_eq!(by_layout(6, [&[1, 400][..], &counted].concat()), term_deposit(1, 400, amounts));
    assert_eq!(by_layout(7, vec![1, 2, 1, -2, 3, -4, 5, -6]), options(1, 2, [1, -2, 3, -4, 5, -6]));
    assert_eq!(by_layout(8, [&[1][..], &[-7; 19], &[1, 2, 3]].concat()), curve(1, [-7; 19], [1, 2, 3]));
    let spread = floating_spread(floating(1, 2, 300, 5, 70_000, 7), 12, 25, 900);
    assert_eq!(by_layout(9, vec![1, 2, 300, 5, 70_000, 7, 12, 25, 900]), spread);
    assert_eq!(by_layout(10, [&[1, 2, 0x45_55_52][..], &[-7; 19]].concat()), listed_curve(1, 2, b"EUR", [-7; 19]));
}

//! Each refusal number at its edges, with its place: what is just in and what is just out.
//! A curve of 84 bytes goes first, so the record under test begins at place 84. How far into the record a field begins
//! is counted by hand from the paper's table.

use crate::hand::*;
use reference::{irreport, Request};

/// The number, and how many bytes of the record lie before its place.
fn told(record: Vec<u8>) -> Option<(u8, usize)> {
    refused(&[flat_curve(1, 0), record]).map(|(number, place)| (number, place - 84))
}

fn assert_in(records: impl IntoIterator<Item = Vec<u8>>) {
    records.into_iter().for_each(|record| assert_eq!(told(record.clone()), None, "{record:?}"));
}

/// Turned down at a field that begins so many bytes into the record, or at its first byte.
fn assert_out(number: u8, within: usize, records: impl IntoIterator<Item = Vec<u8>>) {
    records.into_iter().for_each(|record| assert_eq!(told(record.clone()), Some((number, within)), "{record:?}"));
}

fn nil() -> [u32; 19] {
    [0; 19]
}

/// One good record of each kind, in currency 1 but for the curves.
fn one_of_each() -> Vec<Vec<u8>> {
    vec![
        single_flow(1, 1, 12, 3, 5),
        fixed_coupons(1, 2, 3, 4, 5, 6),
        floating(1, 1, 3, 0, 7, 1),
        deposit(1, 1, 10, in_buckets(&[(2, 5)])),
        loan(1, 100, in_buckets(&[(3, 50)]), in_buckets(&[(3, 2)])),
        term_deposit(1, 100, in_buckets(&[(4, 9)])),
        options(1, 1, [1, -2, 3, -4, 5, -6]),
        flat_curve(2, 10),
        floating_spread(floating(1, 2, 3, 30, 7, 1), 6, 5, 2),
        listed_curve(2, 1, b"EUR", [10; 19]),
    ]
}

#[test]
fn number_1_unknown_kind() {
    assert_in(one_of_each());
    assert_out(1, 0, [vec![0], vec![11], vec![255], vec![11; 200]]);
}

#[test]
fn number_2_body_cut_short() {
    for record in one_of_each() {
        assert_out(2, 0, [record[..1].to_vec(), record[..2].to_vec(), record[..record.len() - 1].to_vec()]);
    }
    let lengths: Vec<usize> = one_of_each().iter().map(|record| record.len() - 1).collect();
    assert_eq!(
        lengths,
        [9, 13, 13, 82, 155, 79, 26, 83, 20, 81],
        "the hand that writes the records follows the paper's table"
    );
}

#[test]
fn number_3_bad_currency() {
    for record in one_of_each() {
        let in_currency = |currency: u8| [&record[..1], &[currency], &record[2..]].concat();
        for bad in [0].into_iter().chain(33..=255) {
            assert_out(3, 1, [in_currency(bad)]);
        }
        for good in 1..=32 {
            let mut book = vec![in_currency(good)];
            let is_curve = [8, 10].contains(&record[0]);
            (1..=32).filter(|other| !is_curve || *other != good).for_each(|other| book.push(flat_curve(other, 0)));
            assert_eq!(refused(&book), None);
        }
    }
}

#[test]
fn number_4_bad_side() {
    for record in one_of_each().into_iter().filter(|record| [1, 2, 3, 7, 9].contains(&record[0])) {
        let on_side = |side: u8| [&record[..2], &[side], &record[3..]].concat();
        assert_in([1, 2].map(on_side));
        assert_out(4, 2, [0, 3, 255].map(on_side));
    }
}

#[test]
fn number_5_bad_term() {
    assert_in([(0, 0), (0, 30), (600, 0), (600, 30)].map(|(months, days)| single_flow(1, 1, months, days, 1)));
    assert_out(5, 3, [(601, 0), (601, 31), (65_535, 0)].map(|(months, days)| single_flow(1, 1, months, days, 1)));
    assert_out(5, 5, [(0, 31), (600, 31), (0, 255)].map(|(months, days)| single_flow(1, 1, months, days, 1)));
    assert_in([(600, 30)].map(|(months, days)| floating(1, 1, months, days, 1, 1)));
    assert_out(5, 3, [(601, 30), (601, 31)].map(|(months, days)| floating(1, 1, months, days, 1, 1)));
    assert_out(5, 5, [(600, 31)].map(|(months, days)| floating(1, 1, months, days, 1, 1)));
}

#[test]
fn number_5_bad_period_or_count() {
    assert_in(
        [(1, 600), (3, 200), (6, 100), (12, 50), (1, 1)]
            .map(|(period, count)| fixed_coupons(1, 1, period, count, 1, 1)),
    );
    assert_out(
        5,
        4,
        [(1, 601), (3, 201), (6, 101), (12, 51), (12, 65_535), (1, 0), (12, 0)]
            .map(|(period, count)| fixed_coupons(1, 1, period, count, 1, 1)),
    );
    assert_out(5, 3, [0, 2, 4, 5, 7, 11, 13, 255].map(|period| fixed_coupons(1, 1, period, 1, 1, 1)));
    assert_out(5, 3, [0, 601].map(|count| fixed_coupons(1, 1, 2, count, 1, 1)));
}

/// The last month counts from the reset, and its days do not: nothing is left after a reset at 600 months.
#[test]
fn number_5_of_a_spread() {
    let with = |(months, days, period, count)| floating_spread(floating(1, 1, months, days, 1, 1), period, count, 1);
    assert_in([(0, 0, 1, 600), (0, 30, 12, 50), (599, 30, 1, 1), (588, 30, 12, 1), (300, 0, 3, 100)].map(with));
    assert_out(5, 15, [(0, 0, 1, 601), (1, 0, 1, 600), (589, 0, 12, 1), (588, 0, 12, 2), (301, 0, 3, 100)].map(with));
    assert_out(5, 15, [1, 2, 50, 65_535].map(|count| with((600, 0, 1, count))));
    assert_out(5, 15, [(0, 0, 1, 0), (600, 0, 12, 0)].map(with));
    assert_out(5, 3, [(601, 0, 1, 1), (601, 31, 2, 0)].map(with));
    assert_out(5, 5, [(0, 31, 1, 1), (600, 31, 2, 0)].map(with));
    assert_out(5, 14, [0, 2, 4, 5, 7, 11, 13, 255].map(|period| with((0, 0, period, 1))));
    assert_out(5, 14, [(600, 30, 2, 0), (600, 30, 2, 1)].map(with));
}

#[test]
fn number_6_amounts() {
    for amount in [BILLION, BILLION + 1, 1 << 31, u32::MAX] {
        let lone = |bucket| in_buckets(&[(bucket, amount)]);
        let six = |within| (amount > BILLION).then_some((6, within));
        assert_eq!(told(single_flow(1, 1, 1, 0, amount)), six(6));
        assert_eq!(told(fixed_coupons(1, 1, 1, 1, amount, 0)), six(6));
        assert_eq!(told(fixed_coupons(1, 1, 1, 1, 0, amount)), six(10));
        assert_eq!(told(floating(1, 1, 1, 0, amount, 0)), six(6));
        assert_eq!(told(floating(1, 1, 1, 0, 0, amount)), six(10));
        assert_eq!(told(floating_spread(floating(1, 1, 1, 0, amount, 0), 1, 1, 0)), six(6));
        assert_eq!(told(floating_spread(floating(1, 1, 1, 0, 0, amount), 1, 1, 0)), six(10));
        assert_eq!(told(floating_spread(floating(1, 1, 1, 0, 0, 0), 1, 1, amount)), six(17));
        assert_eq!(told(deposit(1, 1, amount, nil())), six(3));
        for bucket in 1..=19 {
            assert_eq!(told(loan(1, 0, lone(bucket), nil())), six(4 * bucket));
            assert_eq!(told(term_deposit(1, 0, lone(bucket))), six(4 * bucket));
            // A core or an interest of a billion runs into 9 or 11: not into 6.
            assert_eq!(told(deposit(1, 1, 0, lone(bucket))), six(3 + 4 * bucket).or(Some((9, 0))));
            let interest = 76 + 4 * bucket;
            assert_eq!(told(loan(1, 0, nil(), lone(bucket))), six(interest).or(Some((11, interest))));
        }
    }
}

/// The earliest of several in layout: principals stand before interests, buckets in their order.
#[test]
fn number_6_is_told_at_the_earliest() {
    let bad = |buckets: &[usize]| in_buckets(&buckets.iter().map(|bucket| (*bucket, BILLION + 1)).collect::<Vec<_>>());
    assert_out(6, 4 + 4 * 18, [loan(1, 0, bad(&[19]), bad(&[1]))]);
    assert_out(6, 4 + 4 * 6, [loan(1, 0, bad(&[7, 8]), nil()), term_deposit(1, 0, bad(&[7, 19]))]);
    assert_out(6, 7 + 4 * 6, [deposit(1, 1, BILLION, bad(&[7, 8]))]);
    assert_out(6, 3 + 4 * 2, [options(1, 1, [0, 0, i32::MIN, 0, i32::MAX, 0])]);
}

#[test]
fn number_6_option_values() {
    for scenario in 0..6 {
        let with = |value: i32| options(1, 2, std::array::from_fn(|index| if index == scenario { value } else { 0 }));
        assert_in([1_000_000_000, -1_000_000_000].map(with));
        assert_out(6, 3 + 4 * scenario, [1_000_000_001, -1_000_000_001, i32::MAX, i32::MIN].map(with));
    }
}

#[test]
fn number_7_share() {
    assert_in([loan(1, 10_000, nil(), nil()), term_deposit(1, 10_000, nil())]);
    assert_out(7, 2, [10_001, 65_535].map(|share| loan(1, share, nil(), nil())));
    assert_out(7, 2, [10_001, 65_535].map(|share| term_deposit(1, share, nil())));
}

#[test]
fn number_8_category() {
    assert_in([1, 2, 3].map(|category| deposit(1, category, 10, nil())));
    assert_out(8, 2, [0, 4, 255].map(|category| deposit(1, category, 10, nil())));
}

#[test]
fn number_9_core_above_its_cap() {
    for (category, per_cent) in [(1, 90), (2, 70), (3, 50)] {
        let with_core = |core: u32| deposit(1, category, 1_001, in_buckets(&[(1, 1), (5, core - 1)]));
        let greatest = 1_001 * per_cent / 100;
        assert_in([with_core(greatest)]);
        assert_out(9, 0, [with_core(greatest + 1)]);
        assert_in([deposit(1, category, 100, in_buckets(&[(4, per_cent)]))]);
        assert_out(9, 0, [deposit(1, category, 0, in_buckets(&[(4, 1)]))]);
    }
}

#[test]
fn number_10_core_average_above_its_cap() {
    let pairs = [(1, 11, 12), (2, 10, 12), (3, 10, 11)];
    for (category, lower, upper) in pairs {
        let halves = |less: u32, more: u32| deposit(1, category, 1_000, in_buckets(&[(lower, less), (upper, more)]));
        assert_in([halves(250, 250), halves(251, 249)]);
        assert_out(10, 0, [halves(249, 251), halves(0, 1)]);
    }
    assert_in([deposit(1, 2, 1_000, in_buckets(&[(11, 700)])), deposit(1, 1, 0, nil())]);
    assert_out(10, 0, [deposit(1, 2, 1_000, in_buckets(&[(11, 699), (12, 1)]))]);
}

#[test]
fn number_11_interest_without_principal() {
    let with = |principal: &[(usize, u32)], interest| loan(1, 0, in_buckets(principal), in_buckets(&[(interest, 1)]));
    assert_in([with(&[(7, 1)], 7), with(&[(7, 1)], 1), with(&[(19, 1)], 19), with(&[(1, 9), (19, 1)], 18)]);
    assert_out(11, 80 + 4 * 7, [with(&[(7, 1)], 8), with(&[(1, 9), (7, 1)], 8)]);
    assert_out(11, 80 + 4 * 18, [with(&[(18, 1)], 19), with(&[(1, 9), (7, 1)], 19)]);
    assert_out(11, 80, [with(&[], 1)]);
    let interests = |buckets: [usize; 3]| in_buckets(&buckets.map(|bucket| (bucket, 1)));
    assert_out(11, 80 + 4 * 9, [loan(1, 0, in_buckets(&[(9, 1)]), interests([9, 10, 19]))]);
}

#[test]
fn number_12_second_curve() {
    assert_in((2..=32).map(|currency| flat_curve(currency, 0)));
    assert_out(12, 0, [flat_curve(1, 0), flat_curve(1, 5), flat_curve(1, 300_001)]);
    let every_curve: Vec<Vec<u8>> = (1..=32).map(|currency| flat_curve(currency, 0)).collect();
    assert_eq!(refused(&every_curve), None);
    for second in 1..=32 {
        assert_eq!(refused(&[every_curve.concat(), flat_curve(second, 0)]), Some((12, 32 * 84)), "currency {second}");
    }
}

#[test]
fn number_13_rates_and_shocks() {
    for bucket in 0..19 {
        let with = |rate: i32| curve(2, std::array::from_fn(|index| if index == bucket { rate } else { 0 }), [0; 3]);
        assert_in([-50_000, 300_000].map(with));
        assert_out(13, 2 + 4 * bucket, [-50_001, 300_001, i32::MIN, i32::MAX].map(with));
    }
    for shock in 0..3 {
        let with =
            |size: u16| curve(2, [100_000; 19], std::array::from_fn(|index| if index == shock { size } else { 0 }));
        assert_in([0, 1_000].map(with));
        assert_out(13, 78 + 2 * shock, [1_001, 65_535].map(with));
    }
    assert_out(
        13,
        2 + 4 * 18,
        [curve(2, std::array::from_fn(|index| if index == 18 { 300_001 } else { 0 }), [1_001; 3])],
    );
}

/// s of bucket 1 is 999,300,245 and of bucket 19 is 1,930,454: ends of the changes' ranges.
#[test]
fn number_13_shocked_rates() {
    let at = |bucket: usize, rate: i32, shocks| {
        curve(2, std::array::from_fn(|index| if index + 1 == bucket { rate } else { 100_000 }), shocks)
    };
    assert_in([at(1, 260_000, [400, 0, 0]), at(1, -10_000, [400, 0, 0]), at(19, 260_000, [400, 0, 0])]);
    assert_out(13, 2, [at(1, 260_001, [400, 0, 0]), at(1, -10_001, [400, 0, 0])]);
    assert_out(13, 74, [at(19, 260_001, [400, 0, 0])]);
    assert_in([at(1, 260_028, [0, 400, 0]), at(1, -10_028, [0, 400, 0])]);
    assert_out(13, 2, [at(1, 260_029, [0, 400, 0]), at(1, -10_029, [0, 400, 0])]);
    assert_in([at(19, 300_000 - 35_931, [0, 0, 400]), at(19, -50_000 + 23_954, [0, 0, 400])]);
    assert_out(13, 74, [at(19, 300_001 - 35_931, [0, 0, 400]), at(19, -50_001 + 23_954, [0, 0, 400])]);
}

/// Bucket 4 goes out in scenario 2 and bucket 5 in scenario 1: the bucket counts, whichever scenario.
#[test]
fn number_13_is_told_at_the_lowest_bucket() {
    let mut rates = [100_000; 19];
    (rates[3], rates[4], rates[18]) = (-50_000, 300_000, 300_000);
    assert_out(13, 2 + 4 * 3, [curve(2, rates, [1, 0, 0])]);
    assert_out(13, 2, [curve(2, [300_000; 19], [1, 0, 0]), curve(2, [-50_000; 19], [0, 0, 1_000])]);
    rates[3] = 100_000;
    assert_out(13, 2 + 4 * 4, [curve(2, rates, [0, 1, 0])]);
}

#[test]
fn number_16_capital() {
    let number = |capital| Request::roomy(&[], capital).answer().refused();
    assert_eq!([1, 1_000_000_000_000].map(number), [None; 2]);
    assert_eq!([0, 1_000_000_000_001, 1 << 63, u64::MAX].map(number), [Some((16, 0)); 4]);
}

#[test]
fn number_16_and_17_by_the_length_of_the_input() {
    for length in 0..8 {
        assert_eq!(irreport(&vec![1; length]), "R 16 0\n");
    }
    let input = |length: usize| [&1u64.to_be_bytes()[..], &vec![255; length - 8]].concat();
    assert_eq!(irreport(&input(65_536)), "R 1 0\n");
    assert_eq!(irreport(&input(65_537)), "R 17 0\n");
    assert_eq!(irreport(&[0; 65_537]), "R 17 0\n", "17 comes before 16");
}

#[test]
fn number_17_book_too_long() {
    let number = |length: usize| Request::roomy(&vec![255; length], 1).answer().refused();
    assert_eq!((number(65_528), number(65_529)), (Some((1, 0)), Some((17, 0))));
}

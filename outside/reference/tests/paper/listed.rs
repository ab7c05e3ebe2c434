//! Kind 10, a curve whose shocks are listed (02, request 5).

use crate::hand::*;
use reference::{irreport, listed};

/// An asset in each bucket, all of currency 1.
fn assets() -> Vec<u8> {
    let months = [0, 1, 2, 4, 7, 10, 13, 19, 25, 37, 49, 61, 73, 85, 97, 109, 121, 181, 241];
    months.iter().flat_map(|months| single_flow(1, 1, *months, 0, 1_000_000)).collect()
}

fn report_with(curve: Vec<u8>) -> Vec<i64> {
    answer(&[assets(), curve], 1_000_000).accepted().expect("a good book").report()
}

/// Counted from the record's first byte, where it stands behind a curve of currency 1.
fn told(record: Vec<u8>) -> Option<(u8, usize)> {
    refused(&[flat_curve(1, 0), record]).map(|(number, place)| (number, place - 84))
}

#[test]
fn a_listed_curve_is_the_curve_with_the_shocks_typed() {
    let rates = std::array::from_fn(|bucket| 20_000 + 500 * bucket as i32);
    for edition in [1, 2] {
        for listed in listed(edition) {
            let typed = curve(1, rates, listed.shocks.map(|shock| shock as u16));
            let (by_list, by_hand) = (listed_curve(1, edition as u8, &listed.code.0, rates), report_with(typed));
            assert_eq!(report_with(by_list), by_hand, "edition {edition}, {:?}", listed.code);
        }
    }
}

/// Rows of the two tables, typed from the sources once more.
#[test]
fn some_shocks_as_they_are_listed() {
    let rows: [(u8, &[u8; 3], [u16; 3]); 8] = [
        (1, b"EUR", [200, 250, 100]),
        (1, b"USD", [200, 300, 150]),
        (1, b"AUD", [300, 450, 200]),
        (1, b"SGD", [150, 200, 100]),
        (2, b"EUR", [225, 350, 200]),
        (2, b"USD", [200, 300, 225]),
        (2, b"HKD", [225, 375, 200]),
        (2, b"SGD", [175, 250, 225]),
    ];
    for (edition, code, shocks) in rows {
        let by_list = report_with(listed_curve(1, edition, code, [30_000; 19]));
        assert_eq!(by_list, report_with(curve(1, [30_000; 19], shocks)), "edition {edition}, {code:?}");
    }
}

/// Edition 1 lists 400, 500 and 300 for INR. The paper's example has the same parallel shock, hence scenarios 1 and 2. In
/// bucket 19 the others are 26,885, -17,888 and 97 millionths either way: a million times one less the factor of
/// 0.672125, -0.4472 and 0.002425.
#[test]
fn the_papers_example_by_the_list() {
    let book = [listed_curve(1, 1, b"INR", [0; 19]), single_flow(1, 1, 241, 0, 1_000_000)].concat();
    let input = [&4_214_126u64.to_be_bytes()[..], &book].concat();
    let expected = "C 1 632121 -1718282 489378 -563927 2422 -2428\nS 632121 0 489378 0 2422 0\nM 632121 1 2\nV OVER\n";
    assert_eq!(irreport(&input), expected);
}

#[test]
fn a_second_curve_of_either_kind() {
    let (typed, by_list) = (flat_curve(3, 0), listed_curve(3, 1, b"EUR", [0; 19]));
    assert_eq!(refused(&[typed.clone(), by_list.clone()]), Some((12, 84)));
    assert_eq!(refused(&[by_list.clone(), typed]), Some((12, 82)));
    assert_eq!(refused(&[by_list.clone(), by_list.clone()]), Some((12, 82)));
    assert_eq!(refused(&[by_list, listed_curve(4, 1, b"EUR", [0; 19])]), None, "one code may serve two currencies");
}

#[test]
fn it_is_a_curve_and_no_position() {
    let flow = single_flow(5, 1, 12, 0, 1);
    assert_eq!(refused(&[flow.clone(), listed_curve(5, 2, b"ZAR", [0; 19])]), None);
    assert_eq!(refused(&[flow, listed_curve(6, 2, b"ZAR", [0; 19])]), Some((15, 5)));
    assert_eq!(refused(&[listed_curve(6, 2, b"ZAR", [0; 19])]), None, "a curve alone uses nothing");
}

#[test]
fn number_19_unknown_edition() {
    for edition in 0..=255 {
        let due = (edition != 1 && edition != 2).then_some((19, 0));
        assert_eq!(told(listed_curve(2, edition, b"EUR", [0; 19])), due, "edition {edition}");
    }
}

/// Exactly the three bytes count.
#[test]
fn number_20_code_not_in_that_edition() {
    let codes =
        [b"eur", b"EUr", b"eUR", b"EU ", b"   ", b"NOK", b"PLN", b"XXX", b"EUS", b"EUQ", b"DUR", b"ERU", b"\0\0\0"];
    for edition in [1, 2] {
        codes
            .iter()
            .for_each(|code| assert_eq!(told(listed_curve(2, edition, code, [0; 19])), Some((20, 0)), "{code:?}"));
        for place in 0..3 {
            let mut code = *b"EUR";
            code[place] |= 0x80;
            assert_eq!(told(listed_curve(2, edition, &code, [0; 19])), Some((20, 0)), "{code:?}");
        }
    }
}

#[test]
fn number_13_rates_as_read() {
    for bucket in 0..19 {
        let with =
            |rate| listed_curve(2, 1, b"JPY", std::array::from_fn(|index| if index == bucket { rate } else { 0 }));
        for bad in [-50_001, 300_001, i32::MIN, i32::MAX] {
            assert_eq!(told(with(bad)), Some((13, 6 + 4 * bucket)));
        }
    }
}

/// In bucket 1 the short shock moves rates furthest, by 24,983 in edition 1 and 34,976 in edition 2, since s is 999,300,245
/// there; in bucket 19 the parallel one does, by 20,000 and 22,500.
#[test]
fn number_13_shocked_rates() {
    let with = |edition, bucket: usize, rate| {
        listed_curve(2, edition, b"EUR", std::array::from_fn(|index| if index + 1 == bucket { rate } else { 100_000 }))
    };
    for (edition, bucket, most) in [(1, 1, 24_983), (2, 1, 34_976), (1, 19, 20_000), (2, 19, 22_500)] {
        for (edge, beyond) in [(300_000 - most, 300_001 - most), (most - 50_000, most - 50_001)] {
            assert_eq!(told(with(edition, bucket, edge)), None, "edition {edition}, bucket {bucket}, {edge}");
            assert_eq!(told(with(edition, bucket, beyond)), Some((13, 6 + 4 * (bucket - 1))), "{beyond}");
        }
    }
}

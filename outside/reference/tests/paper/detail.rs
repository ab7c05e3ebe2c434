//! `irdetail`: what the report was worked out from, and the measure against the limit. Every number is worked by hand from
//! 01 and 02.

use crate::hand::*;
use reference::irdetail;

fn input(records: &[Vec<u8>], capital: u64) -> Vec<u8> {
    [&capital.to_be_bytes()[..], &records.concat()].concat()
}

/// The lines that begin with these words, without them.
fn lines(text: &str, words: &str) -> Vec<String> {
    text.lines().filter_map(|line| line.strip_prefix(words)).map(str::to_string).collect()
}

/// The numbers of the one line that begins with these words.
fn numbers(text: &str, words: &str) -> Vec<i64> {
    let [line] = &lines(text, words)[..] else { panic!("not one line {words} in {text}") };
    line.split(' ').map(|number| number.parse().expect("a number")).collect()
}

/// T, limit, headroom and share of a book whose measure is an add-on: no flow, no tolerance.
fn against_limit(measure: i32, capital: u64) -> String {
    let book = [flat_curve(1, 0), options(1, 1, [measure, 0, 0, 0, 0, 0])];
    let text = irdetail(&input(&book, capital));
    text[text.find("T ").expect("a line for T")..].to_string()
}

/// A million at the base and a million in each scenario: 1 and 0.052 rounded up. 15 per cent of 4,214,126 is 632,118.90,
/// and 632,121 is 15.000049.. per cent of it.
#[test]
fn the_worked_example() {
    let (nils, tolerances) = (" 0".repeat(19), " 2".repeat(6));
    let flows = " 0".repeat(18) + " 1000000";
    let (up, down) = (" 40000".repeat(19), " -40000".repeat(19));
    let due = [
        "C 1 632121 -1718282 0 0 0 0\nS 632121 0 0 0 0 0\nM 632121 1 2\nV OVER\n".to_string(),
        format!("U 1{tolerances}\n"),
        format!("Z 1 0{nils}\nF 1 0{flows}\nZ 1 1{up}\nF 1 1{flows}\nZ 1 2{down}\nF 1 2{flows}\n"),
        (3..=6).map(|scenario| format!("Z 1 {scenario}{nils}\nF 1 {scenario}{flows}\n")).collect(),
        "A 1 0 0 0 0 0 0\nK 1 1 0 0 0 0 0 0 1 0 0\n".to_string(),
        "N 2\nT 4214126\nL 632118.90\nH -2.10\nP 15.01\n".to_string(),
    ];
    let book = [curve(1, [0; 19], [400, 0, 0]), single_flow(1, 1, 241, 0, 1_000_000)];
    assert_eq!(irdetail(&input(&book, 4_214_126)), due.concat());
}

#[test]
fn an_empty_book() {
    let due = "S 0 0 0 0 0 0\nM 0 0 0\nV WITHIN\nN 0\nT 1\nL 0.15\nH 0.15\nP 0.00\n";
    assert_eq!(irdetail(&1u64.to_be_bytes()), due);
}

/// 150,000 is 15 per cent of a million to the coin; one more is 15.0001 per cent, one less 14.9999.
#[test]
fn a_share_is_rounded_up() {
    assert_eq!(against_limit(150_000, 1_000_000), "T 1000000\nL 150000.00\nH 0.00\nP 15.00\n");
    assert_eq!(against_limit(150_001, 1_000_000), "T 1000000\nL 150000.00\nH -1.00\nP 15.01\n");
    assert_eq!(against_limit(149_999, 1_000_000), "T 1000000\nL 150000.00\nH 1.00\nP 15.00\n");
    assert_eq!(against_limit(149_900, 1_000_000), "T 1000000\nL 150000.00\nH 100.00\nP 14.99\n");
}

/// 2 is 15.3846.. per cent of 13 and 14.2857.. of 14; 17 is 15.0442.. of 113 and 14.9122.. of 114.
#[test]
fn headroom_is_exact_on_both_sides_of_nil() {
    assert_eq!(against_limit(2, 13), "T 13\nL 1.95\nH -0.05\nP 15.39\n");
    assert_eq!(against_limit(2, 14), "T 14\nL 2.10\nH 0.10\nP 14.29\n");
    assert_eq!(against_limit(17, 113), "T 113\nL 16.95\nH -0.05\nP 15.05\n");
    assert_eq!(against_limit(17, 114), "T 114\nL 17.10\nH 0.10\nP 14.92\n");
}

#[test]
fn shares_from_nothing_to_many_times_the_capital() {
    assert_eq!(against_limit(1, 2_000), "T 2000\nL 300.00\nH 299.00\nP 0.05\n");
    let (greatest, limit) = ("T 1000000000000\nL 150000000000.00\n", 1_000_000_000_000);
    assert_eq!(against_limit(1, limit), format!("{greatest}H 149999999999.00\nP 0.01\n"));
    assert_eq!(against_limit(0, limit), format!("{greatest}H 150000000000.00\nP 0.00\n"));
    assert_eq!(against_limit(1_000_000_000, 1), "T 1\nL 0.15\nH -999999999.85\nP 100000000000.00\n");
}

/// s of bucket 1 is 999,300,245 and of bucket 19 1,930,454. With 250 and 100 basis points the changes are, divided by a
/// billion, -16,232.33, 19,981.81 and 24,982.51 in bucket 1, and 8,951.26, -5,949.81 and 48.26 in bucket 19.
#[test]
fn rates_of_the_base_and_of_each_scenario() {
    let mut base = [20_000; 19];
    base[18] = -1_000;
    let text = irdetail(&input(&[curve(7, base, [200, 250, 100])], 1));
    let of_bucket = |bucket: usize| {
        (0..=6).map(|scenario| numbers(&text, &format!("Z 7 {scenario} "))[bucket - 1]).collect::<Vec<_>>()
    };
    assert_eq!(of_bucket(1), [20_000, 40_000, 0, 3_768, 39_982, 44_983, -4_983]);
    assert_eq!(of_bucket(19), [-1_000, 19_000, -21_000, 7_951, -6_950, -952, -1_048]);
}

/// A tenth of 1,000 is withdrawn early at the base, 12 hundredths in scenarios 1, 4 and 5, 8 in the others; the asset of 70
/// stays where it is. 1,070 and 1,070 bring a tolerance of 2; what is netted away brings none.
#[test]
fn flows_of_the_base_and_of_each_scenario() {
    let deposits = term_deposit(9, 1_000, in_buckets(&[(6, 1_000)]));
    let netted = [single_flow(9, 1, 60, 0, 44), single_flow(9, 2, 59, 0, 44), single_flow(9, 1, 600, 0, 70)];
    let text = irdetail(&input(&[&netted[..], &[deposits, flat_curve(9, 0)]].concat(), 1));
    for (scenario, early) in [100, 120, 80, 80, 120, 120, 80].into_iter().enumerate() {
        let mut due = vec![0; 19];
        (due[0], due[5], due[18]) = (-early, early - 1_000, 70);
        assert_eq!(numbers(&text, &format!("F 9 {scenario} ")), due, "scenario {scenario}");
    }
    assert_eq!(numbers(&text, "U 9 "), [2; 6]);
}

/// Currency 2: of 400,000,000 in bucket 6 a tenth is withdrawn early at the base, 12 or 8 hundredths in a scenario, against
/// an asset of 200,000,000 in bucket 1. Magnitudes come to 520 million at the base and to 504 or 536 million: 26.624 or
/// 27.456, rounded up, and 1. Currency 3: 26 times 38,461,540 is 40 above a billion.
#[test]
fn tolerances_are_those_of_each_currency_and_scenario() {
    let curves = [flat_curve(1, 0), flat_curve(2, 0), flat_curve(3, 0)].concat();
    let deposits = term_deposit(2, 1_000, in_buckets(&[(6, 400_000_000)]));
    let assets = [single_flow(2, 1, 0, 0, 200_000_000), single_flow(3, 1, 6, 0, 19_230_770)].concat();
    let text = irdetail(&input(&[curves, deposits, assets], 1));
    assert_eq!(lines(&text, "U "), ["1 0 0 0 0 0 0", "2 28 29 29 28 28 29", "3 3 3 3 3 3 3"]);
}

#[test]
fn add_ons_are_as_they_are_added_to_the_change() {
    let sold = options(4, 1, [120, -40, 15, 35, 80, -25]);
    let bought = options(4, 2, [20, -5, 0, 35, 100, 1]);
    let text = irdetail(&input(&[sold, flat_curve(4, 0), flat_curve(5, 0), bought], 1));
    assert_eq!(lines(&text, "A "), ["4 100 -35 15 0 -20 -26", "5 0 0 0 0 0 0"]);
}

/// Currencies in order, whatever the order of the book.
#[test]
fn records_count_by_kind_and_currency() {
    let nil = [0; 19];
    let spread = || floating_spread(floating(32, 2, 3, 0, 7, 1), 6, 5, 2);
    let book = [
        [spread(), floating(32, 1, 3, 0, 7, 1), listed_curve(32, 1, b"EUR", [0; 19]), spread()].concat(),
        [term_deposit(2, 0, nil), single_flow(2, 1, 0, 0, 0), single_flow(2, 2, 0, 0, 0), flat_curve(2, 0)].concat(),
        [deposit(2, 1, 10, nil), loan(2, 0, nil, nil), fixed_coupons(2, 1, 1, 1, 1, 1), options(2, 2, [0; 6])].concat(),
        flat_curve(10, 0),
        [options(32, 1, [0; 6]), options(32, 1, [0; 6]), options(32, 1, [0; 6])].concat(),
    ];
    let text = irdetail(&input(&book, 1));
    assert_eq!(lines(&text, "K "), ["2 2 1 0 1 1 1 1 1 0 0", "10 0 0 0 0 0 0 0 1 0 0", "32 0 0 1 0 0 0 3 0 2 1"]);
    assert_eq!(lines(&text, "N "), ["16"]);
}

/// Also where good records stand before the fault.
#[test]
fn what_is_turned_down_has_one_line() {
    let good = || [flat_curve(1, 0), single_flow(1, 1, 0, 0, 5)].concat();
    assert_eq!(irdetail(&input(&[good(), vec![11]], 1)), "R 1 94\n");
    assert_eq!(irdetail(&input(&[good(), single_flow(3, 1, 0, 0, 5)], 1)), "R 15 3\n");
    assert_eq!(irdetail(&input(&[good()], 0)), "R 16 0\n");
    assert_eq!(irdetail(b"1234567"), "R 16 0\n");
    assert_eq!(irdetail(&input(&[vec![0; 65_529]], 1)), "R 17 0\n");
}

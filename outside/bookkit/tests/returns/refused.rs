//! The report of a book that is turned down: number, record, field, bytes, what is expected and what usually causes it.

use crate::tables::{section, seen, tables};
use crate::{assessed, input, run};
use bookkit::{explain, report, Form};
use books::{aimed_case, Draw};
use reference::answer_input;

/// The second cell of a row of the section that says where the fault is; empty where there is no such row.
fn told(page: &str, what: &str) -> String {
    let rows = tables(page, "where").remove(0);
    rows.into_iter().find(|row| row[0] == what).map(|row| row[1].clone()).unwrap_or_default()
}

fn page(input: &[u8]) -> String {
    report(&assessed(input), Form::Page)
}

/// Run, field, its bytes, its value and what is expected: written by hand from the texts of the runs and the layout of the
/// records.
const FIELDS: [[&str; 5]; 16] = [
    ["01-unknown-kind", "kind, place 84, 1 byte", "00 00 01 90 00 00 00 00 [c8] 01 01", "200", "1 to 10"],
    [
        "03-currency",
        "currency, place 85, 1 byte",
        "00 01 90 00 00 00 00 01 [21] 01 00 01 00 00 00 00 01",
        "33",
        "1 to 32",
    ],
    [
        "04-side",
        "side, place 86, 1 byte",
        "01 90 00 00 00 00 01 01 [03] 00 01 00 00 00 00 01",
        "3",
        "1 (asset) or 2 (liability)",
    ],
    [
        "05-count",
        "count, place 88, 2 bytes",
        "00 00 00 00 02 01 01 0c [00 33] 00 00 00 01 00 00 00 01",
        "51",
        "so few that period times count is at most 600 months",
    ],
    [
        "05-last-month",
        "count, place 99, 2 bytes",
        "00 00 01 00 00 00 01 0c [00 01] 00 00 00 01",
        "1",
        "so few that months plus period times count is at most 600 months",
    ],
    [
        "06-amount",
        "amount, place 90, 4 bytes",
        "00 00 01 01 01 00 01 00 [3b 9a ca 01]",
        "1,000,000,001",
        "0 to 1,000,000,000 thousand",
    ],
    [
        "07-share",
        "share, place 86, 2 bytes",
        "01 90 00 00 00 00 06 01 [27 11] 00 00 00 00 00 00 00 01",
        "10,001",
        "0 to 10,000 hundredths of a per cent",
    ],
    [
        "08-category",
        "category, place 86, 1 byte",
        "01 90 00 00 00 00 04 01 [04] 00 00 03 e8 00 00 00 00",
        "4",
        "1 to 3",
    ],
    [
        "11-interest-alone",
        "interests of bucket 3 (1 to 3 months), place 172, 4 bytes",
        "00 00 00 00 00 00 00 00 [00 00 00 01] 00 00 00 00 00 00 00 00",
        "1",
        "0, or scheduled principal in this bucket or a later one",
    ],
    [
        "13-listed-shock",
        "rates of bucket 19 (above 20 years), place 162, 4 bytes",
        "00 00 00 00 00 00 00 00 [ff ff 8a cf]",
        "-30,001",
        "a rate that stays within -50,000 to 300,000 in every scenario",
    ],
    [
        "13-lowest-bucket",
        "rates of bucket 4 (3 to 6 months), place 98, 4 bytes",
        "00 00 00 00 00 00 00 00 [ff ff 3c b0] 00 04 93 e0 00 00 00 00",
        "-50,000",
        "a rate that stays within -50,000 to 300,000 in every scenario",
    ],
    [
        "13-shocked-rate",
        "rates of bucket 1 (overnight), place 86, 4 bytes",
        "01 90 00 00 00 00 08 02 [00 04 93 e0] 00 04 93 e0 00 04 93 e0",
        "300,000",
        "a rate that stays within -50,000 to 300,000 in every scenario",
    ],
    [
        "16-capital",
        "Tier 1 capital, the first 8 bytes of the file",
        "[00 00 00 e8 d4 a5 10 01]",
        "1,000,000,000,001",
        "1 to 1,000,000,000,000 thousand",
    ],
    ["19-edition", "edition, place 86, 1 byte", "01 90 00 00 00 00 0a 02 [03] 4e 4f 4b 00 04 93 e1 00", "3", "1 to 2"],
    [
        "20-code",
        "code, place 87, 3 bytes",
        "90 00 00 00 00 0a 02 01 [4e 4f 4b] 00 04 93 e1 00 00 00 00",
        "\"NOK\"",
        "a code of three capital letters that the edition lists, as EUR",
    ],
    [
        "20-small-letters",
        "code, place 87, 3 bytes",
        "90 00 00 00 00 0a 02 01 [65 75 72] 00 00 00 00 00 00 00 00",
        "\"eur\"",
        "a code of three capital letters that the edition lists, as EUR",
    ],
];

#[test]
fn the_field_its_bytes_its_value_and_what_is_expected() {
    for [name, field, bytes, value, expected] in FIELDS {
        let page = page(&run(name));
        let found = ["Field", "Its bytes", "Value read", "Expected"].map(|what| told(&page, what));
        assert_eq!(found, [field, bytes, value, expected], "{name}");
    }
}

/// Where no single field is at fault.
#[test]
fn the_record_and_what_is_expected_of_it() {
    let whole = "the record as a whole, as its text below says";
    let runs = [
        ("02-cut-short", "2, counted from 1; kind 1, single flow; it begins at place 84", "a body of 8 bytes, and then the book's end", "a body of 9 bytes"),
        ("09-core", "2, counted from 1; kind 4, non-maturity deposit; it begins at place 84", whole,
            "a core of at most 90, 70 or 50 per cent of the total, for category 1, 2 or 3"),
        ("10-core-average", "2, counted from 1; kind 4, non-maturity deposit; it begins at place 84", whole,
            "an average midpoint of the core of at most 5, 4.5 or 4 years, for category 1, 2 or 3"),
        ("12-second-curve", "2, counted from 1; kind 8, curve; it begins at place 84",
            "a curve of currency 1, which record 1 has at place 0 already", "one curve for each currency"),
        ("12-second-listed-curve", "2, counted from 1; kind 10, listed curve; it begins at place 84",
            "a curve of currency 1, which record 1 has at place 0 already", "one curve for each currency"),
        ("14-limit", "4, counted from 1; kind 1, single flow; it begins at place 104", whole,
            "magnitudes of at most 1,000,000,000 thousand in one currency and scenario, this record and those before it added"),
        ("15-last-currency", "3, counted from 1; kind 1, single flow; it begins at place 94, the first of this currency",
            "a curve of currency 9 alone", "a curve of currency 32, of kind 8 or 10"),
        ("15-no-curve", "3, counted from 1; kind 1, single flow; it begins at place 94, the first of this currency",
            "a curve of currency 1 alone", "a curve of currency 2, of kind 8 or 10"),
    ];
    for (name, record, value, expected) in runs {
        let page = page(&run(name));
        let found = ["Field", "Record", "Value read", "Expected"].map(|what| told(&page, what));
        assert_eq!(found, ["", record, value, expected], "{name}");
    }
}

#[test]
fn ranges_that_no_stored_run_meets() {
    let of = |line: &str| {
        let page = page(&input(&format!("capital 1\n{line}\n")));
        ["Value read", "Expected"].map(|what| told(&page, what))
    };
    assert_eq!(of("single-flow currency=1 side=asset months=601 days=0 amount=1"), ["601", "0 to 600"]);
    assert_eq!(of("single-flow currency=1 side=asset months=1 days=31 amount=1"), ["31", "0 to 30"]);
    assert_eq!(of("fixed-coupons currency=1 side=asset period=2 count=1 coupon=1 principal=1"), ["2", "1, 3, 6 or 12"]);
    assert_eq!(of("fixed-coupons currency=1 side=asset period=3 count=0 coupon=1 principal=1"), ["0", "1 to 600"]);
    assert_eq!(of("option-add-on currency=1 side=0 values=nil"), ["0", "1 (sold) or 2 (bought)"]);
    let magnitudes = "-1,000,000,000 to 1,000,000,000 thousand";
    assert_eq!(of("option-add-on currency=1 side=1 values=2:-1000000001"), ["-1,000,000,001", magnitudes]);
    assert_eq!(
        of("curve currency=1 rates=2:300001 parallel=0 short=0 long=0"),
        ["300,001", "-50,000 to 300,000 millionths"]
    );
    assert_eq!(of("curve currency=1 rates=nil parallel=0 short=1001 long=0"), ["1,001", "0 to 1,000 basis points"]);
    let none = page(&input("capital 1\nsingle-flow currency=7 side=asset months=1 days=0 amount=1\n"));
    assert_eq!(told(&none, "Value read"), "no curve at all");
}

#[test]
fn inputs_too_short_and_too_long() {
    let short = page(b"1234567");
    assert_eq!(told(&short, "Its bytes"), "[31 32 33 34 35 36 37]");
    assert_eq!(told(&short, "Value read"), "7 bytes, too few for capital");
    assert!(section(&short, "causes").contains("In this case this is text, not an input of irreport."));
    let long = page(&[0; 70_000]);
    assert_eq!(told(&long, "Refusal"), "17, at place 0");
    assert_eq!(
        [told(&long, "Value read"), told(&long, "Expected")],
        ["more than 65,536 bytes", "at most 65,536 bytes"]
    );
    assert_eq!(
        tables(&long, "input")[0][1..],
        [["Size", "more than 65,536 bytes"], ["SHA-256", "none was taken: no more was read than irdetail takes"]]
    );
}

/// All numbers that an input can earn, on books that the generator aims at them.
#[test]
fn every_number_has_its_page_with_its_causes() {
    for (number, seed) in (1..=17).chain([19, 20]).flat_map(|number| (0..20).map(move |seed| (number, seed))) {
        let input = aimed_case(&mut Draw::seeded(seed), number, true).input();
        let (found, place) = answer_input(&input).refused().expect("a refusal");
        let page = page(&input);
        assert!(told(&page, "Refusal").starts_with(&format!("{found}, at place {place}")), "{number}, seed {seed}");
        let explained = explain(found).expect("an explanation");
        let (said, causes) = explained.split_once("What usually causes it:\n").expect("causes");
        let first = said.split_once(": ").expect("a meaning").1.lines().next().expect("a line");
        assert!(
            seen(section(&page, "verdict")).contains(&format!("Turned down with refusal {found}, {first}")),
            "{first}"
        );
        for cause in causes.lines().map(|line| &line[2..]).chain(said.lines().nth(2)) {
            assert!(seen(section(&page, "causes")).contains(cause), "{number}: {cause}");
        }
        if matches!(found, 3..=8 | 11 | 13) {
            let bytes = told(&page, "Its bytes");
            let fault = bytes.split(['[', ']']).nth(1).expect("brackets").split(' ');
            let fault: Vec<u8> = fault.map(|digits| u8::from_str_radix(digits, 16).expect("a byte")).collect();
            assert!(input[8 + place..].starts_with(&fault), "{number}, seed {seed}: {bytes}");
            assert!(
                told(&page, "Byte of the file").replace(',', "").starts_with(&format!("{} ", 8 + place)),
                "{number}, seed {seed}"
            );
        }
    }
}

/// Three at most, as text, so that shifted bytes are seen.
#[test]
fn the_records_before_it_are_listed() {
    let rows = tables(&page(&run("14-limit")), "before").remove(0);
    assert_eq!(rows.len(), 3);
    assert_eq!(rows[0][..3], ["1", "0", "curve"]);
    assert_eq!(
        rows[2],
        ["3", "94", "single flow", "single-flow currency=1 side=liability months=1 days=0 amount=500000000"]
    );
    assert!(!page(&run("16-capital")).contains("id=\"before\""));
    let first = page(&input("capital 1\nraw 63\n"));
    assert!(!first.contains("id=\"before\""));
}

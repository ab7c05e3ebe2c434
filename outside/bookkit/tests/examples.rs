//! The books under `examples/`: text, input and report of each agree.

use bookkit::{make, show_input};
use reference::{irreport, split, split_input};
use std::collections::BTreeSet;
use std::fs;
use std::path::PathBuf;

fn example(name: &str) -> Vec<u8> {
    let path = PathBuf::from(env!("CARGO_MANIFEST_DIR")).join("../../examples").join(name);
    fs::read(&path).unwrap_or_else(|error| panic!("{}: {error}", path.display()))
}

fn text_of(name: &str) -> String {
    String::from_utf8(example(name)).expect("text")
}

#[test]
fn text_input_and_report_agree() {
    for name in ["worked", "small-bank", "listed-curves", "abroad", "damaged", "mistyped"] {
        let input = example(&format!("{name}.input"));
        assert_eq!(make(&example(&format!("{name}.txt"))), Ok(input.clone()), "{name}");
        assert_eq!(irreport(&input), text_of(&format!("{name}.report")), "{name}");
    }
}

/// Written from the paper by hand, byte by byte.
#[test]
fn the_worked_example_is_that_of_the_paper() {
    let curve = [&[8, 1][..], &[0; 19 * 4], &[1, 144, 0, 0, 0, 0]].concat();
    let flow = [1, 1, 1, 0, 241, 0, 0, 15, 66, 64];
    let input = [&4_214_126u64.to_be_bytes()[..], &curve, &flow].concat();
    assert_eq!(example("worked.input"), input);
    assert_eq!(text_of("worked.report"), "C 1 632121 -1718282 0 0 0 0\nS 632121 0 0 0 0 0\nM 632121 1 2\nV OVER\n");
}

#[test]
fn the_small_bank_has_kinds_1_to_9_in_two_currencies_and_its_twin_listed_curves() {
    for (name, due) in [("small-bank", [1, 2, 3, 4, 5, 6, 7, 8, 9]), ("listed-curves", [1, 2, 3, 4, 5, 6, 7, 9, 10])] {
        let input = example(&format!("{name}.input"));
        let (_, book) = split_input(&input).expect("an input");
        let (records, rest) = split(book);
        let kinds: BTreeSet<u8> = records.iter().map(|record| record[0]).collect();
        let currencies: BTreeSet<u8> = records.iter().map(|record| record[1]).collect();
        assert_eq!((currencies.len(), rest.len()), (2, 0));
        assert!(kinds.into_iter().eq(due), "{name}");
        assert_eq!(show_input(&input).refusal.map(|refusal| refusal.number), None);
    }
}

/// As its text says: currency 1 has the changes of the small bank; so has currency 2 by edition 1, and by edition 2 those of
/// the small bank with 175, 250 and 225 typed.
#[test]
fn the_listed_curves_are_those_of_the_small_bank_with_the_shocks_typed() {
    let of = |name: &str, right: &str, other: &str| {
        let text = text_of(name);
        assert_eq!(text.matches(right).count(), 1, "{right}");
        irreport(&make(text.replace(right, other).as_bytes()).expect("a good text"))
    };
    let (small, listed) = (text_of("small-bank.report"), text_of("listed-curves.report"));
    assert_eq!(small.lines().next(), listed.lines().next());
    assert_ne!(small, listed);
    assert_eq!(of("listed-curves.txt", "edition=2 code=SGD", "edition=1 code=SGD"), small);
    let typed = ("parallel=150 short=200 long=100", "parallel=175 short=250 long=225");
    assert_eq!(of("small-bank.txt", typed.0, typed.1), listed);
}

/// Numbers may have gaps: the same bank in currencies 1, 2 and 3 has the same changes.
#[test]
fn the_bank_abroad_has_currencies_1_9_and_32_and_what_they_are_called_does_not_matter() {
    let (text, report) = (text_of("abroad.txt"), text_of("abroad.report"));
    let of_currency = |line: &str| line.split(' ').nth(1).map(str::to_string);
    let currencies: Vec<_> = report.lines().filter(|line| line.starts_with("C ")).filter_map(of_currency).collect();
    assert_eq!(currencies, ["1", "9", "32"]);
    let called = text.replace("currency=9 ", "currency=2 ").replace("currency=32 ", "currency=3 ");
    let due = report.replace("C 9 ", "C 2 ").replace("C 32 ", "C 3 ");
    assert_eq!(irreport(&make(called.as_bytes()).expect("a good text")), due);
}

#[test]
fn the_damaged_and_the_mistyped_book_are_shown_as_their_texts_say() {
    for name in ["damaged", "mistyped"] {
        let listing = show_input(&example(&format!("{name}.input")));
        assert!(text_of(&format!("{name}.txt")).ends_with(&listing.text), "{name}");
    }
    assert!(example("small-bank.input").starts_with(&example("damaged.input")));
}

/// The loan lies at 98; bucket 18's principal is 4 + 68 bytes into it, its interest 80 + 68.
#[test]
fn the_mistyped_book_lacks_two_amounts_and_is_told_at_the_first_interest_left_alone() {
    let (good, mistyped) = (example("small-bank.input"), example("mistyped.input"));
    let principals = [1_500u32, 4_000].map(u32::to_be_bytes).concat();
    let mended = [&mistyped[..8 + 170], &principals, &mistyped[8 + 178..]].concat();
    assert_eq!(mended, good);
    assert_eq!(mistyped[8 + 246..8 + 250], 250u32.to_be_bytes());
    assert_eq!(text_of("mistyped.report"), "R 11 246\n");
}

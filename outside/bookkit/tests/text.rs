//! The text form: what it may look like, and what is said about a bad line.

use bookkit::{explain, make, show_book, BadLine};
use reference::{CURRENCIES, LEDGER_CELLS, LONGEST_BOOK, REPORT_CELLS, STORED_CELLS};

const FLOW: [u8; 10] = [1, 2, 1, 1, 44, 5, 0, 0, 3, 232];

fn why(text: &str) -> (usize, String) {
    let BadLine { line, why } = make(text.as_bytes()).expect_err("a bad line");
    (line, why)
}

#[test]
fn comments_blank_lines_order_and_line_ends_do_not_matter() {
    let text = "# first\r\n\r\n  single-flow days=5 amount=1000 side=asset months=300 currency=2 # last\r\n";
    assert_eq!(make(text.as_bytes()), Ok(FLOW.to_vec()));
    assert_eq!(make(b"single-flow currency=2 side=1 months=300 days=5 amount=1000"), Ok(FLOW.to_vec()));
    assert_eq!(make(b""), Ok(vec![]));
}

#[test]
fn capital_makes_an_input() {
    assert_eq!(make(b"capital 258\nraw 09 ff\nraw 00"), Ok(vec![0, 0, 0, 0, 0, 0, 1, 2, 9, 255, 0]));
}

#[test]
fn lists_run_from_bucket_to_bucket() {
    let line = |amounts: &str| format!("term-deposit currency=1 share=2 amounts={amounts}");
    let amounts = |text: &str| {
        make(line(text).as_bytes()).expect("a good line")[4..].chunks(4).map(|four| four[3]).collect::<Vec<_>>()
    };
    let mut expected = [0; 19];
    assert_eq!(amounts("nil"), expected);
    expected[2..5].fill(7);
    expected[18] = 9;
    assert_eq!(amounts("19:9,3-5:7"), expected);
    let book = make(line("19:9,3-5:7").as_bytes()).expect("a good line");
    assert!(show_book(&book).text.contains("amounts=3-5:7,19:9 "));
}

#[test]
fn sides_have_words_where_they_are_good() {
    let text = |side: u8| show_book(&[&[1, 1, side][..], &FLOW[3..]].concat()).text;
    assert!(text(1).contains(" side=asset ") && text(2).contains(" side=liability ") && text(3).contains(" side=3 "));
    let text = |side: u8| show_book(&[&[7, 1, side][..], &[0; 24]].concat()).text;
    assert!(text(1).contains(" side=sold ") && text(2).contains(" side=bought ") && text(0).contains(" side=0 "));
}

fn listed_curve(edition: u8, code: [u8; 3]) -> Vec<u8> {
    [&[10, 1, edition][..], &code, &[0; 76]].concat()
}

#[test]
fn a_code_stands_as_it_is_or_in_hexadecimal() {
    let ways = [
        (*b"EUR", "EUR"),
        (*b"eUr", "eUr"),
        (*b"EU0", "EU0"),
        (*b"EU ", "45:55:20"),
        (*b"\0\0\0", "00:00:00"),
        (*b"E=#", "45:3d:23"),
        ([255, b'\n', 128], "ff:0a:80"),
        ([0xc3, 0xa4, b'A'], "c3:a4:41"),
    ];
    for (code, written) in ways {
        let line = format!("listed-curve currency=1 edition=1 code={written} rates=nil");
        assert_eq!(make(line.as_bytes()), Ok(listed_curve(1, code)), "{written}");
        assert!(show_book(&listed_curve(1, code)).text.contains(&format!("\n{line}  # place 0")), "{written}");
    }
    let line = b"listed-curve currency=1 edition=1 code=45:55:5A rates=nil";
    assert_eq!(make(line), Ok(listed_curve(1, *b"EUZ")), "letters may stand in hexadecimal, whose digits may be large");
}

/// The shocks beside every listed curve that has some, and beside each of edition 2 that nobody has checked it.
#[test]
fn a_listed_curve_is_shown_with_its_shocks_and_edition_2_with_its_doubt() {
    let line = |edition, code| {
        let text = show_book(&listed_curve(edition, code)).text;
        text.lines().find(|line| line.starts_with("listed-curve ")).expect("a line").to_string()
    };
    let doubt = "; edition 2 was entered from recollection and must be held against the published table (BCBS d578, \
                 July 2024) before filing";
    let eur = line(1, *b"EUR");
    assert!(eur.ends_with("  # place 0; its shocks, as listed: parallel 200, short 250, long 100"), "{eur}");
    let eur = line(2, *b"EUR");
    assert!(eur.ends_with(&format!("as listed: parallel 225, short 350, long 200{doubt}")), "{eur}");
    assert!(line(2, *b"eur").ends_with(&format!("  # place 0{doubt}")));
    assert!(line(1, *b"eur").ends_with("  # place 0") && line(3, *b"EUR").ends_with("  # place 0"));
    assert!(!show_book(&[&[8, 1][..], &[0; 82]].concat()).text.contains("listed"));
}

/// The bytes of a code may be anything, and one line stays one.
#[test]
fn number_20_shows_the_code_escaped() {
    let because = |code| show_book(&listed_curve(2, code)).refusal.expect("a refusal").because;
    assert_eq!(because(*b"eur"), "code \"eur\" is not listed in edition 2");
    assert_eq!(because([0x1b, b'\n', 255]), "code \"\\x1b\\n\\xff\" is not listed in edition 2");
}

#[test]
fn a_bad_line_is_named_with_its_reason() {
    let flow = "single-flow currency=1 side=asset months=1 amount=4";
    let bad = [
        ("loan currency=1", "\"loan\" is no record"),
        (flow, "single-flow lacks days"),
        ("single-flow currency=1 currency=1 side=asset months=1 days=2 amount=4", "has currency twice"),
        ("single-flow day=1", "not \"day=1\""),
        ("single-flow days", "not \"days\""),
        ("single-flow currency=1 side=sold months=1 days=2 amount=4", "side takes asset or liability, not \"sold\""),
        ("single-flow currency=1 side=asset months=1 days=256 amount=4", "days cannot hold 256: only 0 to 255 fit"),
        ("single-flow currency=1 side=asset months=1 days=2 amount=-1", "amount cannot hold -1"),
        (
            "single-flow currency=1 side=asset months=1 days=2 amount=1,000",
            "amount takes a whole number, not \"1,000\"",
        ),
        ("term-deposit currency=1 share=2 amounts=1-3:4,3:5", "names bucket 3 twice"),
        ("term-deposit currency=1 share=2 amounts=20:5", "has buckets 1 to 19, not \"20\""),
        ("term-deposit currency=1 share=2 amounts=3-2:5", "has buckets 1 to 19, not \"3-2\""),
        ("term-deposit currency=1 share=2 amounts=5", "not \"5\""),
        ("option-add-on currency=1 side=sold values=7:1", "has scenarios 1 to 6, not \"7\""),
        ("listed-curve currency=1 edition=256 code=EUR rates=nil", "edition cannot hold 256: only 0 to 255 fit"),
        ("listed-curve currency=1 edition=1 code=EURO rates=nil", "code takes three letters like EUR, or "),
        ("listed-curve currency=1 edition=1 code=EU rates=nil", "not \"EU\""),
        ("listed-curve currency=1 edition=1 code=45:55 rates=nil", "not \"45:55\""),
        ("listed-curve currency=1 edition=1 code=45:55:5 rates=nil", "not \"45:55:5\""),
        ("listed-curve currency=1 edition=1 code=45:55:+5 rates=nil", "not \"45:55:+5\""),
        ("listed-curve currency=1 edition=1 code=45:55:52:00 rates=nil", "not \"45:55:52:00\""),
        ("listed-curve currency=1 edition=1 code=ä1 rates=nil", "not \"ä1\""),
        ("listed-curve currency=1 edition=1 code=E-R rates=nil", "not \"E-R\""),
        ("listed-curve currency=1 code=EUR rates=nil", "listed-curve lacks edition"),
        ("capital", "capital takes one number"),
        ("raw 0", "not \"0\""),
        ("raw +1", "not \"+1\""),
        ("raw", "hexadecimal"),
    ];
    for (text, reason) in bad {
        let (line, why) = why(&format!("# a comment\n{text}\n"));
        assert!(line == 2 && why.contains(reason) && !why.contains('\n'), "{text}: line {line}: {why}");
    }
    assert_eq!(why("raw 01\ncapital 5").0, 2);
    assert_eq!(why("capital 1\ncapital 5"), (2, "capital comes once, before everything else".to_string()));
    assert_eq!(make(b"\n\nraw \xff").expect_err("no text").line, 3);
}

#[test]
fn each_number_is_explained_and_no_other() {
    for number in 1..=20 {
        let text = explain(number).expect("an explanation");
        let lines: Vec<&str> = text.lines().collect();
        assert!(lines.len() > 4 && lines[0].starts_with(&format!("{number}: ")), "{text}");
        assert!(
            lines[3] == "What usually causes it:" && lines[4..].iter().all(|line| line.starts_with("- ")),
            "{text}"
        );
        let place = match number {
            3 | 4 | 6 | 7 | 8 => "Its place: the first byte of the field.",
            5 => "Its place: the first byte of the field; of the count where the last month is too late.",
            11 => "Its place: the first byte of the interest, the lowest such bucket's.",
            13 => {
                "Its place: the first byte of the rate or the shock; for a shocked rate, of the base rate in the lowest"
            }
            15 => "Its place: the lowest such currency, which is no byte.",
            16..=18 => "Its place: always 0.",
            _ => "Its place: the record's first byte.",
        };
        assert!(lines[1].starts_with(place), "{text}");
    }
    assert_eq!((explain(0), explain(21)), (None, None));
}

#[test]
fn the_sizes_explained_are_those_of_the_reference() {
    let assert_said = |number, size: String| {
        let text = explain(number).expect("an explanation").replace(',', "");
        assert!(text.contains(&size), "{size} in {text}");
    };
    assert_said(3, format!(" 1 to {CURRENCIES}."));
    assert_said(17, format!(" at most {LONGEST_BOOK} bytes"));
    assert_said(18, format!(" below {REPORT_CELLS} numbers or that for the ledger below {LEDGER_CELLS};"));
    assert_said(18, format!(" not exactly {STORED_CELLS} numbers."));
}

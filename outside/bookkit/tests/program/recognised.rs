//! A file that is plainly something else is named, in one line and with none of its bytes listed.

use crate::{assert_one_line, bookkit, directory};
use bookkit::{make, show_input, something_else, Wanted};
use books::case;
use reference::Request;
use std::fs;
use std::path::{Path, PathBuf};

fn example(name: &str) -> PathBuf {
    PathBuf::from(env!("CARGO_MANIFEST_DIR")).join("../../examples").join(name)
}

fn assert_named(words: &[&str], file: &Path, what: &[&str]) {
    let output = bookkit(&[&words.iter().map(Path::new).collect::<Vec<_>>()[..], &[file]].concat());
    assert_one_line(&output, 2, &[&["this is "][..], what].concat());
    assert!(output.stdout.is_empty(), "{what:?}");
}

#[test]
fn what_people_have_beside_their_books() {
    let file = directory("beside").join("a");
    let csv = "date;bucket;amount\n2026-10-31;1;100\n2026-10-31;2;200\n";
    let others: [(&[u8], &str); 8] = [
        (b"%PDF-1.7\n%\xe2\xe3\xcf\xd3\n1 0 obj", "a PDF file"),
        (b"PK\x03\x04\x14\x00\x06\x00\x08\x00[Content_Types].xml", "a zip file"),
        (b"\x1f\x8b\x08\x00\x00\x00\x00\x00", "a gzip file"),
        (b"\xff\xfed\x00a\x00t\x00e\x00", "text in UTF-16"),
        (csv.as_bytes(), "a table as text (CSV)"),
        (b"Dear colleague,\nthe book, as you asked,\nis not here.\n", "text, not "),
        ("Grüße aus Köln".as_bytes(), "text, not "),
        (b"Gr\xfc\xdfe aus K\xf6ln", "text, not "),
    ];
    for (bytes, what) in others {
        // A large file of the kind is named too, not only said to be too long.
        for bytes in [bytes.to_vec(), bytes.iter().copied().cycle().take(bytes.len() * 10_000).collect()] {
            fs::write(&file, bytes).expect("a file");
            assert_named(&["show"], &file, &[what, "not a book"]);
            assert_named(&["show", "--input"], &file, &[what, "not an input of irreport"]);
        }
    }
    fs::write(&file, b"%PDF-1.7\n").expect("a file");
    assert_named(&["make"], &file, &["a PDF file, not the text of a book"]);
}

#[test]
fn a_book_in_the_wrong_hands() {
    let bare = directory("wrong_hands").join("bare");
    let input = fs::read(example("small-bank.input")).expect("an example");
    for whole in [true, false] {
        fs::write(&bare, &input[8..if whole { input.len() } else { input.len() - 20 }]).expect("a book");
        assert_named(&["show", "--input"], &bare, &["a book without its capital", "bookkit show lists it"]);
        assert_named(&["make"], &bare, &["a book in bytes"]);
    }
    for name in ["worked.input", "small-bank.input", "listed-curves.input", "abroad.input", "damaged.input"] {
        assert_named(&["show"], &example(name), &["an input of irreport", "bookkit show --input"]);
        assert_named(&["make"], &example(name), &["a book in bytes"]);
    }
    for name in ["worked.txt", "small-bank.txt", "listed-curves.txt", "abroad.txt", "damaged.txt"] {
        assert_named(&["show"], &example(name), &["the text of a book", "bookkit make"]);
        assert_named(&["show", "--input"], &example(name), &["the text of a book", "bookkit make"]);
    }
}

/// A record of each kind, with as many blanks, tabs and newlines as there may be: 538,976,288 is four blanks, 8,224 two.
const RECORDS: [&str; 10] = [
    "single-flow currency=C side=asset months=32 days=9 amount=538976288",
    "fixed-coupons currency=C side=liability period=12 count=32 coupon=10 principal=13",
    "floating currency=C side=asset months=9 days=10 principal=538976288 coupon=32",
    "non-maturity-deposit currency=C category=1 total=538976288 core=nil",
    "prepayable-loan currency=C share=8224 principals=9:10 interests=9:32",
    "term-deposit currency=C share=8224 amounts=1-19:2105376",
    "option-add-on currency=C side=bought values=1-6:538976288",
    "curve currency=C rates=1-19:8224 parallel=32 short=32 long=32",
    "floating-spread currency=C side=asset months=10 days=13 principal=1 coupon=9 period=12 count=32 spread=9",
    "listed-curve currency=C edition=1 code=JPY rates=1-19:8224",
];

/// In every currency: 9, 10, 12, 13, 27 and 32 stand in text too.
#[test]
fn no_currency_makes_a_good_book_or_input_text() {
    for (record, currency) in RECORDS.iter().flat_map(|record| (1..=32).map(move |currency| (record, currency))) {
        let is_curve = record.contains("rates=");
        let text =
            format!("{record}\n{}", if is_curve { "" } else { RECORDS[7] }).replace("=C ", &format!("={currency} "));
        let book = make(text.as_bytes()).expect("a good text");
        assert!(Request::roomy(&book, 1).answer().accepted().is_some(), "{text}");
        assert_eq!(something_else(&book, Wanted::Book), None, "{text}");
        for capital in [1u64, 0x20_2020_2020, 1_000_000_000_000] {
            let input = [&capital.to_be_bytes()[..], &book].concat();
            assert_eq!(something_else(&input, Wanted::Input), None, "{capital}: {text}");
        }
        for wanted in [Wanted::Input, Wanted::Text] {
            assert!(something_else(&book, wanted).is_some_and(|what| what.starts_with("this is a book ")), "{text}");
        }
    }
}

/// Rates of -34,182 are \u{ff}\u{ff}zz each, so that all of the curve but its edition stands in text, in Latin-1.
#[test]
fn a_book_of_text_but_for_one_byte_is_a_book() {
    let file = directory("one_byte").join("a");
    for currency in [9, 10, 12, 13, 27, 32] {
        let curve = |edition| [&[10, currency, edition][..], b"JPY", &b"\xff\xffzz".repeat(19)].concat();
        for edition in [1, 2] {
            fs::write(&file, curve(edition)).expect("a book");
            assert!(bookkit(&[Path::new("show"), &file]).status.success(), "currency {currency}, edition {edition}");
        }
        fs::write(&file, curve(b' ')).expect("text");
        assert_named(&["show"], &file, &["text, not a book"]);
    }
}

/// A tab and a newline are kinds as well, and what blanks there are may follow them, as currencies.
#[test]
fn the_text_of_a_book_may_begin_with_blanks() {
    let (text, input) =
        (fs::read(example("abroad.txt")).expect("text"), fs::read(example("abroad.input")).expect("an input"));
    for (kind, currency) in b"\t\n".iter().flat_map(|kind| b"\t\n\x0c\r ".map(|currency| (kind, currency))) {
        for rest in [&b""[..], b" ", b"\n\n", b"\r\n\t", b"# a comment\n"] {
            let text = [&[*kind, currency][..], rest, &text].concat();
            assert_eq!(something_else(&text, Wanted::Text), None, "{kind} {currency}");
            assert_eq!(make(&text).as_ref(), Ok(&input), "{kind} {currency}");
            for wanted in [Wanted::Book, Wanted::Input] {
                let what = something_else(&text, wanted).expect("text");
                assert!(what.starts_with("this is the text of a book "), "{kind} {currency}: {what}");
            }
        }
    }
}

#[test]
fn no_good_file_is_taken_for_something_else() {
    let (mut books, mut inputs) = (0, 0);
    for case in (0..1_000).map(case) {
        let good = |capital| Request::roomy(&case.book, capital).answer().accepted().is_some();
        if good(1) {
            assert_eq!(something_else(&case.book, Wanted::Book), None);
            books += 1;
        }
        if good(case.capital) {
            assert_eq!(something_else(&case.input(), Wanted::Input), None);
            let text = show_input(&case.input()).text;
            assert!(make(text.as_bytes()).is_ok() && something_else(text.as_bytes(), Wanted::Text).is_none());
            inputs += 1;
        }
    }
    assert!(books > 200 && inputs > 200, "{books} books, {inputs} inputs");
    assert_eq!(something_else(&[], Wanted::Book), None);
    assert_eq!(something_else(&1u64.to_be_bytes(), Wanted::Input), None);
    assert_eq!(something_else(b"", Wanted::Text), None);
    assert_eq!(something_else(&[0xff, 0x80].repeat(50), Wanted::Book), None);
}

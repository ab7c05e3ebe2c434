//! `make` undoes `show`, on whole books and on damaged ones, and `show` marks the refusal at its record and its field.

use bookkit::{make, show_book, show_input, Listing};
use books::{aimed_case, case, Draw};
use reference::{answer_input, split, LONGEST_BOOK};

/// The two lines after the only mark, if there is a mark.
fn lines_after_mark(text: &str) -> Option<[&str; 2]> {
    let mut lines = text.lines().skip_while(|line| !line.starts_with("# >>>"));
    lines.next()?;
    let after = [(); 2].map(|()| lines.next().unwrap_or("the end"));
    assert!(lines.all(|line| !line.starts_with("# >>>")), "a second mark in:\n{text}");
    Some(after)
}

/// The name of the field under which the marks stand, and the place said beside them.
fn field_marked<'a>(record: &'a str, marks: &str) -> (&'a str, usize) {
    let first = marks.find('^').unwrap_or_else(|| panic!("no marks: {marks}"));
    let last = marks.rfind('^').expect("marks");
    assert!(marks.starts_with('#') && marks[1..first].trim().is_empty(), "{marks}");
    let (name, _) = record[first..=last].split_once('=').expect("a field");
    assert!(
        record[..first].ends_with(' ') && record[last + 1..].starts_with(' '),
        "the marks are the field's: {marks}"
    );
    let (said, place) = marks[last + 1..].split_once(", place ").expect("a place");
    assert!(said == format!(" {name}") || said.starts_with(&format!(" {name} of ")), "{marks}");
    (name, place.parse().expect("a number"))
}

/// The fields that a refusal number is told at; none where it is told at its record.
fn fields_of(number: u8) -> &'static [&'static str] {
    match number {
        3 => &["currency"],
        4 => &["side"],
        5 => &["months", "days", "period", "count"],
        6 => &[
            "amount",
            "coupon",
            "principal",
            "spread",
            "total",
            "core",
            "principals",
            "interests",
            "amounts",
            "values",
        ],
        7 => &["share"],
        8 => &["category"],
        11 => &["interests"],
        13 => &["rates", "parallel", "short", "long"],
        _ => &[],
    }
}

fn assert_marked(listing: &Listing) {
    let Some(refusal) = &listing.refusal else {
        assert_eq!(lines_after_mark(&listing.text), None);
        return;
    };
    let [line, next] = lines_after_mark(&listing.text).expect("a mark");
    assert!(listing.text.contains(&format!("# >>> R {} {}: ", refusal.number, refusal.place)));
    match refusal.number {
        3..=8 | 11 | 13 => {
            let (name, place) = field_marked(line, next);
            assert!(fields_of(refusal.number).contains(&name) && place == refusal.place, "{line}\n{next}");
        }
        1..=14 | 19 | 20 => {
            let (_, comment) = line.split_once("  # place ").expect("a place");
            let place = comment.split(';').next().expect("a place");
            assert!(place == refusal.place.to_string() && !next.contains('^'), "{line}");
        }
        15 => assert_eq!(line, "the end"),
        _ => assert!(line.starts_with("capital ") || line == "the end" || line.contains("# place 0"), "{line}"),
    }
}

/// Text gives back the bytes that it was made from; of a book that is too long it gives nothing.
fn comes_back(text: &str, bytes: &[u8], book: &[u8]) -> bool {
    match make(text.as_bytes()) {
        Ok(made) => made == bytes && book.len() <= LONGEST_BOOK,
        Err(bad) => bad.why.contains("R 17 0") && book.len() > LONGEST_BOOK,
    }
}

#[test]
fn generated_books_and_inputs_come_back_byte_by_byte() {
    let (mut whole, mut refused) = (0, 0);
    for seed in 0..2_000 {
        let case = case(seed);
        let listing = show_book(&case.book);
        assert_marked(&listing);
        assert!(comes_back(&listing.text, &case.book, &case.book), "seed {seed}");
        whole += usize::from(split(&case.book).1.is_empty());
        let listing = show_input(&case.input());
        assert_marked(&listing);
        assert!(comes_back(&listing.text, &case.input(), &case.book), "input of seed {seed}");
        refused += usize::from(listing.refusal.is_some());
    }
    assert!(whole > 1_000 && refused > 500, "{whole} whole, {refused} refused");
}

#[test]
fn every_refusal_of_a_book_is_marked_in_words() {
    for number in (1..=17).chain([19, 20]) {
        let input = aimed_case(&mut Draw::seeded(1), number, true).input();
        let listing = show_input(&input);
        let refusal = listing.refusal.as_ref().expect("a refusal");
        assert_eq!((refusal.number, refusal.place), answer_input(&input).refused().expect("a refusal"));
        assert_eq!(refusal.number, number);
        assert!(refusal.because.len() > 10, "{}", refusal.because);
        assert_marked(&listing);
    }
}

#[test]
fn inputs_too_short_for_capital_are_raw() {
    for length in 0..8 {
        let input = vec![1; length];
        let listing = show_input(&input);
        assert_eq!(listing.refusal.as_ref().map(|refusal| refusal.number), Some(16));
        assert_eq!(make(listing.text.as_bytes()), Ok(input));
    }
}

#[test]
fn every_byte_of_a_record_shows() {
    let book = aimed_case(&mut Draw::seeded(3), 1, false).book;
    for place in 0..book.len() {
        let mut other = book.clone();
        other[place] ^= 1;
        let (text, changed) = (show_book(&book).text, show_book(&other).text);
        assert_ne!(
            text.lines().skip(1).collect::<Vec<_>>(),
            changed.lines().skip(1).collect::<Vec<_>>(),
            "byte {place}"
        );
    }
}

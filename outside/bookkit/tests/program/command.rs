//! The program itself: status, streams and files.

use crate::{assert_one_line, bookkit, directory, files_in};
use std::fs;

#[test]
fn make_and_show_through_files() {
    let here = directory("through_files");
    let (text, book) = (here.join("a.txt"), here.join("a.book"));
    fs::write(&text, "curve currency=1 rates=1-19:-5 parallel=1 short=2 long=3\n").expect("a text");
    let made = bookkit(&["make", text.to_str().unwrap(), book.to_str().unwrap()]);
    assert!(made.status.success() && made.stdout.is_empty() && made.stderr.is_empty());
    assert_eq!(files_in(&here), ["a.book", "a.txt"]);
    let shown = bookkit(&["show", book.to_str().unwrap()]);
    assert!(shown.status.success() && shown.stderr.is_empty());
    assert!(String::from_utf8_lossy(&shown.stdout)
        .contains("\ncurve currency=1 rates=1-19:-5 parallel=1 short=2 long=3  # place 0\n"));
    let printed = bookkit(&["make", text.to_str().unwrap()]);
    assert_eq!(printed.stdout, fs::read(&book).expect("a book"));
}

#[test]
fn a_bad_text_leaves_no_file_and_the_old_one_as_it_was() {
    let here = directory("bad_text");
    let (text, book) = (here.join("a.txt"), here.join("a.book"));
    fs::write(&text, "raw 01 02\nraw 0x\n").expect("a text");
    assert_one_line(&bookkit(&["make", text.to_str().unwrap(), book.to_str().unwrap()]), 2, &["a.txt: line 2: "]);
    assert_eq!(files_in(&here), ["a.txt"]);
    fs::write(&book, "old").expect("an old book");
    bookkit(&["make", text.to_str().unwrap(), book.to_str().unwrap()]);
    assert_eq!(fs::read(&book).expect("an old book"), b"old");
    let printed = bookkit(&["make", text.to_str().unwrap()]);
    assert!(printed.stdout.is_empty() && printed.status.code() == Some(2));
}

#[test]
fn a_place_that_cannot_be_written_leaves_nothing_behind() {
    let here = directory("unwritable");
    let text = here.join("a.txt");
    fs::write(&text, "raw 01\n").expect("a text");
    fs::create_dir(here.join("taken")).expect("a directory in the way");
    let into = |name: &str| bookkit(&["make", text.to_str().unwrap(), here.join(name).to_str().unwrap()]);
    assert_one_line(&into("taken"), 2, &["taken: cannot be written"]);
    assert_one_line(&into("lacking/a.book"), 2, &["lacking/a.book: cannot be written"]);
    assert_one_line(&into("a.txt"), 2, &["would take the place of its text"]);
    assert_eq!(files_in(&here), ["a.txt", "taken"]);
}

#[test]
fn a_damaged_book_is_listed_and_the_status_says_so() {
    let here = directory("damaged");
    let book = here.join("a.book");
    fs::write(&book, [200, 1]).expect("a book");
    let shown = bookkit(&["show", book.to_str().unwrap()]);
    assert_one_line(&shown, 1, &["a.book", "R 1 0", "kind is 200"]);
    assert!(String::from_utf8_lossy(&shown.stdout).contains("\nraw c8 01  # place 0\n"));
    assert_one_line(&bookkit(&["show", "--input", book.to_str().unwrap()]), 1, &["R 16 0", "2 bytes"]);
}

#[test]
fn wrong_words_get_one_line() {
    for words in
        [&["show"][..], &["show", "--input"], &["make"], &["explain"], &["frobnicate"], &[], &["make", "a", "b", "c"]]
    {
        assert_one_line(&bookkit(words), 2, &["is wanted"]);
    }
    assert_one_line(&bookkit(&["show", "/no/such/book"]), 2, &["/no/such/book: cannot be read"]);
    assert_one_line(&bookkit(&["explain", "21"]), 2, &["1 to 20"]);
    assert_one_line(&bookkit(&["explain", "four"]), 2, &["\"four\""]);
}

#[test]
fn help_and_explain_go_to_standard_output() {
    let help = bookkit(&["help"]);
    assert!(help.status.success() && String::from_utf8_lossy(&help.stdout).contains("bookkit make TEXT [OUTPUT]"));
    let explained = bookkit(&["explain", "12"]);
    assert!(explained.status.success() && explained.stdout.starts_with(b"12: second curve"));
}

/// The records in the help text are good ones.
#[test]
fn the_example_in_the_help_can_be_made() {
    let help = bookkit(&["help"]).stdout;
    let example: Vec<&str> =
        std::str::from_utf8(&help).unwrap().lines().filter(|line| line.starts_with("  ")).collect();
    let input = bookkit::make(example.join("\n").as_bytes()).expect("good lines");
    let refusal = bookkit::show_input(&input).refusal.expect("the raw bytes at its end");
    assert_eq!((refusal.number, refusal.place, example.len()), (1, input.len() - 8 - 2, 12));
}

//! Words of a text and names of files come out escaped: one line stays one, and a terminal obeys none of it.

use crate::{bookkit, directory};
use std::ffi::{OsStr, OsString};
use std::fs;
use std::os::unix::ffi::{OsStrExt, OsStringExt};
use std::path::Path;
use std::process::Output;

/// Clears the screen; sets the title; goes back in the line; turns the writing round; is no UTF-8 in the end.
const BAD: &str = "\u{1b}[2J\u{9b}31m\u{1b}]0;x\u{7}\u{8}\u{202e}\u{7f}";

fn assert_escaped(output: &Output) {
    assert_eq!(output.status.code(), Some(2));
    let line = output.stderr.strip_suffix(b"\n").expect("a line");
    let said = std::str::from_utf8(line).expect("UTF-8");
    assert!(said.contains("\\u{1b}[2J"), "{said:?}");
    assert!(!said.chars().any(|letter| letter.is_control() || letter == '\u{202e}'), "{said:?}");
}

#[test]
fn words_of_a_text() {
    let here = directory("words");
    let lines = [
        "BAD currency=1",
        "single-flow BAD",
        "single-flow BAD=1",
        "single-flow currency=BAD side=1 months=1 days=1 amount=1",
        "single-flow currency=1 side=aBAD months=1 days=1 amount=1",
        "term-deposit currency=1 share=1 amounts=BAD",
        "term-deposit currency=1 share=1 amounts=BAD:1",
        "term-deposit currency=1 share=1 amounts=1:BAD",
        "listed-curve currency=1 edition=1 code=BAD rates=nil",
        "capital BAD",
        "raw BAD",
    ];
    for line in lines {
        let text = here.join("a.txt");
        fs::write(&text, line.replace("BAD", BAD)).expect("a text");
        assert_escaped(&bookkit(&[Path::new("make"), &text]));
    }
    assert_escaped(&bookkit(&["explain", BAD]));
}

#[test]
fn a_word_of_any_length_is_quoted_in_a_line_that_can_be_read() {
    let here = directory("long_word");
    fs::write(here.join("a.txt"), "x".repeat(1_000_000)).expect("a text");
    let output = bookkit(&[Path::new("make"), &here.join("a.txt")]);
    assert!(output.status.code() == Some(2) && output.stderr.len() < 1_000);
}

#[test]
fn names_of_files() {
    let here = directory("names");
    let named = |tail: &[u8]| here.join(OsStr::from_bytes(&[BAD.as_bytes(), b"\n", tail].concat()));
    let (lacking, text, book) = (named(b"lacking\xff"), named(b"\xff.txt"), named(b"\xff.book"));
    assert_escaped(&bookkit(&[Path::new("show"), &lacking]));
    assert_escaped(&bookkit(&[Path::new("show"), Path::new("--input"), &lacking]));
    assert_escaped(&bookkit(&[Path::new("make"), &lacking]));
    fs::write(&text, "raw 0x\n").expect("a text");
    assert_escaped(&bookkit(&[Path::new("make"), &text]));
    fs::write(&text, "raw 01\n").expect("a text");
    assert_escaped(&bookkit(&[Path::new("make"), &text, &text]));
    assert_escaped(&bookkit(&[Path::new("make"), &text, &named(b"lacking/a")]));
    assert!(bookkit(&[Path::new("make"), &text, &book]).status.success(), "a name need not be UTF-8");
    assert_eq!(fs::read(&book).expect("a book"), [1]);
    let shown = bookkit(&[Path::new("show"), &book]);
    let said = String::from_utf8(shown.stderr).expect("UTF-8");
    assert!(shown.status.code() == Some(1) && said.contains("\\xff.book: irreport would print R 2 0"), "{said:?}");
    assert!(!said.trim_end_matches('\n').chars().any(char::is_control), "{said:?}");
    let unknown: OsString = OsString::from_vec(BAD.as_bytes().to_vec());
    let output = bookkit(&[unknown]);
    assert!(output.status.code() == Some(2) && !output.stderr.contains(&0x1b));
}

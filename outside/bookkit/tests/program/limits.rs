//! Nothing is read or made beyond what `irreport` takes.

use crate::{assert_one_line, bookkit, directory};
use std::fs::{self, File};
use std::path::Path;
use std::process::{Command, Output, Stdio};

/// Single flows of nil, as many as fit, then bytes that begin another.
fn book(length: usize) -> Vec<u8> {
    [1, 1, 1, 0, 0, 0, 0, 0, 0, 0].into_iter().cycle().take(length).collect()
}

fn input(length: usize) -> Vec<u8> {
    [&1u64.to_be_bytes()[..], &book(length - 8)].concat()
}

fn shown(name: &str, words: &[&str], bytes: &[u8]) -> Output {
    let file = directory(name).join("a");
    fs::write(&file, bytes).expect("a file");
    bookkit(&[&words.iter().map(Path::new).collect::<Vec<_>>()[..], &[&file]].concat())
}

#[test]
fn the_longest_book_is_listed_and_a_longer_one_is_not() {
    let longest = [(&["show"][..], book(65_528)), (&["show", "--input"][..], input(65_536))];
    for (words, bytes) in longest {
        let output = shown("longest", words, &bytes);
        assert_one_line(&output, 1, &["R 2 65520"]);
        assert!(String::from_utf8_lossy(&output.stdout).lines().count() > 6_552);
    }
    let longer =
        [(&["show"][..], book(65_529), "65528 bytes"), (&["show", "--input"][..], input(65_537), "65536 bytes")];
    for (words, bytes, most) in longer {
        let output = shown("longer", words, &bytes);
        assert_one_line(&output, 1, &["irreport would print R 17 0", most]);
        assert!(output.stdout.is_empty());
    }
}

#[test]
fn a_file_of_any_size_is_answered_at_once() {
    let large = directory("large").join("a");
    File::create(&large).and_then(|file| file.set_len(8 << 20)).expect("a large file");
    let output = bookkit(&[Path::new("show"), &large]);
    assert_one_line(&output, 1, &["R 17 0"]);
    assert!(output.stdout.is_empty());
}

/// The writer notices: what is beyond the limit is not even read.
#[test]
fn a_pipe_is_not_read_to_its_end() {
    let mut command = Command::new(env!("CARGO_BIN_EXE_bookkit"));
    command.args(["show", "--input", "-"]).stdin(Stdio::piped()).stdout(Stdio::piped()).stderr(Stdio::piped());
    let mut running = command.spawn().expect("bookkit runs");
    let mut pipe = running.stdin.take().expect("a pipe");
    let written = std::thread::spawn(move || std::io::Write::write_all(&mut pipe, &vec![0; 8 << 20]));
    let output = running.wait_with_output().expect("an end");
    assert_one_line(&output, 1, &["standard input: irreport would print R 17 0"]);
    assert!(written.join().expect("a writer").is_err());
}

#[test]
fn a_text_makes_no_book_that_is_too_long() {
    let text = |capital: &str, bytes: usize| format!("{capital}{}", "raw 00\n".repeat(bytes));
    let here = directory("long_text");
    let make = |text: &str| {
        fs::write(here.join("a.txt"), text).expect("a text");
        bookkit(&[Path::new("make"), &here.join("a.txt")])
    };
    assert_eq!(make(&text("", 65_528)).stdout.len(), 65_528);
    assert_eq!(make(&text("capital 1\n", 65_528)).stdout.len(), 65_536);
    assert_one_line(&make(&text("", 65_529)), 2, &["line 65529: ", "65528 bytes", "R 17 0"]);
    assert_one_line(&make(&text("capital 1\n", 65_529)), 2, &["line 65530: ", "65528 bytes"]);
    assert_one_line(&make(&"# a comment\n".repeat(1_500_000)), 2, &["more than 16777216 bytes"]);
}

//! The program itself: which output is asked for, and a word that it does not know.

use std::io::Write;
use std::process::{Command, Output, Stdio};

fn reference(words: &[&str], input: &[u8]) -> Output {
    let mut command = Command::new(env!("CARGO_BIN_EXE_reference"));
    let started = command.args(words).stdin(Stdio::piped()).stdout(Stdio::piped()).stderr(Stdio::piped()).spawn();
    let mut child = started.expect("reference runs");
    // It may end without reading: then there is nobody to take the input.
    let _ = child.stdin.take().expect("asked for").write_all(input);
    child.wait_with_output().expect("it ends")
}

#[test]
fn the_report_or_with_it_the_detail() {
    let report = "S 0 0 0 0 0 0\nM 0 0 0\nV WITHIN\n";
    let printed = |words: &[&str]| {
        let output = reference(words, &20u64.to_be_bytes());
        assert!(output.status.success() && output.stderr.is_empty(), "{output:?}");
        String::from_utf8(output.stdout).expect("text")
    };
    assert_eq!(printed(&[]), report);
    assert_eq!(printed(&["--detail"]), format!("{report}N 0\nT 20\nL 3.00\nH 3.00\nP 0.00\n"));
}

#[test]
fn another_word_gets_one_line() {
    for words in [&["--details"][..], &["detail"], &["--detail", "--detail"], &[""]] {
        let output = reference(words, &[]);
        let said = String::from_utf8_lossy(&output.stderr);
        assert_eq!((output.status.code(), output.stdout.len(), said.lines().count()), (Some(2), 0, 1), "{said}");
        assert!(said.starts_with("reference: --detail or no word is wanted"), "{said}");
    }
}

//! The program itself: status and streams. What it finds is the business of `outside/faults`.

use std::process::{Command, Output};

fn compare(arguments: &[&str]) -> Output {
    Command::new(env!("CARGO_BIN_EXE_compare")).args(arguments).output().expect("compare runs")
}

fn assert_one_line(output: &Output, part: &str) {
    let said = String::from_utf8_lossy(&output.stderr);
    assert_eq!((output.status.code(), said.lines().count(), output.stdout.len()), (Some(2), 1, 0), "{said}");
    assert!(said.contains(part), "{part} in {said}");
}

#[test]
fn wrong_words_get_one_line() {
    for words in [&[][..], &["frobnicate"], &["face", "1"], &["inputs", "1", "2"]] {
        assert_one_line(&compare(words), "wanted");
    }
    assert_one_line(&compare(&["face", "1", "2"]), "-- COMMAND is wanted");
    assert_one_line(&compare(&["face", "one", "2", "--", "cat"]), "\"one\" is no number");
}

#[test]
fn a_program_that_is_not_there_gets_one_line() {
    let seeded = ["face", "widen", "irreport", "irdetail"].map(|mode| vec![mode, "1", "2"]);
    for words in seeded.into_iter().chain([vec!["long", "1"], vec!["streams"], vec!["month-end"]]) {
        assert_one_line(
            &compare(&[&words[..], &["--", "/no/such/program"]].concat()),
            "/no/such/program: cannot be started",
        );
    }
}

/// `cat` gives back the case where an answer is due.
#[test]
fn a_program_that_answers_wrongly_is_a_difference_with_its_seed() {
    let output = compare(&["first", "7", "9", "--", "cat"]);
    let said = String::from_utf8_lossy(&output.stdout);
    assert_eq!(output.status.code(), Some(1));
    assert!(said.contains("difference at seed 7: ") && said.contains("  smallest: "), "{said}");
    assert!(said.lines().last().is_some_and(|line| line.ends_with("1 differences")), "{said}");
}

/// `cat` prints before it has read a million bytes, and more than a pipe holds.
#[test]
fn a_program_that_prints_something_else_is_told_by_its_first_wrong_line() {
    for mode in ["irreport", "irdetail"] {
        let output = compare(&[mode, "7", "0", "--", "cat"]);
        let said = String::from_utf8_lossy(&output.stdout);
        let (differences, rest): (Vec<&str>, Vec<&str>) = said.lines().partition(|line| line.contains("difference at"));
        assert_eq!((output.status.code(), rest.len()), (Some(1), 2), "{said}");
        assert!(differences.iter().all(|line| line.contains(": line 1 is ") && line.len() < 2_000), "{said}");
        assert!(differences.iter().any(|line| line.contains("1000000 bytes: ")), "{said}");
    }
}

#[test]
fn first_goes_no_further_than_the_first_input_that_differs() {
    for mode in ["irreport", "irdetail"] {
        let output = compare(&["first", mode, "7", "9", "--", "cat"]);
        let said = String::from_utf8_lossy(&output.stdout);
        let mut differences = said.lines().filter(|line| line.starts_with("difference at"));
        assert_eq!(output.status.code(), Some(1));
        assert!(differences.all(|line| line.starts_with("difference at edge 0, ")), "{said}");
        assert!(said.lines().last().is_some_and(|line| line.ends_with("; 3 differences")), "{said}");
    }
}

#[test]
fn each_of_the_two_programs_is_held_to_its_own_text() {
    let script = r"printf 'S 0 0 0 0 0 0\nM 0 0 0\nV WITHIN\n'";
    let differs = |mode| {
        let output = compare(&[mode, "7", "0", "--", "sh", "-c", script]);
        let said = String::from_utf8_lossy(&output.stdout).into_owned();
        said.lines().any(|line| line.contains(", 8 bytes: line 4"))
    };
    assert_eq!((differs("irreport"), differs("irdetail")), (false, true));
}

#[test]
fn a_stored_report_that_is_widened_wrongly_is_a_difference_with_its_seed() {
    let output = compare(&["widen", "7", "2", "--", "cat"]);
    let said = String::from_utf8_lossy(&output.stdout);
    assert_eq!(output.status.code(), Some(1));
    assert!(said.contains("difference at seed 7: ") && said.contains("difference at seed 8: "), "{said}");
}

//! What `irdetail` printed is taken to its last byte or not at all: a program that prints anything else is another one.

use crate::{assessed, example, run, source};
use bookkit::Assessed;
use books::case;
use reference::{irdetail, LONGEST_BOOK};

/// Why these lines are not what is printed for this input, on one line.
fn why(input: &[u8], printed: &str) -> Option<String> {
    let refused = Assessed::of(source("a.input", input), printed).err()?;
    assert!(!refused.contains('\n') && refused.len() < 300, "{refused}");
    Some(refused)
}

/// The lines of the small bank with one of them put in another's place, as a program that is wrong would print them.
fn small_bank_with(line: &str, other: &str) -> Option<String> {
    let (input, printed) = (example("small-bank.input"), irdetail(&example("small-bank.input")));
    let wrong = format!("\n{printed}").replacen(&format!("\n{line}\n"), &format!("\n{other}\n"), 1);
    assert_ne!(wrong[1..], printed, "{line}");
    why(&input, &wrong[1..])
}

#[test]
fn what_the_reference_prints_is_taken() {
    let mut accepted = 0;
    for case in (0..300).map(case).filter(|case| case.book.len() <= LONGEST_BOOK) {
        accepted += usize::from(assessed(&case.input()).refusal().is_none());
    }
    assert!(accepted > 50, "{accepted}");
    assert!(assessed(&run("thirty-two-currencies")).refusal().is_none());
}

#[test]
fn no_line_may_lack_come_twice_or_change_its_letter() {
    let (input, printed) = (example("small-bank.input"), irdetail(&example("small-bank.input")));
    let lines: Vec<&str> = printed.lines().collect();
    for index in 0..lines.len() {
        let with = |these: &[&str]| [&lines[..index], these, &lines[index + 1..]].concat().join("\n") + "\n";
        let line = lines[index];
        let other = line.replacen(&line[..1], "Q", 1);
        let changes: [&[&str]; 8] = [
            &[],
            &[line, line],
            &[&other],
            &[&line.to_lowercase()],
            &[&format!("{line} ")],
            &[&format!(" {line}")],
            &[&line.replacen(' ', "  ", 1)],
            &[&format!("{line}\r")],
        ];
        for change in changes {
            assert!(why(&input, &with(change)).is_some(), "{line}: {change:?}");
        }
    }
}

#[test]
fn every_number_is_written_as_irdetail_writes_it() {
    let (input, printed) = (example("small-bank.input"), irdetail(&example("small-bank.input")));
    let lines: Vec<Vec<&str>> = printed.lines().map(|line| line.split(' ').collect()).collect();
    for (row, column) in (0..lines.len()).flat_map(|row| (1..lines[row].len()).map(move |column| (row, column))) {
        let item = lines[row][column];
        let wrong = ["", "x", "+1", "-0", "1e3", "0x1", "1,000", "9223372036854775808", "01", "1.5", "\u{661}"];
        for wrong in wrong.map(str::to_string).into_iter().chain([format!("{item} 0"), format!("{item}.")]) {
            let mut other: Vec<Vec<&str>> = lines.clone();
            other[row][column] = &wrong;
            let other: Vec<String> = other.iter().map(|items| items.join(" ")).collect();
            assert!(why(&input, &format!("{}\n", other.join("\n"))).is_some(), "{item}: {wrong:?}");
        }
    }
}

#[test]
fn hundredths_have_two_places_after_the_point() {
    for wrong in
        ["3000", "3000.0", "3000.000", "+3000.00", "03000.00", "-0.00", ".00", "3000.", "3,000.00", "3e3.00", "3000.0x"]
    {
        assert!(
            small_bank_with("L 3000.00", &format!("L {wrong}")).is_some_and(|why| why.contains("two places")),
            "{wrong}"
        );
    }
}

#[test]
fn lines_that_contradict_each_other_or_the_input_are_no_answer() {
    let contradictions = [
        ("M 3446 1 4", "M 3447 1 4", "M does not fit S"),
        ("M 3446 1 4", "M 3446 5 4", "M does not fit S"),
        ("M 3446 1 4", "M 3446 0 4", "M does not fit S"),
        ("M 3446 1 4", "M 3446 7 4", "none of 0 to 6"),
        ("M 3446 1 4", "M 3446 -1 4", "none of 0 to 6"),
        ("M 3446 1 4", "M 3446 1 -4", "below nil"),
        ("V OVER", "V WITHIN", "V does not fit H"),
        ("H -446.00", "H 446.00", "P does not fit H"),
        ("P 17.23", "P 15.00", "P does not fit H"),
        ("N 13", "N 14", "N is not what the K lines come to"),
        ("T 20000", "T 20001", "T is not the capital of this input"),
        ("U 1 2 2 2 2 2 2", "U 1 2 2 -2 2 2 2", "below nil"),
        ("U 1 2 2 2 2 2 2", "U 2 2 2 2 2 2 2", "U 1 and 6 numbers"),
        ("K 1 0 1 1 1 1 1 1 1 0 0", "K 1 -1 1 1 1 1 1 1 1 1 0", "below nil"),
        ("V OVER", "V over", "OVER, WITHIN or CLOSE"),
    ];
    for (line, other, complaint) in contradictions {
        let said = small_bank_with(line, other);
        assert!(said.as_ref().is_some_and(|said| said.contains(complaint)), "{other}: {said:?}");
    }
    assert_eq!(small_bank_with("V OVER", "V CLOSE"), None, "which of the two it is, only irdetail can say");
}

/// Figures of another input would be wrong without looking so.
#[test]
fn lines_of_another_input_are_no_answer() {
    let (small, abroad) = (example("small-bank.input"), example("abroad.input"));
    assert!(why(&small, &irdetail(&abroad)).is_some_and(|said| said.contains("T is not")));
    let mut shorter = small.clone();
    shorter.truncate(small.len() - 21);
    assert!(why(&shorter, &irdetail(&small)).is_some_and(|said| said.contains("how many records")));
}

#[test]
fn currencies_rise_from_1_to_32() {
    let (input, printed) = (example("small-bank.input"), irdetail(&example("small-bank.input")));
    let renumbered = |from: &str, to: &str| {
        let letters = ["C", "U", "Z", "F", "A", "K"];
        letters.iter().fold(format!("\n{printed}"), |text, letter| {
            text.replace(&format!("\n{letter} {from} "), &format!("\n{letter} {to} "))
        })
    };
    for (from, to) in [("1", "3"), ("1", "2"), ("1", "0"), ("2", "33"), ("1", "-1")] {
        let said = why(&input, &renumbered(from, to)[1..]);
        assert!(said.is_some_and(|said| said.contains("not 1 to 32 in rising order")), "{from} to {to}");
    }
    assert_eq!(why(&input, &renumbered("2", "32")[1..]), None);
}

#[test]
fn a_text_that_is_no_answer() {
    let input = example("damaged.input");
    assert_eq!(why(&input, "R 2 523\n"), None);
    let others = [
        "",
        "\n",
        "R 2 523",
        "R 2 523\n\n",
        "\nR 2 523\n",
        "R 2\n",
        "R 2 523 0\n",
        "R 2 523\nR 2 523\n",
        "R 0 523\n",
        "R 21 0\n",
        "R -2 523\n",
        "R 2 -523\n",
        "R 02 523\n",
        "r 2 523\n",
        "R 258 523\n",
        "V WITHIN\n",
        "hello\n",
    ];
    for other in others {
        assert!(why(&input, other).is_some(), "{other:?}");
    }
}

/// A refusal names a place that its number can have, in this input.
#[test]
fn a_refusal_has_to_fit_its_input() {
    let input = example("small-bank.input");
    let misplaced = [
        (1, 0),
        (1, 628),
        (2, 0),
        (2, 523),
        (3, 0),
        (3, 2),
        (4, 1_000),
        (5, 86),
        (6, 2),
        (9, 0),
        (9, 84),
        (10, 84),
        (11, 102),
        (12, 84),
        (12, 85),
        (13, 83),
        (14, 0),
        (15, 0),
        (15, 33),
        (16, 0),
        (16, 1),
        (17, 0),
        (17, 1),
        (18, 0),
        (19, 0),
        (20, 84),
    ];
    for (number, place) in misplaced {
        let said = why(&input, &format!("R {number} {place}\n"));
        assert_eq!(said, Some(format!("R {number} {place} does not fit this input")));
    }
    for (number, place) in [(3, 1), (13, 2), (12, 0), (14, 84), (5, 87), (11, 178), (15, 2)] {
        assert_eq!(why(&input, &format!("R {number} {place}\n")), None, "{number} {place}");
    }
}

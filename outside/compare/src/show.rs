//! Differences and cases on one line each, for people.

use std::time::Duration;

/// A long book of which nothing can go is shrunk no longer than this.
pub const SHRINKING: Duration = Duration::from_secs(5);

/// No line that is due is longer.
const LONGEST_LINE: usize = 300;

/// T, and the book's bytes as a `raw` line of `bookkit` takes them.
pub fn input(capital: u64, book: &[u8]) -> String {
    let bytes: Vec<String> = book.iter().map(|byte| format!("{byte:02x}")).collect();
    format!("T {capital}, book of {} bytes: raw {}", book.len(), bytes.join(" "))
}

/// The first line in which a text differs from the one that is due, if it does. The end of a line is part of it.
pub fn first_difference(printed: &str, due: &str) -> Option<String> {
    if printed == due {
        return None;
    }
    let [printed, due] = [printed, due].map(|text| text.split_inclusive('\n').collect::<Vec<_>>());
    let alike = printed.iter().zip(&due).take_while(|(line, due)| line == due).count();
    let shown = |lines: &[&str], none: &str| lines.get(alike).map_or(none.to_string(), |line| cut(line));
    let (found, wanted) = (shown(&printed, "missing"), shown(&due, "nothing"));
    Some(format!("line {} is {found} where {wanted} was due", alike + 1))
}

fn cut(line: &str) -> String {
    let (start, characters) = (line.chars().take(LONGEST_LINE).collect::<String>(), line.chars().count());
    match characters > LONGEST_LINE {
        true => format!("{start:?} and {} characters more", characters - LONGEST_LINE),
        false => format!("{start:?}"),
    }
}

#[cfg(test)]
mod tests {
    use super::first_difference;

    fn said(printed: &str, due: &str) -> String {
        first_difference(printed, due).expect("they differ")
    }

    #[test]
    fn the_first_line_that_differs_is_told_with_its_number() {
        assert_eq!(first_difference("M 1\nV OVER\n", "M 1\nV OVER\n"), None);
        assert_eq!(said("M 1\nV OVER\n", "M 2\nV CLOSE\n"), r#"line 1 is "M 1\n" where "M 2\n" was due"#);
        assert_eq!(said("M 1\nV OVER\n", "M 1\nV CLOSE\n"), r#"line 2 is "V OVER\n" where "V CLOSE\n" was due"#);
    }

    #[test]
    fn so_is_a_line_too_few_or_too_many_and_an_end_that_is_missing() {
        assert_eq!(said("M 1\n", "M 1\nV OVER\n"), r#"line 2 is missing where "V OVER\n" was due"#);
        assert_eq!(said("M 1\nV OVER\n", "M 1\n"), r#"line 2 is "V OVER\n" where nothing was due"#);
        assert_eq!(said("", "M 1\n"), r#"line 1 is missing where "M 1\n" was due"#);
        assert_eq!(said("M 1", "M 1\n"), r#"line 1 is "M 1" where "M 1\n" was due"#);
    }

    #[test]
    fn a_line_longer_than_any_that_is_due_is_cut() {
        let due = format!(r#"line 1 is "{}" and 9700 characters more where "R 1 0\n" was due"#, "x".repeat(300));
        assert_eq!(said(&"x".repeat(10_000), "R 1 0\n"), due);
    }
}

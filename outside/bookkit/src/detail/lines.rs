//! The lines of `irdetail`, one after the other: a letter, then items after single blanks.

use super::Verdict;
use crate::plain::quoted;
use std::str::Split;

pub struct Lines<'a> {
    rest: std::iter::Peekable<Split<'a, char>>,
    /// Which line comes next, counted from 1.
    next: usize,
}

impl<'a> Lines<'a> {
    pub fn of(printed: &'a str) -> Result<Lines<'a>, String> {
        let text = printed.strip_suffix('\n').ok_or("its last line has no end")?;
        Ok(Lines { rest: text.split('\n').peekable(), next: 1 })
    }

    /// Whether a line of this letter comes next.
    pub fn begins_with(&mut self, letter: &str) -> bool {
        self.rest.peek().is_some_and(|line| line.split(' ').next() == Some(letter))
    }

    /// A line of this letter and as many numbers as are wanted.
    pub fn numbers<const COUNT: usize>(&mut self, letter: &str) -> Result<[i64; COUNT], String> {
        self.after(letter, [])
    }

    /// The same, where some numbers are known: they come first.
    pub fn after<const KNOWN: usize, const COUNT: usize>(
        &mut self,
        letter: &str,
        known: [i64; KNOWN],
    ) -> Result<[i64; COUNT], String> {
        let known: String = known.iter().map(|number| format!(" {number}")).collect();
        let wanted = format!("{letter}{known} and {COUNT} numbers");
        self.items(letter, &wanted, |items| {
            let items = known.split(' ').skip(1).try_fold(items, |items, due| after_first(items, due))?;
            let numbers: Option<Vec<i64>> = items.iter().map(|item| number(item)).collect();
            numbers?.try_into().ok()
        })
    }

    /// A line of this letter and a number with two places after the point, as hundredths.
    pub fn hundredths(&mut self, letter: &str) -> Result<i64, String> {
        let wanted = format!("{letter} and a number with two places after the point");
        self.items(letter, &wanted, |items| match items {
            [item] => hundredths(item),
            _ => None,
        })
    }

    pub fn verdict(&mut self) -> Result<Verdict, String> {
        self.items("V", "V and OVER, WITHIN or CLOSE", |items| match items {
            ["OVER"] => Some(Verdict::Over),
            ["WITHIN"] => Some(Verdict::Within),
            ["CLOSE"] => Some(Verdict::Close),
            _ => None,
        })
    }

    pub fn end(&mut self) -> Result<(), String> {
        match self.rest.next() {
            None => Ok(()),
            Some(line) => Err(format!("line {}, {}, comes after the last that is wanted", self.next, quoted(line))),
        }
    }

    fn items<T>(&mut self, letter: &str, wanted: &str, read: impl Fn(&[&'a str]) -> Option<T>) -> Result<T, String> {
        let line = self.rest.next();
        let items: Vec<&str> = line.iter().flat_map(|line| line.split(' ')).collect();
        let found = after_first(&items, letter).and_then(read);
        let here = self.next;
        self.next += 1;
        found.ok_or_else(|| match line {
            None => format!("line {here} should have {wanted} and is not there"),
            Some(line) => format!("line {here} should have {wanted}, not {}", quoted(line)),
        })
    }
}

/// What comes after the first item, if that is the one that is due.
fn after_first<'a, 'b>(items: &'b [&'a str], due: &str) -> Option<&'b [&'a str]> {
    items.split_first().filter(|(first, _)| **first == due).map(|(_, rest)| rest)
}

/// As `irdetail` writes it: no plus sign and no nought before it.
fn number(item: &str) -> Option<i64> {
    item.parse().ok().filter(|number: &i64| number.to_string() == item)
}

fn hundredths(item: &str) -> Option<i64> {
    let (whole, part) = item.split_once('.')?;
    let digits = |text: &str| !text.is_empty() && text.bytes().all(|digit| digit.is_ascii_digit());
    let units = whole.strip_prefix('-').unwrap_or(whole);
    let whole_as_written = digits(units) && (units == "0" || !units.starts_with('0'));
    let number: i64 = format!("{whole}{part}").parse().ok()?;
    let no_minus_nought = number != 0 || units == whole;
    (whole_as_written && digits(part) && part.len() == 2 && no_minus_nought).then_some(number)
}

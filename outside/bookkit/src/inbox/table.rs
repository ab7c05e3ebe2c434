//! The inbox for a terminal.

use super::{count, Entry, Told};
use crate::document::{wrapped, WIDTH};
use crate::figure::{grouped, with_hundredths};

const HEADS: [&str; 6] = ["Return", "Measure", "Share %", "Headroom", "Tolerance", "Hints"];
/// A longer name has a line of its own, and none is cut: two names may differ at their ends alone.
const LONGEST_NAME: usize = 36;
const VERDICT: &str = "Verdict";
const GAP: &str = "  ";

pub fn table(entries: &[Entry]) -> String {
    let figures: Vec<[String; 5]> = entries.iter().map(figures).collect();
    let widths: [usize; 5] = std::array::from_fn(|column| {
        figures.iter().map(|row| row[column].len()).chain([HEADS[column + 1].len()]).max().unwrap_or_default()
    });
    let names = entries.iter().map(|entry| entry.shown().chars().count()).filter(|length| *length <= LONGEST_NAME);
    let name = names.chain([HEADS[0].len()]).max().unwrap_or_default();
    let verdicts = entries.iter().map(|entry| entry.group().words().len()).chain([VERDICT.len()]);
    let layout = Layout { name, verdict: verdicts.max().unwrap_or_default(), figures: widths };
    let heads: [&str; 5] = std::array::from_fn(|column| HEADS[column + 1]);
    let head = layout.line(HEADS[0], VERDICT, &layout.aligned(heads));
    let rule = "-".repeat(layout.width());
    let rows: String = entries.iter().zip(&figures).map(|(entry, figures)| layout.row(entry, figures)).collect();
    format!("{head}{rule}\n{rows}\n{}", count(entries))
}

/// Of an entry without figures, nothing.
fn figures(entry: &Entry) -> [String; 5] {
    match entry.told() {
        Told::Figures(figures) => [
            grouped(figures.measure),
            with_hundredths(figures.share),
            with_hundredths(figures.headroom),
            grouped(figures.tolerance),
            entry.hints().to_string(),
        ],
        _ => Default::default(),
    }
}

/// How many letters each column takes.
struct Layout {
    name: usize,
    verdict: usize,
    figures: [usize; 5],
}

impl Layout {
    fn before_figures(&self) -> usize {
        self.name + GAP.len() + self.verdict + GAP.len()
    }

    fn width(&self) -> usize {
        let figures: usize = self.figures.iter().map(|width| width + GAP.len()).sum();
        self.before_figures() + figures - GAP.len()
    }

    fn line(&self, name: &str, verdict: &str, rest: &str) -> String {
        let (name_width, verdict_width) = (self.name, self.verdict);
        let line = format!("{name:<name_width$}{GAP}{verdict:<verdict_width$}{GAP}{rest}");
        format!("{}\n", line.trim_end())
    }

    fn aligned(&self, figures: [&str; 5]) -> String {
        let aligned: Vec<String> =
            figures.iter().zip(self.figures).map(|(text, width)| format!("{text:>width$}")).collect();
        aligned.join(GAP)
    }

    /// Words stand in place of the figures where there are none.
    fn row(&self, entry: &Entry, figures: &[String; 5]) -> String {
        let name = entry.shown();
        let own_line = name.chars().count() > self.name;
        let first = if own_line { format!("{name}\n") } else { String::new() };
        let name = if own_line { "" } else { &name };
        let verdict = entry.group().words();
        let lines = match entry.why() {
            None => vec![self.aligned(figures.each_ref().map(String::as_str))],
            Some(why) => wrapped(&why, WIDTH - self.before_figures()),
        };
        let rows: String = (0..lines.len())
            .map(|index| match index {
                0 => self.line(name, verdict, &lines[0]),
                _ => self.line("", "", &lines[index]),
            })
            .collect();
        first + &rows
    }
}

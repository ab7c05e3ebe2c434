//! What a run says: progress and failures as it goes, at its end what has no report, and the count.

use crate::answer::Answer;
use crate::report;
use crate::run::Outcome;
use crate::shown;
use std::io::{self, IsTerminal, Write};
use std::path::{Path, PathBuf};

/// Where nobody looks on, progress is a line for every so many.
const STEP: usize = 100;

pub struct Said<'a> {
    inputs: &'a [PathBuf],
    terminal: bool,
    reported: usize,
    turned_down: usize,
    failed: Vec<usize>,
}

/// A line on standard error.
pub fn line(text: &str) {
    put(&format!("batch: {text}\n"));
}

/// In one piece, for tasks that write to one log mix theirs. Where standard error is closed there is nobody to tell.
fn put(text: &str) {
    let _ = io::stderr().write_all(text.as_bytes());
}

impl Said<'_> {
    pub fn about(inputs: &[PathBuf]) -> Said<'_> {
        Said { inputs, terminal: io::stderr().is_terminal(), reported: 0, turned_down: 0, failed: Vec::new() }
    }

    pub fn tell(&mut self, index: usize, outcome: Outcome) {
        match outcome {
            Ok(Answer::Report) => self.reported += 1,
            Ok(Answer::Refusal) => self.turned_down += 1,
            Err(why) => {
                self.end_progress();
                line(&format!("failed {}: {why}", shown::name(&self.inputs[index])));
                self.failed.push(index);
            }
        }
        self.progress();
    }

    /// The count goes to standard output, or to standard error where that cannot be written. Answers whether all were run.
    pub fn end(mut self) -> bool {
        self.end_progress();
        self.failed.sort_unstable();
        self.failed.iter().for_each(|index| line(&without_report(&self.inputs[*index])));
        let (reported, turned_down, failed) = (self.reported, self.turned_down, self.failed.len());
        let total = self.inputs.len();
        let count = format!("{total} inputs: {reported} reported, {turned_down} turned down, {failed} failed to run");
        if writeln!(io::stdout(), "batch: {count}").and_then(|()| io::stdout().flush()).is_err() {
            line(&count);
        }
        failed == 0
    }

    fn progress(&self) {
        let (finished, total) = (self.finished(), self.inputs.len());
        if self.terminal {
            put(&format!("\r{finished}/{total}"));
        } else if finished % STEP == 0 || finished == total {
            put(&format!("{finished}/{total}\n"));
        }
    }

    /// A terminal's progress has no end of line, so that it is written over.
    fn end_progress(&self) {
        if self.terminal && self.finished() > 0 {
            put("\n");
        }
    }

    fn finished(&self) -> usize {
        self.reported + self.turned_down + self.failed.len()
    }
}

fn without_report(input: &Path) -> String {
    let report = report::beside(input);
    let old = match report.symlink_metadata() {
        Ok(found) if found.is_file() => format!("; {} is an old one", shown::name(&report)),
        _ => String::new(),
    };
    format!("no report of this run for {}{old}", shown::name(input))
}

//! Inputs of `irreport` or `irdetail`, each output held against the reference's.

use crate::edges::{edges, input};
use crate::program::{Manner, Program};
use crate::show;
use crate::tally::Tally;
use reference::{answer_input, split_input, CAPITAL_BYTES};
use std::process::Output;
use std::time::Instant;

/// Small writes take a system call each: longer inputs are written at once.
const LONGEST_BY_ONES: usize = 1_000;
const LONGEST_BY_SEVENS: usize = 20_000;
/// A start of the program for each try of the shrinker: only the first differences are shrunk.
const SHRUNK: u64 = 2;

/// A program, and what it has to print for an input.
pub struct Printing {
    pub program: Program,
    pub due: fn(&[u8]) -> String,
    /// No further than the first input that differs.
    pub only_first: bool,
}

impl Printing {
    /// The inputs at the edges, each in every manner; then the cases of the seeds from the first on.
    pub fn compare(&self, first_seed: u64, cases: u64) -> Tally {
        let mut tally = self.compare_edges();
        let at_the_edges = tally.differences;
        for index in 0..cases {
            if self.has_enough(&tally) {
                break;
            }
            let seed = first_seed.wrapping_add(index);
            let input = books::case(seed).input();
            let choices = manners(&input);
            let manner = choices[index as usize % choices.len()];
            let differs = self.compare_input(&format!("seed {seed}, {manner:?}"), &input, manner, &mut tally);
            if differs && tally.differences - at_the_edges <= SHRUNK {
                self.show_smallest(&input, manner);
            }
        }
        tally
    }

    fn compare_edges(&self) -> Tally {
        let mut tally = Tally::default();
        for (index, input) in edges().iter().enumerate() {
            if self.has_enough(&tally) {
                break;
            }
            self.compare_in_every_manner(&format!("edge {index}"), input, &mut tally);
        }
        tally
    }

    fn has_enough(&self, tally: &Tally) -> bool {
        self.only_first && tally.differences > 0
    }

    fn compare_in_every_manner(&self, which: &str, input: &[u8], tally: &mut Tally) {
        for manner in manners(input) {
            self.compare_input(&format!("{which}, {manner:?}"), input, manner, tally);
        }
    }

    fn compare_input(&self, which: &str, input: &[u8], manner: Manner, tally: &mut Tally) -> bool {
        tally.count(input.get(CAPITAL_BYTES..).unwrap_or_default(), &answer_input(input));
        let Some(difference) = self.difference(input, manner) else { return false };
        tally.differences += 1;
        println!("difference at {which}, {} bytes: {difference}", input.len());
        true
    }

    fn difference(&self, input: &[u8], manner: Manner) -> Option<String> {
        let Output { status, stdout, stderr } = match self.program.run(input, manner) {
            Ok(output) => output,
            Err(why) => return Some(why),
        };
        let (printed, said) = (String::from_utf8_lossy(&stdout), String::from_utf8_lossy(&stderr));
        if let Some(line) = show::first_difference(&printed, &(self.due)(input)) {
            return Some(if status.success() { line } else { format!("{line}; {status}") });
        }
        if !said.is_empty() || !status.success() {
            return Some(format!("printed what was due, then {said:?} on standard error, {status}"));
        }
        None
    }

    fn show_smallest(&self, whole: &[u8], manner: Manner) {
        let Some((capital, book)) = split_input(whole) else { return };
        let begin = Instant::now();
        let small = books::shrink(book, |book| {
            begin.elapsed() < show::SHRINKING && self.difference(&input(capital, book), manner).is_some()
        });
        let why = self.difference(&input(capital, &small), manner).unwrap_or_default();
        println!("  smallest: {why}; {}", show::input(capital, &small));
    }
}

fn manners(input: &[u8]) -> Vec<Manner> {
    let mut manners = vec![Manner::AtOnce];
    if input.len() <= LONGEST_BY_SEVENS {
        manners.push(Manner::InPieces(7));
    }
    if input.len() <= LONGEST_BY_ONES {
        manners.push(Manner::InPieces(1));
    }
    manners
}

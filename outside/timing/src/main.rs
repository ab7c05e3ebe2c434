//! `timing`: see `HELP`.

mod programs;
mod table;

use programs::{Book, PLAIN, PRODUCT};
use std::process::ExitCode;

const HELP: &str = "\
timing RUNS INPUT..          the plain program and the product, run by turns on each input: microseconds of one assessment
timing once plain INPUT      one assessment by the plain program, by `plain_assess`, for callgrind
timing once product INPUT    one by the product, by `vorlegan_assess`

An input is what irreport reads. Before each assessment the rooms are cleared and the clock is started after it.
";

fn main() -> ExitCode {
    let arguments: Vec<String> = std::env::args().skip(1).collect();
    let words: Vec<&str> = arguments.iter().map(String::as_str).collect();
    match run(&words) {
        Ok(()) => ExitCode::SUCCESS,
        Err(why) => {
            eprintln!("timing: {why}");
            ExitCode::from(2)
        }
    }
}

fn run(words: &[&str]) -> Result<(), String> {
    match words {
        ["once", "plain", input] => once(&PLAIN, input),
        ["once", "product", input] => once(&PRODUCT, input),
        ["help"] | [] | ["once", ..] => Err(format!("usage:\n{HELP}")),
        [runs, inputs @ ..] => {
            let runs: usize = runs.parse().map_err(|_| format!("\"{runs}\" is no number of runs"))?;
            table::print(runs.max(1), inputs)
        }
    }
}

fn once(program: &programs::Program, input: &str) -> Result<(), String> {
    let answer = Book::read(input)?.assessed_by(program);
    println!("answer {} at {}", answer.number, answer.place);
    Ok(())
}

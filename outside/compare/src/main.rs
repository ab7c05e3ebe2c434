//! `compare`: see `HELP`.

mod edges;
mod face;
mod long;
mod program;
mod rooms;
mod show;
mod streams;
mod tally;
mod through_face;
mod through_program;
mod widening;

use face::Face;
use program::Program;
use reference::{irdetail, irreport};
use std::path::Path;
use std::process::ExitCode;
use tally::{Floors, Tally, FACE, PROGRAM};
use through_program::Printing;

const HELP: &str = "\
compare face FIRST-SEED CASES -- PIPE          seeded cases through the C face, against the reference
compare first FIRST-SEED CASES -- PIPE         the same, no further than the first difference
compare long SECONDS -- PIPE                   the same in batches from fresh seeds, for so long
compare widen FIRST-SEED SEEDS -- PIPE         stored reports of 58 numbers made into such of 202, through the C face
compare irreport FIRST-SEED CASES -- PROGRAM   inputs at the edges, then seeded ones, through the report program
compare irdetail FIRST-SEED CASES -- PROGRAM   the same through the program that prints the detail as well
compare first irreport .., first irdetail ..   either of the two, no further than the first input that differs
compare streams -- PROGRAM                     either of the two with streams that cannot be read or written
compare inputs FIRST-SEED CASES DIRECTORY      write the seeded inputs as files, with nothing compared
compare month-end -- PIPE                      the books of a month-end run through the C face; each has to be reported
compare month-end DIRECTORY                    write their inputs as files, with nothing compared

PIPE starts the C program of face/pipe.c, PROGRAM one of the two; either may begin with an emulator. The last word of
PROGRAM is its file, by whose name it speaks of itself.
Status: 0 no difference and enough compared; 1 a difference, or too little compared; 2 not done.
The last line says what happened.
";

/// How a run ends: its last line, and why it failed, if it did.
struct Ending {
    line: String,
    complaint: Option<String>,
}

fn main() -> ExitCode {
    let arguments: Vec<String> = std::env::args_os().skip(1).map(|word| word.to_string_lossy().into_owned()).collect();
    let (words, command) = match arguments.iter().position(|word| word == "--") {
        Some(place) => (&arguments[..place], &arguments[place + 1..]),
        None => (&arguments[..], &[][..]),
    };
    let words: Vec<&str> = words.iter().map(String::as_str).collect();
    match run(&words, command) {
        Ok(Ending { line, complaint }) => {
            complaint.iter().for_each(|why| println!("compare: failed: {why}"));
            println!("{line}");
            ExitCode::from(u8::from(complaint.is_some()))
        }
        Err(why) => {
            eprintln!("compare: {why}");
            ExitCode::from(2)
        }
    }
}

fn run(words: &[&str], command: &[String]) -> Result<Ending, String> {
    match (words, command) {
        (["face" | "first" | "long" | "widen" | "irreport" | "irdetail" | "streams", ..] | ["month-end"], []) => {
            Err("-- COMMAND is wanted".to_string())
        }
        ([mode @ ("face" | "first"), seed, cases], _) => {
            let only_first = *mode == "first";
            let tally = through_face::compare(&mut Face::start(command)?, number(seed)?, number(cases)?, only_first);
            Ok(ending(format!("C face, seeds from {seed}"), tally, &FACE))
        }
        (["long", seconds], _) => {
            let tally = long::compare(&mut Face::start(command)?, number(seconds)?);
            Ok(ending(format!("C face, fresh seeds for {seconds} s"), tally, &FACE))
        }
        (["widen", seed, seeds], _) => {
            let widened = widening::compare(&mut Face::start(command)?, number(seed)?, number(seeds)?);
            let line = widened.line(&format!("C face, stored reports, seeds from {seed}"));
            Ok(Ending { line, complaint: widened.complaint() })
        }
        ([first @ .., name @ ("irreport" | "irdetail"), seed, cases], _) if matches!(first, [] | ["first"]) => {
            let due = if *name == "irreport" { irreport } else { irdetail };
            let printing = Printing { program: Program::of(command)?, due, only_first: !first.is_empty() };
            let tally = printing.compare(number(seed)?, number(cases)?);
            Ok(ending(format!("{name}, seeds from {seed}"), tally, &PROGRAM))
        }
        (["streams"], _) => streams(&Program::of(command)?),
        (["inputs", seed, cases, directory], []) => inputs(number(seed)?, number(cases)?, Path::new(directory)),
        (["month-end"], _) => month_end(&mut Face::start(command)?),
        (["month-end", directory], []) => month_end_inputs(Path::new(directory)),
        (["help" | "--help" | "-h"], []) => Ok(Ending { line: HELP.trim_end().to_string(), complaint: None }),
        _ => {
            let words = "face, first, long, widen, irreport, irdetail, streams, inputs, month-end or help";
            Err(format!("{words} is wanted, as help says"))
        }
    }
}

fn number(word: &str) -> Result<u64, String> {
    word.parse().map_err(|_| format!("\"{word}\" is no number"))
}

fn ending(what: String, tally: Tally, floors: &Floors) -> Ending {
    Ending { line: tally.line(&what), complaint: tally.complaint(floors) }
}

fn streams(program: &Program) -> Result<Ending, String> {
    let (tried, wrong) = streams::check(program)?;
    let complaint = if wrong.is_empty() { None } else { Some(wrong.join("\ncompare: failed: ")) };
    let line = format!("{}, bad streams: {tried} tried, {} treated wrongly", program.name(), wrong.len());
    Ok(Ending { line, complaint })
}

fn inputs(first_seed: u64, cases: u64, directory: &Path) -> Result<Ending, String> {
    let seeds = (0..cases).map(|index| first_seed.wrapping_add(index));
    write_inputs(directory, seeds.map(|seed| (seed.to_string(), books::case(seed).input())))
}

fn month_end(face: &mut Face) -> Result<Ending, String> {
    let tally = through_face::compare_month_end(face, books::month_end());
    let turned_down = tally.cases - tally.reported;
    let mut ending = ending("C face, month-end books".to_string(), tally, &FACE);
    if turned_down > 0 {
        ending.complaint = Some(format!("{turned_down} of the books are turned down"));
    }
    Ok(ending)
}

fn month_end_inputs(directory: &Path) -> Result<Ending, String> {
    write_inputs(directory, books::month_end().into_iter().map(|(name, case)| (name.to_string(), case.input())))
}

fn write_inputs(directory: &Path, inputs: impl Iterator<Item = (String, Vec<u8>)>) -> Result<Ending, String> {
    let failed = |path: &Path, error: std::io::Error| format!("{}: cannot be written: {error}", path.display());
    std::fs::create_dir_all(directory).map_err(|error| failed(directory, error))?;
    let mut written = 0;
    for (name, input) in inputs {
        let path = directory.join(format!("{name}.input"));
        std::fs::write(&path, input).map_err(|error| failed(&path, error))?;
        written += 1;
    }
    Ok(Ending { line: format!("{written} inputs written to {}", directory.display()), complaint: None })
}

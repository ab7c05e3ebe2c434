//! `batch`: see `HELP`. `bin/batch` starts it, with `bin/irreport` as the first word.

mod answer;
mod arguments;
mod folder;
mod input;
mod kind;
mod program;
mod report;
mod run;
mod said;
mod shown;

use arguments::Wanted;
use program::Program;
use said::Said;
use std::env;
use std::ffi::OsString;
use std::io::{self, Write};
use std::process::ExitCode;

const HELP: &str = "\
bin/batch DIRECTORY                  report every .input file of a folder
bin/batch FILE.input..               report these
bin/batch --list FILE                report those that FILE names, each name ended by a NUL byte; - is standard input
bin/batch --list FILE --share K/N    the same for one of N tasks: inputs K, K + N, K + 2N and so on of the list
bin/batch --help                     print this

FILE.report is written beside FILE.input as a whole or not at all. An old report is replaced, never removed; where it
is a link, or no file, that input is not run. An input that is a link to a file is read. What cannot be run is named,
and the rest is run. IRREPORT in the environment names another report program.
The last line says what happened. Status: 0 all were run, 1 some failed to run, 2 bad usage, or the report program
cannot be started; then nothing was touched.
";

fn main() -> ExitCode {
    let words: Vec<OsString> = env::args_os().skip(1).collect();
    match run(&words) {
        Ok(true) => ExitCode::SUCCESS,
        Ok(false) => ExitCode::from(1),
        Err(why) => {
            said::line(&why);
            ExitCode::from(2)
        }
    }
}

/// Whether all were run; or why nothing was touched.
fn run(words: &[OsString]) -> Result<bool, String> {
    let (starter, words) =
        words.split_first().ok_or("bin/batch starts this, with the path of bin/irreport before the rest")?;
    let (inputs, not_looked_at) = match arguments::wanted(words)? {
        Wanted::Inputs { inputs, not_looked_at } => (inputs, not_looked_at),
        Wanted::Help => {
            // A reader that has seen enough is no error.
            let _ = io::stdout().write_all(HELP.as_bytes());
            return Ok(true);
        }
    };
    let program = Program::find(starter)?;
    program.probe()?;
    not_looked_at.iter().for_each(|what| said::line(what));
    let mut said = Said::about(&inputs);
    run::every(&program, &inputs, |index, outcome| said.tell(index, outcome));
    Ok(said.end())
}

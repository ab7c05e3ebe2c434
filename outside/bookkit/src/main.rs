//! `bookkit`: see `HELP`.

mod commands;
mod files;
mod help;
mod irdetail;
mod trouble;

use bookkit::{Form, Wanted};
use commands::{explained, inbox, inbox_list, inbox_pages, make_into, print, report, show};
use help::HELP;
use std::ffi::{OsStr, OsString};
use std::io::Write;
use std::process::ExitCode;
use trouble::{not_done, Trouble};

fn main() -> ExitCode {
    let arguments: Vec<OsString> = std::env::args_os().skip(1).collect();
    match run(&arguments) {
        Ok(()) => ExitCode::SUCCESS,
        Err(trouble) => {
            if let Some(why) = trouble.why {
                // Where standard error is gone too, the status is all that can be said.
                let _ = writeln!(std::io::stderr(), "bookkit: {why}");
            }
            ExitCode::from(trouble.status)
        }
    }
}

/// Names of files stay as they are: they need not be UTF-8.
fn run(arguments: &[OsString]) -> Result<(), Trouble> {
    let words: Vec<_> = arguments.iter().map(|word| word.to_string_lossy()).collect();
    let words: Vec<&str> = words.iter().map(|word| word.as_ref()).collect();
    let output = arguments.get(3).map_or(OsStr::new("-"), OsString::as_os_str);
    match words[..] {
        ["report", "--html", _] | ["report", "--html", _, _] => report(&arguments[2], Form::Page, output),
        ["report", "--svg", _] | ["report", "--svg", _, _] => report(&arguments[2], Form::Picture, output),
        ["report", path] if !path.starts_with("--") => report(&arguments[1], Form::Terminal, output),
        ["inbox", "--csv", _] | ["inbox", "--csv", _, _] => inbox_list(&arguments[2], output),
        ["inbox", "--html", _, _] => inbox_pages(&arguments[2], &arguments[3]),
        ["inbox", path] if !path.starts_with("--") => inbox(&arguments[1]),
        ["show", "--input", _] => show(&arguments[2], Wanted::Input),
        ["show", path] if path != "--input" => show(&arguments[1], Wanted::Book),
        ["make", _] => make_into(&arguments[1], OsStr::new("-")),
        ["make", _, _] => make_into(&arguments[1], &arguments[2]),
        ["explain", number] => explained(number),
        ["help" | "--help" | "-h"] => print(HELP),
        _ => Err(not_done(
            "report [--html|--svg] INPUT, inbox [--csv|--html] DIRECTORY, show [--input] FILE, make TEXT [OUTPUT], \
             explain NUMBER or help is wanted"
                .to_string(),
        )),
    }
}

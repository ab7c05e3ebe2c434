//! A second opinion: `reference < INPUT` prints what `irreport < INPUT` has to print, and `reference --detail < INPUT`
//! what `irdetail < INPUT` has to.

use std::io::{self, Read, Write};
use std::process::ExitCode;

fn main() -> io::Result<ExitCode> {
    let words: Vec<_> = std::env::args_os().skip(1).collect();
    let due: fn(&[u8]) -> String = match &words[..] {
        [] => reference::irreport,
        [word] if word == "--detail" => reference::irdetail,
        _ => {
            eprintln!("reference: --detail or no word is wanted, and the input on standard input");
            return Ok(ExitCode::from(2));
        }
    };
    let mut input = Vec::new();
    io::stdin().read_to_end(&mut input)?;
    io::stdout().write_all(due(&input).as_bytes())?;
    Ok(ExitCode::SUCCESS)
}

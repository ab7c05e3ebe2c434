//! `irdetail`, found and started: every figure comes from there.

use crate::files;
use bookkit::plain;
use std::env;
use std::ffi::OsString;
use std::io::{Read, Write};
use std::path::PathBuf;
use std::process::{Child, Command, Stdio};
use std::thread;

/// Far above the lines of thirty-two currencies. A program that prints more is another one, and may never end.
const MOST_PRINTED: u64 = 1 << 20;
/// More than a message needs.
const MOST_SAID: u64 = 1_000;

pub struct Program {
    path: OsString,
}

impl Program {
    /// The program that the environment names; else that of the repository in which this one was built; else that of the
    /// path.
    pub fn find() -> Program {
        let named = env::var_os("IRDETAIL").filter(|path| !path.is_empty());
        let path = named.or_else(|| Some(of_the_repository()?.into_os_string()));
        Program { path: path.unwrap_or_else(|| OsString::from("irdetail")) }
    }

    pub fn name(&self) -> String {
        files::name(&self.path)
    }

    /// What it prints for an input, or on one line why it cannot be had.
    pub fn printed(&self, input: &[u8]) -> Result<String, String> {
        let name = self.name();
        let mut command = Command::new(&self.path);
        command.stdin(Stdio::piped()).stdout(Stdio::piped()).stderr(Stdio::piped());
        let mut child = command.spawn().map_err(|error| {
            format!("{name} cannot be started: {error}; IRDETAIL in the environment can name another irdetail")
        })?;
        let (printed, said) = exchanged(&mut child, input);
        let status = child.wait().map_err(|error| format!("{name} cannot be waited for: {error}"))?;
        if printed.len() as u64 > MOST_PRINTED {
            return Err(format!("what {name} printed is not what irdetail prints: it is far too long"));
        }
        if !status.success() {
            return Err(format!("{name} failed ({status}){}", on_one_line(&said)));
        }
        String::from_utf8(printed)
            .map_err(|_| format!("what {name} printed is not what irdetail prints: it is no text"))
    }
}

/// `outside/target/release/bookkit` is four steps below the repository. A link to it may lie anywhere.
fn of_the_repository() -> Option<PathBuf> {
    let built = env::current_exe().and_then(|path| path.canonicalize()).ok()?;
    let program = built.ancestors().nth(4)?.join("bin/irdetail");
    program.is_file().then_some(program)
}

/// All three streams at once, so that none holds the program up, whichever it is. One that has seen enough of its input
/// closes it, which is no error; what it then prints is judged.
fn exchanged(child: &mut Child, input: &[u8]) -> (Vec<u8>, Vec<u8>) {
    let (stdin, stdout, stderr) = (child.stdin.take(), child.stdout.take(), child.stderr.take());
    thread::scope(|scope| {
        scope.spawn(move || stdin.map(|mut pipe| pipe.write_all(input)));
        let said = scope.spawn(move || first_bytes(stderr, MOST_SAID));
        let printed = first_bytes(stdout, MOST_PRINTED + 1);
        (printed, said.join().unwrap_or_default())
    })
}

/// The stream is closed then, which ends a program that prints on.
fn first_bytes(stream: Option<impl Read>, most: u64) -> Vec<u8> {
    let mut bytes = Vec::new();
    if let Some(stream) = stream {
        // What came before an error is there, and is judged.
        let _ = stream.take(most).read_to_end(&mut bytes);
    }
    bytes
}

/// What a program said on standard error, its lines on one.
fn on_one_line(said: &[u8]) -> String {
    let lines: Vec<String> = said.trim_ascii().split(|byte| *byte == b'\n').map(plain).collect();
    match said.trim_ascii().is_empty() {
        true => String::new(),
        false => format!(": {}", lines.join("; ")),
    }
}

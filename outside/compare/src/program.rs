//! A program that prints what an input comes to, started once for each input; and the ways an input can reach it.

use std::io::{ErrorKind, Write};
use std::path::Path;
use std::process::{Child, ChildStdin, Command, Output, Stdio};
use std::thread::{scope, sleep};
use std::time::Duration;

/// How an input is written into the program's standard input.
#[derive(Clone, Copy, Debug, PartialEq, Eq)]
pub enum Manner {
    AtOnce,
    /// In writes of so many bytes, with pauses after the first ones, so that the program's reads come back short.
    InPieces(usize),
}

/// Pauses enough for short reads at T's bytes and within the first records.
const PAUSES: usize = 20;
const PAUSE: Duration = Duration::from_micros(500);

pub struct Program {
    command: Vec<String>,
}

impl Program {
    /// A program that cannot be started is an error here, no difference.
    pub fn of(command: &[String]) -> Result<Program, String> {
        let program = Program { command: command.to_vec() };
        program.run(&[], Manner::AtOnce).map(|_| program)
    }

    /// The program with these streams; standard error is always caught.
    pub fn start(&self, stdin: Stdio, stdout: Stdio) -> Result<Child, String> {
        let (program, words) = self.command.split_first().ok_or("no program was named")?;
        let spawned = Command::new(program).args(words).stdin(stdin).stdout(stdout).stderr(Stdio::piped()).spawn();
        spawned.map_err(|error| format!("{program}: cannot be started: {error}"))
    }

    /// The same with a stream closed: `redirection` is the shell's, as `>&-`.
    pub fn closing(&self, redirection: &str) -> Program {
        let script = format!("exec \"$@\" {redirection}");
        let shell = ["sh", "-c", &script, "sh"].map(str::to_string);
        Program { command: [&shell[..], &self.command].concat() }
    }

    /// What it is called: the name of the file that the command's last word is, behind an emulator or not.
    pub fn name(&self) -> &str {
        let last = self.command.last().map(Path::new);
        last.and_then(Path::file_name).and_then(|name| name.to_str()).unwrap_or_default()
    }

    /// Its output is taken while its input is written: a detail is longer than a pipe holds, and nothing is known of when
    /// a wrong program prints, so that one after the other each could wait for the other.
    pub fn run(&self, input: &[u8], manner: Manner) -> Result<Output, String> {
        let mut child = self.start(Stdio::piped(), Stdio::piped())?;
        let stdin = child.stdin.take().expect("asked for");
        scope(|scope| {
            let fed = scope.spawn(move || feed(stdin, input, manner));
            let output = child.wait_with_output().map_err(|error| error.to_string());
            fed.join().expect("feeding panics nowhere").and(output)
        })
    }
}

/// Writes the input and closes the pipe. A program that has read enough may leave the rest.
pub fn feed(mut stdin: ChildStdin, input: &[u8], manner: Manner) -> Result<(), String> {
    let size = match manner {
        Manner::AtOnce => input.len().max(1),
        Manner::InPieces(size) => size,
    };
    for (index, piece) in input.chunks(size).enumerate() {
        match stdin.write_all(piece) {
            Err(error) if error.kind() == ErrorKind::BrokenPipe => return Ok(()),
            written => written.map_err(|error| format!("its standard input: {error}"))?,
        }
        if manner != Manner::AtOnce && index < PAUSES {
            sleep(PAUSE);
        }
    }
    Ok(())
}

//! The report program: found and tried once, then started for each input.

use crate::answer::{answer, Answer};
use crate::shown;
use std::env;
use std::ffi::{OsStr, OsString};
use std::fs::File;
use std::io::{self, Read};
use std::os::unix::ffi::OsStringExt;
use std::os::unix::process::ExitStatusExt;
use std::path::Path;
use std::process::{Child, Command, Output, Stdio};
use std::thread::Builder;

/// What `irreport` prints for an input of no bytes.
const OF_NOTHING: &[u8] = b"R 16 0\n";

/// More than a message needs, and the rest would hide the names around it.
const MOST_SAID: usize = 1_000;

/// Of a program that is not yet known no more is read: it may print without end.
const MOST_PROBED: u64 = 2_000;

pub struct Program {
    command: Vec<OsString>,
}

impl Program {
    /// The program that the environment names; or else the words that `bin/irreport` starts it with, asked for once,
    /// so that no shell is started for each input.
    pub fn find(starter: &OsStr) -> Result<Program, String> {
        match env::var_os("IRREPORT") {
            Some(program) if !program.is_empty() => Ok(Program { command: vec![program] }),
            _ => Ok(Program { command: told(starter)? }),
        }
    }

    /// Has to be called before anything is touched: a program that cannot be started is found out here.
    pub fn probe(&self) -> Result<(), String> {
        let named = shown::name(Path::new(self.command.last().ok_or("no program was named")?));
        let output = self.start(Stdio::null()).and_then(first_output).map_err(|why| format!("{named} {why}"))?;
        if output.status.success() && output.stdout == OF_NOTHING {
            return Ok(());
        }
        let why = match said(&output) {
            message if message.is_empty() => "it does not answer as irreport does".to_string(),
            message => message,
        };
        Err(format!("{named} cannot be used: {why}"))
    }

    /// What it printed for an input, if that is whole; why not, on one line, if it is not.
    pub fn answer(&self, input: File) -> Result<(Answer, Vec<u8>), String> {
        let child = self.start(Stdio::from(input)).map_err(|why| format!("the report program {why}"))?;
        let output = child.wait_with_output().map_err(|error| format!("the report program {}", lost(&error)))?;
        match answer(&output.stdout) {
            Some(answer) if output.status.success() => Ok((answer, output.stdout)),
            _ => Err(why(&output)),
        }
    }

    fn start(&self, input: Stdio) -> Result<Child, String> {
        let (program, words) = self.command.split_first().ok_or("no program was named")?;
        let mut command = Command::new(program);
        command.args(words).stdin(input).stdout(Stdio::piped()).stderr(Stdio::piped());
        command.spawn().map_err(|error| format!("cannot be started: {error}"))
    }
}

/// What a program said on standard error, its lines on one.
fn said(output: &Output) -> String {
    let message = output.stderr.trim_ascii();
    let (message, rest) = message.split_at(message.len().min(MOST_SAID));
    let lines: Vec<String> = message.split(|byte| *byte == b'\n').map(shown::text).collect();
    lines.join("; ") + if rest.is_empty() { "" } else { "..." }
}

fn why(output: &Output) -> String {
    match (said(output), output.status.code(), output.status.signal()) {
        (message, ..) if !message.is_empty() => message,
        (_, Some(code), _) => format!("status {code} and no whole report"),
        (_, None, Some(signal)) => format!("ended by signal {signal} and no whole report"),
        (_, None, None) => "no whole report".to_string(),
    }
}

fn lost(error: &io::Error) -> String {
    format!("cannot be waited for: {error}")
}

/// The words end with a NUL byte each.
fn told(starter: &OsStr) -> Result<Vec<OsString>, String> {
    let named = shown::name(Path::new(starter));
    let asked = Command::new(starter).arg("--command").stdin(Stdio::null()).output();
    let output = asked.map_err(|error| format!("{named} cannot be started: {error}"))?;
    let words = output.stdout.strip_suffix(b"\0").unwrap_or_default();
    if !output.status.success() || words.is_empty() {
        return Err(format!("{named} cannot be started: {}", why(&output)));
    }
    Ok(words.split(|byte| *byte == 0).map(|word| OsString::from_vec(word.to_vec())).collect())
}

/// The first bytes of both streams. They are read at once, so that neither holds the program up.
fn first_output(mut child: Child) -> Result<Output, String> {
    let (stdout, stderr) = (child.stdout.take(), child.stderr.take());
    let messages = Builder::new().spawn(|| first_bytes(stderr)).map_err(|error| lost(&error))?;
    let printed = first_bytes(stdout);
    let messages = messages.join().unwrap_or_default();
    let status = child.wait().map_err(|error| lost(&error))?;
    Ok(Output { status, stdout: printed, stderr: messages })
}

/// The stream is closed then, which ends a program that prints on.
fn first_bytes(stream: Option<impl Read>) -> Vec<u8> {
    let mut bytes = Vec::new();
    if let Some(stream) = stream {
        // What was read before an error is there, and no whole answer.
        let _ = stream.take(MOST_PROBED).read_to_end(&mut bytes);
    }
    bytes
}

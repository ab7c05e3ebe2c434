//! A program where its streams are no good: what cannot be written ends it quietly, what cannot be read gets a message
//! on standard error and nothing on standard output.

use crate::edges::more_than_a_pipe_holds;
use crate::program::{feed, Manner, Program};
use std::fs::{File, OpenOptions};
use std::io::Read;
use std::os::unix::process::ExitStatusExt;
use std::process::{Child, Output, Stdio};

/// The signal of a pipe that nobody reads: the usual quiet end.
const SIGPIPE: i32 = 13;

/// Says of each stream that is treated wrongly how; and how many were tried. A pipe holds each of the inputs, so that
/// feeding waits for nobody.
pub fn check(program: &Program) -> Result<(u64, Vec<String>), String> {
    let mut wrong = Vec::new();
    let inputs = [1u64.to_be_bytes().to_vec(), b"short".to_vec(), more_than_a_pipe_holds()];
    for input in &inputs {
        wrong.extend(unwritable(program, input)?);
    }
    wrong.extend(unreadable(program)?);
    Ok((4 * inputs.len() as u64 + 3, wrong))
}

fn unwritable(program: &Program, input: &[u8]) -> Result<Vec<String>, String> {
    let mut wrong = Vec::new();
    for (what, mut child) in with_bad_output(program)? {
        feed(child.stdin.take().expect("asked for"), input, Manner::AtOnce)?;
        take_a_byte(&mut child);
        let Output { status, stderr, .. } = end(child)?;
        let crashed = status.signal().is_some_and(|signal| signal != SIGPIPE);
        if crashed || !stderr.is_empty() {
            let (bytes, said) = (input.len(), String::from_utf8_lossy(&stderr));
            let found = format!("{status}, {said:?} on standard error");
            wrong.push(format!("input of {bytes} bytes, standard output is {what}: {found}; quiet was due"));
        }
    }
    Ok(wrong)
}

fn with_bad_output(program: &Program) -> Result<[(&'static str, Child); 4], String> {
    let closed = program.closing(">&-").start(Stdio::piped(), Stdio::null())?;
    let mut unread = program.start(Stdio::piped(), Stdio::piped())?;
    drop(unread.stdout.take());
    let left = program.start(Stdio::piped(), Stdio::piped())?;
    let full = OpenOptions::new().write(true).open("/dev/full").map_err(|error| format!("/dev/full: {error}"))?;
    let full = program.start(Stdio::piped(), Stdio::from(full))?;
    Ok([
        ("closed", closed),
        ("a pipe that nobody reads", unread),
        ("a pipe whose reader leaves after a byte", left),
        ("a full device", full),
    ])
}

/// From the one pipe that has a reader; then it has none.
fn take_a_byte(child: &mut Child) {
    if let Some(mut stdout) = child.stdout.take() {
        // Nothing to take is as good: the program has ended.
        let _ = stdout.read(&mut [0]);
    }
}

fn unreadable(program: &Program) -> Result<Vec<String>, String> {
    let closed = program.closing("<&-").start(Stdio::null(), Stdio::piped())?;
    let directory = File::open("/").map_err(|error| format!("/: {error}"))?;
    let directory = program.start(Stdio::from(directory), Stdio::piped())?;
    let one_way = OpenOptions::new().write(true).open("/dev/null").map_err(|error| format!("/dev/null: {error}"))?;
    let one_way = program.start(Stdio::from(one_way), Stdio::piped())?;
    let due = format!("{}: standard input cannot be read; nothing is reported\n", program.name());
    let mut wrong = Vec::new();
    for (what, child) in [("closed", closed), ("a directory", directory), ("open for writing only", one_way)] {
        let Output { status, stdout, stderr } = end(child)?;
        if status.signal().is_some() || !stdout.is_empty() || stderr != due.as_bytes() {
            let (printed, said) = (String::from_utf8_lossy(&stdout), String::from_utf8_lossy(&stderr));
            let found = format!("{status}, {printed:?}, {said:?} on standard error");
            wrong.push(format!("standard input is {what}: {found}; {due:?} there and nothing else was due"));
        }
    }
    Ok(wrong)
}

fn end(child: Child) -> Result<Output, String> {
    child.wait_with_output().map_err(|error| error.to_string())
}

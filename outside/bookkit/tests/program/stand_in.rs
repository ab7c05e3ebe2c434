//! Programs in place of `irdetail`. The proved one need not be there, and the wrong ones are none.

use crate::directory;
use reference::irdetail;
use std::ffi::OsStr;
use std::fs;
use std::io::Write;
use std::path::{Path, PathBuf};
use std::process::{Command, Output, Stdio};

pub fn example(name: &str) -> PathBuf {
    PathBuf::from(env!("CARGO_MANIFEST_DIR")).join("../../examples").join(name)
}

/// A script that can be started. A shell writes it: a file that this process had open for writing might still be open in
/// another test's child, and could not be started then.
pub fn script(path: &Path, text: &str) -> PathBuf {
    let mut shell = Command::new("sh");
    shell.args(["-c", "cat >\"$0\" && chmod +x \"$0\""]).arg(path).stdin(Stdio::piped());
    let mut running = shell.spawn().expect("sh runs");
    running.stdin.take().expect("a pipe").write_all(format!("#!/bin/sh\n{text}\n").as_bytes()).expect("written");
    assert!(running.wait().expect("an end").success());
    path.to_path_buf()
}

/// A folder of its own, with a program that prints what is due for each of these inputs, and for no other.
pub fn knowing(name: &str, inputs: &[&[u8]]) -> PathBuf {
    let here = directory(&format!("{name}_program"));
    for (index, input) in inputs.iter().enumerate() {
        fs::write(here.join(format!("{index}.input")), input).expect("an input");
        fs::write(here.join(format!("{index}.input.printed")), irdetail(input)).expect("its lines");
    }
    let text = "here=$(dirname \"$0\"); cat >\"$here/$$\"\n\
                for known in \"$here\"/*.input; do cmp -s \"$known\" \"$here/$$\" && cat \"$known.printed\" && break; done\n\
                rm \"$here/$$\"";
    script(&here.join("irdetail"), text)
}

/// `bookkit` with another program in place of `irdetail`.
pub fn bookkit_with(program: &Path, arguments: &[impl AsRef<OsStr>]) -> Output {
    command_with(program, arguments).output().expect("bookkit runs")
}

/// The same, where a path comes after the words.
pub fn bookkit_on(program: &Path, words: &[&str], path: &Path) -> Output {
    let words = words.iter().map(OsStr::new).chain([path.as_os_str()]);
    bookkit_with(program, &words.collect::<Vec<_>>())
}

/// One that waits for ever, for a pipe or a program, fails with status 124.
pub fn command_with(program: &Path, arguments: &[impl AsRef<OsStr>]) -> Command {
    let mut command = Command::new("timeout");
    command.args(["60", env!("CARGO_BIN_EXE_bookkit")]).args(arguments).env("IRDETAIL", program);
    command
}

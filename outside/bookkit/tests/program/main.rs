//! The program itself, as a shell starts it.

mod command;
mod inbox;
mod limits;
mod recognised;
mod report;
mod stand_in;
mod streams;
mod targets;
mod words;

use std::ffi::OsStr;
use std::fs;
use std::path::{Path, PathBuf};
use std::process::{Command, Output};

fn bookkit(arguments: &[impl AsRef<OsStr>]) -> Output {
    Command::new(env!("CARGO_BIN_EXE_bookkit")).args(arguments).output().expect("bookkit runs")
}

/// A directory of its own for a test, empty.
fn directory(name: &str) -> PathBuf {
    let path = PathBuf::from(env!("CARGO_TARGET_TMPDIR")).join(name);
    let _ = fs::remove_dir_all(&path);
    fs::create_dir_all(&path).expect("a directory");
    path
}

fn files_in(path: &Path) -> Vec<String> {
    let name = |entry: fs::DirEntry| entry.file_name().to_string_lossy().into_owned();
    let mut names: Vec<String> =
        fs::read_dir(path).expect("a directory").map(|entry| name(entry.expect("an entry"))).collect();
    names.sort();
    names
}

fn assert_one_line(output: &Output, status: i32, parts: &[&str]) {
    let said = String::from_utf8_lossy(&output.stderr);
    assert_eq!((output.status.code(), said.lines().count()), (Some(status), 1), "{said}");
    parts.iter().for_each(|part| assert!(said.contains(part), "{part} in {said}"));
}

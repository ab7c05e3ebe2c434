//! The report beside an input: it appears as a whole or not at all, and an old one is only ever replaced.

use crate::kind;
use crate::shown;
use std::ffi::OsString;
use std::fs::{self, File};
use std::hash::{BuildHasher, RandomState};
use std::io::{self, ErrorKind, Write};
use std::os::unix::ffi::{OsStrExt, OsStringExt};
use std::path::{Path, PathBuf};

const INPUT: &[u8] = b".input";
const REPORT: &[u8] = b".report";
const PART_BEGINS: &str = ".batch-";
const PART_ENDS: &str = ".part";

pub fn is_input(path: &Path) -> bool {
    path.as_os_str().as_bytes().ends_with(INPUT)
}

/// `FILE.report` for `FILE.input`.
pub fn beside(input: &Path) -> PathBuf {
    let name = input.as_os_str().as_bytes();
    let stem = name.strip_suffix(INPUT).unwrap_or(name);
    PathBuf::from(OsString::from_vec([stem, REPORT].concat()))
}

/// Whether the name is one that `keep` gives to what it has not finished.
pub fn is_part(name: &str) -> bool {
    name.strip_prefix(PART_BEGINS).is_some_and(|rest| rest.ends_with(PART_ENDS))
}

/// Whether a report can be put there. A link could lead to any file, so it is neither followed nor replaced.
pub fn is_free(report: &Path) -> Result<(), String> {
    match fs::symlink_metadata(report) {
        Ok(found) if found.is_file() => Ok(()),
        Ok(found) => Err(format!("its report {} is {}, and stays so", shown::name(report), kind::of(&found))),
        Err(error) if error.kind() == ErrorKind::NotFound => Ok(()),
        Err(error) => Err(unwritten(&error)),
    }
}

/// Writes into a new file beside it, which then takes its name. A file that could not take it is removed.
pub fn keep(report: &Path, text: &[u8]) -> Result<(), String> {
    write_and_rename(&part(report), report, text).map_err(|error| unwritten(&error))
}

fn unwritten(error: &io::Error) -> String {
    format!("its report cannot be written: {error}")
}

fn write_and_rename(part: &Path, report: &Path, text: &[u8]) -> io::Result<()> {
    // It fails where anything has this name, a link that leads nowhere included.
    let mut file = File::create_new(part)?;
    let kept = file.write_all(text).and_then(|()| fs::rename(part, report));
    if kept.is_err() {
        // The first error is the one to report, whether or not this works.
        let _ = fs::remove_file(part);
    }
    kept
}

/// A name that nobody can foresee, and no longer for an input with a long one.
fn part(report: &Path) -> PathBuf {
    let drawn = RandomState::new().hash_one(report);
    report.with_file_name(format!("{PART_BEGINS}{drawn:016x}{PART_ENDS}"))
}

#[cfg(test)]
mod tests {
    use super::*;

    fn directory(name: &str) -> PathBuf {
        let path = std::env::temp_dir().join(format!("batch-{}-{name}", std::process::id()));
        fs::create_dir(&path).expect("a directory");
        path
    }

    #[test]
    fn names_of_reports_and_parts() {
        assert_eq!(beside(Path::new("a/b.c.input")), Path::new("a/b.c.report"));
        assert!(is_input(Path::new("a/b.input")) && !is_input(Path::new("a/b.input/")));
        let (one, other) = (part(Path::new("a/b.report")), part(Path::new("a/b.report")));
        assert!(one != other && one.parent() == Some(Path::new("a")));
        assert!(is_part(one.file_name().unwrap().to_str().unwrap()) && !is_part(".batch-notes.txt"));
    }

    #[test]
    fn a_part_is_never_opened_through_a_link() {
        let here = directory("link");
        fs::write(here.join("victim"), "mine").expect("a file");
        let part = here.join("part");
        std::os::unix::fs::symlink(here.join("victim"), &part).expect("a link");
        assert!(write_and_rename(&part, &here.join("a.report"), b"R 1 1\n").is_err());
        assert_eq!(fs::read(here.join("victim")).expect("a file"), b"mine");
        assert!(fs::symlink_metadata(&part).is_ok() && !here.join("a.report").exists());
        fs::remove_dir_all(here).expect("removed");
    }

    #[test]
    fn what_cannot_take_its_name_is_removed() {
        let here = directory("taken");
        fs::create_dir(here.join("a.report")).expect("a folder in the way");
        assert!(keep(&here.join("a.report"), b"R 1 1\n").is_err());
        assert_eq!(fs::read_dir(&here).expect("a folder").count(), 1);
        fs::remove_dir_all(here).expect("removed");
    }
}

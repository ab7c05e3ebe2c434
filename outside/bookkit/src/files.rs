//! Files, read as far as they can matter and written as a whole.

use bookkit::plain;
use std::ffi::{OsStr, OsString};
use std::fs::{self, File, FileType};
use std::hash::{BuildHasher, RandomState};
use std::io::{self, ErrorKind, Read, Write};
use std::path::{Path, PathBuf};

const STANDARD_STREAM: &str = "-";

/// A file's name, fit to be printed.
pub fn name(path: &OsStr) -> String {
    if path == STANDARD_STREAM {
        return "standard input".to_string();
    }
    plain(path.as_encoded_bytes())
}

/// The file's own name, without the folders before it, fit to be printed.
pub fn own_name(path: &OsStr) -> String {
    match Path::new(path).file_name() {
        Some(own) => name(own),
        None => name(path),
    }
}

/// The first bytes of a file, one more than `most` where it has more; `-` is standard input.
pub fn read(path: &OsStr, most: usize) -> Result<Vec<u8>, String> {
    let mut bytes = Vec::new();
    let enough = most as u64 + 1;
    let read = if path == STANDARD_STREAM {
        io::stdin().lock().take(enough).read_to_end(&mut bytes)
    } else {
        File::open(path).and_then(|file| file.take(enough).read_to_end(&mut bytes))
    };
    match read {
        Ok(_) => Ok(bytes),
        Err(error) => Err(format!("{}: cannot be read: {error}", name(path))),
    }
}

/// The first bytes of an entry of a folder, which may be anything; or why there are none. What is no file is not opened: a
/// pipe would wait for someone to write.
pub fn read_entry(path: &Path, most: usize) -> Result<Vec<u8>, String> {
    let unread = |error: io::Error| format!("it cannot be read: {error}");
    let found = fs::metadata(path).map_err(unread)?;
    if let Some(what) = no_file(found.file_type()) {
        return Err(format!("it is {what}, no file"));
    }
    let mut bytes = Vec::new();
    File::open(path).and_then(|file| file.take(most as u64 + 1).read_to_end(&mut bytes)).map_err(unread)?;
    Ok(bytes)
}

/// The names in a folder, in order.
pub fn names_in(folder: &OsStr) -> Result<Vec<OsString>, String> {
    let names = fs::read_dir(folder).and_then(|entries| entries.map(|entry| Ok(entry?.file_name())).collect());
    let mut names: Vec<OsString> =
        names.map_err(|error: io::Error| format!("{}: cannot be listed: {error}", name(folder)))?;
    names.sort();
    Ok(names)
}

/// Makes a folder where there is none.
pub fn make_folder(folder: &OsStr) -> Result<(), String> {
    match fs::create_dir(folder) {
        Err(error) if !Path::new(folder).is_dir() => Err(format!("{}: cannot be made: {error}", name(folder))),
        _ => Ok(()),
    }
}

/// Writes to standard output and says whether all was taken. A reader that has seen enough is no error.
pub fn print(bytes: &[u8]) -> Result<bool, String> {
    let mut output = io::stdout().lock();
    match output.write_all(bytes).and_then(|()| output.flush()) {
        Ok(()) => Ok(true),
        Err(error) if error.kind() == ErrorKind::BrokenPipe => Ok(false),
        Err(error) => Err(format!("standard output: {error}")),
    }
}

/// Writes a file as a whole or not at all: into a new file beside it, which then takes its name. `-` is standard
/// output. Says whether all was taken.
pub fn write(path: &OsStr, bytes: &[u8]) -> Result<bool, String> {
    if path == STANDARD_STREAM {
        return print(bytes);
    }
    let file = Path::new(path);
    let written = check_replaceable(file).and_then(|()| write_and_rename(file, bytes));
    written.map(|()| true).map_err(|error| format!("{}: cannot be written: {error}", name(path)))
}

/// Whether two paths lead to one file.
pub fn same(one: &OsStr, other: &OsStr) -> bool {
    let streams = one == STANDARD_STREAM || other == STANDARD_STREAM;
    !streams && matches!((fs::canonicalize(one), fs::canonicalize(other)), (Ok(one), Ok(other)) if one == other)
}

/// A rename puts a file in the place of whatever is there, a device too.
fn check_replaceable(path: &Path) -> io::Result<()> {
    let there = match fs::symlink_metadata(path) {
        Ok(found) => found.file_type(),
        Err(error) if error.kind() == ErrorKind::NotFound => return Ok(()),
        Err(error) => return Err(error),
    };
    let Some(what) = no_file(there) else { return Ok(()) };
    Err(io::Error::other(format!("{what} is there, and only a regular file is replaced (- is standard output)")))
}

/// What it is, where it is no regular file.
fn no_file(there: FileType) -> Option<&'static str> {
    match (there.is_file(), there.is_symlink(), there.is_dir()) {
        (true, _, _) => None,
        (_, true, _) => Some("a link"),
        (_, _, true) => Some("a directory"),
        _ => Some("a device, a pipe or a socket"),
    }
}

fn write_and_rename(path: &Path, bytes: &[u8]) -> io::Result<()> {
    path.file_name().ok_or_else(|| io::Error::other("this is no file name"))?;
    let (beside, mut file) = fresh_beside(path)?;
    let renamed = file.write_all(bytes).and_then(|()| file.sync_all()).and_then(|()| fs::rename(&beside, path));
    if renamed.is_err() {
        // The first error is the one to report, whether or not this works.
        let _ = fs::remove_file(&beside);
    }
    renamed
}

/// A new file in the same folder. Nobody foresees its name, and a link of that name would not be followed.
fn fresh_beside(path: &Path) -> io::Result<(PathBuf, File)> {
    loop {
        let beside = path.with_file_name(format!(".bookkit.{:016x}.part", RandomState::new().hash_one(0)));
        match File::create_new(&beside) {
            Err(error) if error.kind() == ErrorKind::AlreadyExists => {}
            created => return created.map(|file| (beside, file)),
        }
    }
}

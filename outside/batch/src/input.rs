//! An input, opened; or what stands in its place.

use crate::kind;
use std::fs::{self, File, OpenOptions};
use std::io::{self, ErrorKind};
use std::os::unix::fs::OpenOptionsExt;
use std::path::Path;

/// Linux's number on x86-64 and on Arm. With it the opening of a pipe does not wait for a writer.
const O_NONBLOCK: i32 = 0o4000;

/// A link to a file is read as the file. Anything else is not even opened, for a device may act on that; and it is looked
/// at once more when it is open, because another may have taken its place.
pub fn open(path: &Path) -> Result<File, String> {
    let found = fs::metadata(path).map_err(|error| absent(path, &error))?;
    if !found.is_file() {
        return Err(format!("it is {}, no file", kind::of(&found)));
    }
    let file = OpenOptions::new().read(true).custom_flags(O_NONBLOCK).open(path).map_err(|error| unread(&error))?;
    let opened = file.metadata().map_err(|error| unread(&error))?;
    if opened.is_file() {
        Ok(file)
    } else {
        Err(format!("it is {}, no file", kind::of(&opened)))
    }
}

fn absent(path: &Path, error: &io::Error) -> String {
    match (error.kind(), fs::symlink_metadata(path)) {
        (ErrorKind::NotFound, Ok(_)) => "it is a link that leads nowhere".to_string(),
        (ErrorKind::NotFound, Err(_)) => "it is not there".to_string(),
        _ => unread(error),
    }
}

fn unread(error: &io::Error) -> String {
    format!("it cannot be read: {error}")
}

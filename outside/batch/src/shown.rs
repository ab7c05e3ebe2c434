//! Names and messages as a terminal may see them.

use std::os::unix::ffi::OsStrExt;
use std::path::Path;

/// No path is longer, so that a longer name is none, and the line stays one that can be read.
const LONGEST_PATH: usize = 4096;

/// On one line, escaped as `bookkit` escapes.
pub fn name(path: &Path) -> String {
    text(path.as_os_str().as_bytes())
}

pub fn text(bytes: &[u8]) -> String {
    let (bytes, rest) = bytes.split_at(bytes.len().min(LONGEST_PATH));
    let mut shown = bookkit::plain(bytes);
    if !rest.is_empty() {
        shown += "...";
    }
    shown
}

#[cfg(test)]
mod tests {
    use super::*;

    #[test]
    fn what_is_longer_than_any_path_is_cut() {
        assert_eq!(text(&[b'a'; 4096]).len(), 4096);
        assert_eq!(text(&[b'a'; 5000]).len(), 4099);
    }
}

//! Readers that have seen enough: `bookkit show BOOK | head`.

use crate::directory;
use std::fs;
use std::os::fd::OwnedFd;
use std::os::unix::net::UnixStream;
use std::path::{Path, PathBuf};
use std::process::{Command, Output, Stdio};

const CURVE: &str = "curve currency=1 rates=nil parallel=0 short=0 long=0\n";

/// A book of single flows whose listing is longer than any pipe holds.
fn book(name: &str, first: &str) -> PathBuf {
    let here = directory(name);
    let flow = "single-flow currency=1 side=asset months=1 days=0 amount=1\n";
    let bytes = bookkit::make((first.to_string() + &flow.repeat(6_000)).as_bytes()).expect("a book");
    fs::write(here.join("a"), bytes).expect("a file");
    here.join("a")
}

/// A stream whose other end is gone.
fn nobody() -> Stdio {
    let (writer, _) = UnixStream::pair().expect("two ends");
    OwnedFd::from(writer).into()
}

/// Shows a file to a reader that has closed standard output, and perhaps standard error, before a byte came.
fn to_nobody(file: &Path, closed_error: bool) -> Output {
    let mut command = Command::new(env!("CARGO_BIN_EXE_bookkit"));
    let error = if closed_error { nobody() } else { Stdio::piped() };
    let running = command.arg("show").arg(file).stdout(nobody()).stderr(error).spawn().expect("bookkit runs");
    running.wait_with_output().expect("an end")
}

#[test]
fn a_broken_pipe_ends_it_quietly() {
    let (good, refused) = (book("good_to_nobody", CURVE), book("refused_to_nobody", ""));
    for (file, status) in [(&good, 0), (&refused, 1)] {
        let output = to_nobody(file, false);
        assert_eq!((output.status.code(), output.stderr.len()), (Some(status), 0), "{output:?}");
        assert_eq!(to_nobody(file, true).status.code(), Some(status));
    }
    let lacking = PathBuf::from("/no/such/book");
    assert_eq!(to_nobody(&lacking, true).status.code(), Some(2), "with its line lost, the status still says so");
}

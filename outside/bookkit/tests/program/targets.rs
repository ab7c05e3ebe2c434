//! Where `make` writes: a file is replaced as a whole, and nothing else is.

use crate::{assert_one_line, bookkit, directory, files_in};
use std::fs;
use std::io::Write;
use std::os::unix::fs::{symlink, FileTypeExt};
use std::os::unix::net::UnixListener;
use std::path::Path;
use std::process::{Command, Output, Stdio};

fn make(here: &Path, output: &str) -> Output {
    bookkit(&[Path::new("make"), &here.join("a.txt"), &here.join(output)])
}

/// Stands for /dev/null too, which a test had better not try as root.
#[test]
fn what_is_no_regular_file_is_left_alone() {
    let here = directory("no_regular_file");
    fs::write(here.join("a.txt"), "raw 01\n").expect("a text");
    fs::write(here.join("other"), "mine").expect("a file");
    symlink("other", here.join("link")).expect("a link");
    symlink("nowhere", here.join("dangling")).expect("a link");
    fs::create_dir(here.join("folder")).expect("a folder");
    let _listening = UnixListener::bind(here.join("socket")).expect("a socket");
    let before = files_in(&here);
    for (name, what) in [("link", "a link"), ("dangling", "a link"), ("folder", "a directory"), ("socket", "a device")]
    {
        assert_one_line(&make(&here, name), 2, &[name, ": cannot be written: ", what, "only a regular file"]);
    }
    assert_eq!(files_in(&here), before);
    assert_eq!(fs::read(here.join("other")).expect("a file"), b"mine");
    assert!(fs::symlink_metadata(here.join("dangling")).expect("a link").file_type().is_symlink());
    assert!(fs::symlink_metadata(here.join("socket")).expect("a socket").file_type().is_socket());
}

#[test]
fn a_regular_file_is_replaced_and_never_written_into() {
    let here = directory("replaced");
    fs::write(here.join("a.txt"), "raw 01 02\n").expect("a text");
    fs::write(here.join("a.book"), "an old book").expect("a book");
    fs::hard_link(here.join("a.book"), here.join("kept")).expect("a second name");
    assert!(make(&here, "a.book").status.success());
    assert_eq!(fs::read(here.join("a.book")).expect("a book"), [1, 2]);
    assert_eq!(fs::read(here.join("kept")).expect("a book"), b"an old book");
    assert_eq!(files_in(&here), ["a.book", "a.txt", "kept"]);
    let longest_name = "x".repeat(255);
    assert!(make(&here, &longest_name).status.success());
}

/// Whoever can foresee the name of the file beside the target can stand in its way.
#[test]
fn a_name_planted_beside_the_target_does_not_matter() {
    let here = directory("planted");
    let mut command = Command::new(env!("CARGO_BIN_EXE_bookkit"));
    command.args([Path::new("make"), Path::new("-"), &here.join("a.book")]).stdin(Stdio::piped());
    let mut running = command.stderr(Stdio::piped()).spawn().expect("bookkit runs");
    let planted = here.join(format!(".a.book.{}.part", running.id()));
    symlink("elsewhere", &planted).expect("a link");
    running.stdin.take().expect("a pipe").write_all(b"raw 07\n").expect("read");
    let output = running.wait_with_output().expect("an end");
    assert!(output.status.success(), "{}", String::from_utf8_lossy(&output.stderr));
    assert_eq!(fs::read(here.join("a.book")).expect("a book"), [7]);
    assert!(fs::symlink_metadata(planted).is_ok() && !here.join("elsewhere").exists());
}

#[test]
fn a_dash_is_standard_output() {
    let here = directory("dash");
    fs::write(here.join("a.txt"), "raw 01 02\n").expect("a text");
    let mut command = Command::new(env!("CARGO_BIN_EXE_bookkit"));
    let output = command.args(["make", "a.txt", "-"]).current_dir(&here).output().expect("bookkit runs");
    assert_eq!((output.status.success(), output.stdout), (true, vec![1, 2]));
    assert_eq!(files_in(&here), ["a.txt"]);
}

/// As a full disk would: the limit on the size of files ends the write half way.
#[test]
fn a_write_that_fails_leaves_the_old_file_and_nothing_else() {
    let here = directory("full");
    fs::write(here.join("a.txt"), "raw 01 02 03 04\n".repeat(1_000)).expect("a text");
    fs::write(here.join("a.book"), "old").expect("an old book");
    let script = "trap '' XFSZ; ulimit -f 1; exec \"$0\" make a.txt a.book";
    let mut shell = Command::new("sh");
    let output =
        shell.args(["-c", script, env!("CARGO_BIN_EXE_bookkit")]).current_dir(&here).output().expect("sh runs");
    assert_one_line(&output, 2, &["a.book: cannot be written: "]);
    assert_eq!(fs::read(here.join("a.book")).expect("an old book"), b"old");
    assert_eq!(files_in(&here), ["a.book", "a.txt"]);
}

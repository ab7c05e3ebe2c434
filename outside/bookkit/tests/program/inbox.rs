//! `bookkit inbox`: status, streams and files; folders of all sorts.

use crate::stand_in::{bookkit_on, bookkit_with, command_with, example, knowing};
use crate::{assert_one_line, directory, files_in};
use std::ffi::OsStr;
use std::fs;
use std::os::unix::ffi::OsStrExt;
use std::os::unix::fs::symlink;
use std::os::unix::net::UnixListener;
use std::path::{Path, PathBuf};
use std::process::{Command, Output};

const COUNT: &str = "3 returns: 1 over, 1 turned down, 0 close, 1 within\n";

fn bytes(name: &str) -> Vec<u8> {
    fs::read(example(name)).expect("an example")
}

/// A program, and a folder with a return that is over, one that is turned down, one within, and what is none.
fn inbox(name: &str) -> (PathBuf, PathBuf) {
    let here = directory(name);
    let examples = ["small-bank.input", "mistyped.input", "abroad.input"].map(|name| (name, bytes(name)));
    examples.iter().for_each(|(name, bytes)| fs::write(here.join(name), bytes).expect("an input"));
    fs::write(here.join("small-bank.report"), "V OVER\n").expect("a report");
    fs::write(here.join("input"), "no return").expect("a file");
    let inputs: Vec<&[u8]> = examples.iter().map(|(_, bytes)| &bytes[..]).collect();
    (knowing(name, &inputs), here)
}

fn run(program: &Path, words: &[&str], folder: &Path) -> Output {
    bookkit_on(program, &[&["inbox"], words].concat(), folder)
}

fn into(program: &Path, form: &str, folder: &Path, output: &Path) -> Output {
    bookkit_with(program, &[Path::new("inbox"), Path::new(form), folder, output])
}

#[test]
fn the_table_goes_to_standard_output() {
    let (program, here) = inbox("inbox_table");
    let output = run(&program, &[], &here);
    assert_eq!((output.status.code(), output.stderr.len()), (Some(0), 0), "{output:?}");
    let text = String::from_utf8(output.stdout).expect("UTF-8");
    let firsts: Vec<&str> = text.lines().skip(2).filter_map(|line| line.split(' ').next()).collect();
    assert_eq!(firsts[..3], ["small-bank.input", "mistyped.input", "abroad.input"]);
    assert!(text.ends_with(&format!("\n\n{COUNT}")), "{text}");
}

#[test]
fn the_list_goes_to_standard_output_or_into_a_file_and_the_count_beside_it() {
    let (program, here) = inbox("inbox_list");
    let printed = run(&program, &["--csv"], &here);
    assert_eq!((printed.status.code(), &printed.stderr[..]), (Some(0), COUNT.as_bytes()));
    assert!(printed.stdout.starts_with(b"name,verdict,") && printed.stdout.ends_with(b"\r\n"));
    let file = directory("inbox_list_file").join("list.csv");
    let written = into(&program, "--csv", &here, &file);
    assert_eq!((written.status.code(), written.stdout.len(), &written.stderr[..]), (Some(0), 0, COUNT.as_bytes()));
    assert_eq!(fs::read(&file).expect("a list"), printed.stdout);
}

/// Also by a path that looks like another.
#[test]
fn the_list_takes_the_place_of_no_input() {
    let (program, here) = inbox("inbox_same");
    let before = files_in(&here);
    for output in ["abroad.input", "./abroad.input", "../inbox_same/abroad.input"] {
        let output = into(&program, "--csv", &here, &here.join(output));
        assert_one_line(&output, 2, &["abroad.input: the list would take the place of this input"]);
    }
    assert_eq!(fs::read(here.join("abroad.input")).expect("an input"), bytes("abroad.input"));
    assert_eq!(files_in(&here), before);
}

#[test]
fn the_pages_go_into_a_folder() {
    let (program, here) = inbox("inbox_pages");
    let folder = directory("inbox_pages_made").join("pages");
    for _ in 0..2 {
        let output = into(&program, "--html", &here, &folder);
        assert_eq!((output.status.code(), output.stdout.len(), &output.stderr[..]), (Some(0), 0, COUNT.as_bytes()));
        assert_eq!(
            files_in(&folder),
            ["abroad.input.html", "index.html", "mistyped.input.html", "small-bank.input.html"]
        );
    }
    for name in ["abroad.input", "mistyped.input", "small-bank.input"] {
        let page = bookkit_with(&program, &[Path::new("report"), Path::new("--html"), &here.join(name)]).stdout;
        assert_eq!(fs::read(folder.join(format!("{name}.html"))).expect("a page"), page, "{name}");
    }
    let index = fs::read_to_string(folder.join("index.html")).expect("an index");
    assert!(index.contains("<a href=\"abroad.input.html\">") && index.contains(COUNT.trim_end()), "{index}");
}

/// A pipe is not opened: nobody may ever write to it.
#[test]
fn what_cannot_be_read_has_its_row_and_status_1() {
    let (program, here) = inbox("inbox_unread");
    fs::create_dir(here.join("folder.input")).expect("a folder");
    symlink("nowhere", here.join("link.input")).expect("a link");
    let _listening = UnixListener::bind(here.join("socket.input")).expect("a socket");
    assert!(Command::new("mkfifo").arg(here.join("pipe.input")).status().expect("mkfifo runs").success());
    let output = run(&program, &[], &here);
    assert_eq!((output.status.code(), output.stderr.len()), (Some(1), 0));
    let text = String::from_utf8(output.stdout).expect("UTF-8");
    for row in [
        "folder.input      not read     it is a directory, no file",
        "link.input        not read     it cannot be read: ",
    ] {
        assert!(text.contains(&format!("\n{row}")), "{text}");
    }
    assert_eq!(text.matches("it is a device, a pipe or a socket, no file").count(), 2, "{text}");
    assert!(text.ends_with("\n7 returns: 1 over, 1 turned down, 4 not read, 0 close, 1 within\n"), "{text}");
    let pages = directory("inbox_unread_pages");
    assert_eq!(into(&program, "--html", &here, &pages).status.code(), Some(1));
    assert_eq!(files_in(&pages).len(), 4, "what was not read has no page");
    assert_eq!(run(&program, &["--csv"], &here).status.code(), Some(1));
}

/// A link to a return is one.
#[test]
fn links_are_followed() {
    let (program, here) = inbox("inbox_links");
    symlink("small-bank.input", here.join("link.input")).expect("a link");
    let text = String::from_utf8(run(&program, &[], &here).stdout).expect("UTF-8");
    assert!(text.contains("\nlink.input        over ") && text.contains("\n4 returns: 2 over,"), "{text}");
}

#[test]
fn a_folder_that_is_none() {
    let (program, here) = inbox("inbox_no_folder");
    assert_one_line(&run(&program, &[], Path::new("/no/such/folder")), 2, &["/no/such/folder: cannot be listed"]);
    assert_one_line(&run(&program, &["--csv"], &here.join("abroad.input")), 2, &["abroad.input: cannot be listed"]);
}

/// Nothing has to be started for it.
#[test]
fn an_empty_folder_is_an_empty_inbox() {
    let here = directory("inbox_empty");
    let output = run(Path::new("/no/such/irdetail"), &[], &here);
    assert_eq!(output.status.code(), Some(0));
    assert!(output.stdout.ends_with(b"0 returns: 0 over, 0 turned down, 0 close, 0 within\n"));
}

#[test]
fn a_program_that_cannot_be_used_ends_it_all() {
    let (program, here) = inbox("inbox_no_program");
    fs::write(here.join("unknown.input"), [0; 8]).expect("an input");
    let pages = directory("inbox_no_program_pages");
    for (program, complaint) in [
        (Path::new("/no/such/irdetail"), "cannot be started"),
        (&program, "for unknown.input is not what irdetail prints"),
    ] {
        for output in
            [run(program, &[], &here), run(program, &["--csv"], &here), into(program, "--html", &here, &pages)]
        {
            assert_one_line(&output, 2, &[complaint]);
            assert!(output.stdout.is_empty());
        }
    }
    assert_eq!(files_in(&pages), [""; 0]);
}

#[test]
fn pages_that_cannot_be_written() {
    let (program, here) = inbox("inbox_unwritable");
    let outer = directory("inbox_unwritable_pages");
    fs::write(outer.join("file"), "mine").expect("a file");
    assert_one_line(&into(&program, "--html", &here, &outer.join("file")), 2, &["file: cannot be made"]);
    assert_one_line(
        &into(&program, "--html", &here, &outer.join("lacking/pages")),
        2,
        &["lacking/pages: cannot be made"],
    );
    fs::create_dir(outer.join("pages")).expect("a folder");
    symlink("../file", outer.join("pages/small-bank.input.html")).expect("a link");
    assert_one_line(
        &into(&program, "--html", &here, &outer.join("pages")),
        2,
        &["small-bank.input.html: cannot be written: a link is there"],
    );
    assert_eq!(fs::read(outer.join("file")).expect("a file"), b"mine");
    assert!(!outer.join("pages/index.html").exists(), "an index leads to pages that are there");
    assert_eq!(files_in(&outer), ["file", "pages"]);
}

#[test]
fn names_may_be_anything() {
    let here = directory("inbox_names");
    let input = bytes("small-bank.input");
    let program = knowing("inbox_names", &[&input]);
    let names: [&[u8]; 4] = [b"caf\xe9.input", b"<b>&\"'.input", b"a\n\x1b[2J.input", b"..%2f#?.input"];
    names.iter().for_each(|name| fs::write(here.join(OsStr::from_bytes(name)), &input).expect("an input"));
    let pages = directory("inbox_names_pages");
    assert_eq!(into(&program, "--html", &here, &pages).status.code(), Some(0));
    let index = fs::read_to_string(pages.join("index.html")).expect("UTF-8");
    let links: Vec<&str> = index.split("href=\"").skip(1).filter_map(|rest| rest.split('"').next()).collect();
    assert_eq!(
        links,
        ["..%252f%23%3F.input.html", "%3Cb%3E%26%22%27.input.html", "a%0A%1B%5B2J.input.html", "caf%E9.input.html"]
    );
    names.iter().for_each(|name| assert!(pages.join(OsStr::from_bytes(&[name, &b".html"[..]].concat())).is_file()));
    assert!(index.contains(">&lt;b&gt;&amp;&quot;&#39;.input<") && !index.contains('\u{1b}'), "{index}");
    let table = run(&program, &[], &here).stdout;
    assert!(!table.contains(&0x1b) && table.ends_with(b"4 returns: 4 over, 0 turned down, 0 close, 0 within\n"));
}

#[test]
fn a_reader_that_has_seen_enough() {
    let (program, here) = inbox("inbox_pipe");
    let script = "\"$0\" inbox \"$1\" | true; echo ${PIPESTATUS[0]}";
    let mut shell = Command::new("bash");
    shell.args(["-c", script]).arg(env!("CARGO_BIN_EXE_bookkit")).arg(&here).env("IRDETAIL", &program);
    let output = shell.output().expect("bash runs");
    assert_eq!((&output.stdout[..], output.stderr.len()), (&b"0\n"[..], 0), "{output:?}");
    let mut words = command_with(&program, &["inbox"]);
    assert_eq!(words.output().expect("bookkit runs").status.code(), Some(2));
}

//! `bookkit report`: status, streams and files, and programs that are not `irdetail`.

use crate::stand_in::{bookkit_on, bookkit_with, command_with, example, knowing, script};
use crate::{assert_one_line, bookkit, directory, files_in};
use bookkit::{report, Assessed, Form, Source};
use reference::irdetail;
use std::ffi::OsStr;
use std::fs;
use std::io::Write;
use std::os::unix::ffi::OsStrExt;
use std::os::unix::fs::symlink;
use std::path::Path;
use std::process::{Command, Stdio};

fn due(name: &str, input: &[u8], form: Form) -> Vec<u8> {
    let source = Source { name: name.to_string(), bytes: input.to_vec(), plainly: None };
    report(&Assessed::of(source, &irdetail(input)).expect("good lines"), form).into_bytes()
}

const FORMS: [(&[&str], Form); 3] = [(&[], Form::Terminal), (&["--html"], Form::Page), (&["--svg"], Form::Picture)];

#[test]
fn an_accepted_book_goes_to_standard_output() {
    let path = example("small-bank.input");
    let input = fs::read(&path).expect("an input");
    let program = knowing("report_accepted", &[&input]);
    for (words, form) in FORMS {
        let output = bookkit_on(&program, &[&["report"], words].concat(), &path);
        assert_eq!((output.status.code(), output.stderr.len()), (Some(0), 0), "{output:?}");
        assert_eq!(output.stdout, due("small-bank.input", &input, form));
    }
}

#[test]
fn a_book_that_is_turned_down_has_its_report_and_status_1() {
    let path = example("mistyped.input");
    let input = fs::read(&path).expect("an input");
    let program = knowing("report_refused", &[&input]);
    for (words, form) in FORMS {
        let output = bookkit_on(&program, &[&["report"], words].concat(), &path);
        assert_one_line(&output, 1, &["mistyped.input: irdetail printed R 11 246: interest without principal"]);
        assert_eq!(output.stdout, due("mistyped.input", &input, form));
    }
}

#[test]
fn pages_and_pictures_go_into_a_file_or_to_a_dash() {
    let here = directory("report_files");
    let input = fs::read(example("small-bank.input")).expect("an input");
    fs::write(here.join("a.input"), &input).expect("an input");
    fs::write(here.join("a.html"), "old").expect("an old page");
    let program = knowing("report_files", &[&input]);
    let run = |words: &[&str]| command_with(&program, words).current_dir(&here).output().expect("bookkit runs");
    for (words, form) in [
        (["report", "--html", "a.input", "a.html"], Form::Page),
        (["report", "--svg", "a.input", "a.svg"], Form::Picture),
    ] {
        let output = run(&words);
        assert_eq!((output.status.code(), output.stdout.len(), output.stderr.len()), (Some(0), 0, 0), "{output:?}");
        assert_eq!(fs::read(here.join(words[3])).expect("a file"), due("a.input", &input, form));
        let dash = run(&[words[0], words[1], words[2], "-"]);
        assert_eq!(dash.stdout, due("a.input", &input, form));
    }
    assert_eq!(files_in(&here), ["a.html", "a.input", "a.svg"]);
}

#[test]
fn an_input_may_come_by_standard_input() {
    let input = fs::read(example("small-bank.input")).expect("an input");
    let program = knowing("report_dash", &[&input]);
    let mut command = command_with(&program, &["report", "--html", "-"]);
    let mut running = command.stdin(Stdio::piped()).stdout(Stdio::piped()).spawn().expect("bookkit runs");
    running.stdin.take().expect("a pipe").write_all(&input).expect("read");
    let output = running.wait_with_output().expect("an end");
    assert_eq!(output.stdout, due("standard input", &input, Form::Page));
}

#[test]
fn words_that_make_no_sense() {
    let report: [&[&str]; 7] =
        [&[], &["--html"], &["--svg"], &["--csv", "a"], &["a", "b"], &["--html", "a", "b", "c"], &["--pdf", "a"]];
    for words in report {
        assert_one_line(&bookkit(&[&["report"], words].concat()), 2, &["report [--html|--svg] INPUT", "is wanted"]);
    }
    let inbox: [&[&str]; 7] =
        [&[], &["--html"], &["--csv"], &["--html", "a"], &["--svg", "a"], &["a", "b"], &["--csv", "a", "b", "c"]];
    for words in inbox {
        assert_one_line(&bookkit(&[&["inbox"], words].concat()), 2, &["inbox [--csv|--html] DIRECTORY", "is wanted"]);
    }
}

/// None of them leaves a page, nor touches the one that is there.
#[test]
fn a_program_that_is_not_irdetail() {
    let here = directory("report_other_program");
    let (input, page) = (here.join("a.input"), here.join("a.html"));
    fs::copy(example("small-bank.input"), &input).expect("an input");
    fs::write(&page, "old").expect("an old page");
    let others = [
        ("cat >/dev/null; echo hello", "line 1 should have S"),
        ("cat >/dev/null", "its last line has no end"),
        ("cat >/dev/null; printf 'V WITHIN'", "its last line has no end"),
        ("cat >/dev/null; echo 'R 2 523'", "R 2 523 does not fit this input"),
        ("cat >/dev/null; printf '\\377\\n'", "it is no text"),
        ("cat >/dev/null; yes", "it is far too long"),
        ("yes", "it is far too long"),
        ("cat >/dev/null; echo first >&2; echo second >&2; exit 3", "failed (exit status: 3): first; second"),
        ("cat >/dev/null; printf '\\033[2J' >&2; exit 1", "\\u{1b}[2J"),
        ("kill -9 $$", "signal: 9"),
        ("cat", "is not what irdetail prints"),
    ];
    for (text, complaint) in others {
        let program = script(&here.join("program"), text);
        for words in [&[Path::new("report"), &input][..], &[Path::new("report"), Path::new("--html"), &input, &page]] {
            let output = bookkit_with(&program, words);
            assert_one_line(&output, 2, &["program", complaint]);
            assert!(output.stdout.is_empty(), "{text}");
        }
        assert_eq!(fs::read(&page).expect("an old page"), b"old", "{text}");
    }
    assert_eq!(files_in(&here), ["a.html", "a.input", "program"]);
}

#[test]
fn a_program_that_cannot_be_started() {
    let here = directory("report_no_program");
    fs::write(here.join("text"), "no program").expect("a file");
    for program in [Path::new("/no/such/irdetail"), &here, &here.join("text")] {
        let output = bookkit_with(program, &[OsStr::new("report"), example("small-bank.input").as_os_str()]);
        assert_one_line(&output, 2, &["cannot be started", "IRDETAIL in the environment can name another irdetail"]);
        assert!(output.stdout.is_empty());
    }
}

/// One that answers before it has read its input is heard, whatever the input's length.
#[test]
fn a_program_that_reads_nothing() {
    let here = directory("report_unread");
    let input = [&[0; 7][..], &[200], &[1; 65_528]].concat();
    fs::write(here.join("a.input"), &input).expect("an input");
    let due = irdetail(&input);
    let program = script(&here.join("program"), &format!("printf '{}\\n'", due.trim_end()));
    let output = bookkit_with(&program, &[Path::new("report"), &here.join("a.input")]);
    assert_one_line(&output, 1, &[&format!("irdetail printed {}", due.trim_end())]);
}

/// The repository in which `bookkit` was built comes before the path, and a name in the environment before both.
#[test]
fn where_irdetail_is_looked_for() {
    let here = directory("report_found");
    let input = fs::read(example("small-bank.input")).expect("an input");
    let knowing = knowing("report_found", &[&input]);
    let built = here.join("repository/outside/target/release/bookkit");
    let path = here.join("path");
    [built.parent().expect("a folder"), &here.join("repository/bin"), &path]
        .iter()
        .for_each(|folder| fs::create_dir_all(folder).expect("a folder"));
    let copied = Command::new("cp").arg(env!("CARGO_BIN_EXE_bookkit")).arg(&built).status().expect("cp runs");
    assert!(copied.success());
    let run = |environment: &str| {
        let mut command = Command::new(&built);
        command.arg("report").arg(example("small-bank.input")).env("IRDETAIL", environment);
        let inherited = std::env::var("PATH").unwrap_or_default();
        command.env("PATH", format!("{}:{inherited}", path.display())).output().expect("bookkit runs")
    };
    assert_one_line(&run(""), 2, &["irdetail cannot be started"]);
    script(&path.join("irdetail"), &format!("exec '{}'", knowing.display()));
    assert!(run("").status.success());
    script(&here.join("repository/bin/irdetail"), "cat >/dev/null; echo repository >&2; exit 1");
    assert_one_line(&run(""), 2, &["repository/bin/irdetail failed", ": repository"]);
    assert!(run(knowing.to_str().expect("UTF-8")).status.success());
}

#[test]
fn an_input_that_cannot_be_read() {
    let program = knowing("report_no_input", &[]);
    let here = directory("report_no_input");
    assert_one_line(&bookkit_with(&program, &["report", "/no/such.input"]), 2, &["/no/such.input: cannot be read"]);
    let output = bookkit_with(&program, &[Path::new("report"), Path::new("--html"), &here, &here.join("a.html")]);
    assert_one_line(&output, 2, &["report_no_input: cannot be read"]);
    assert_eq!(files_in(&here), [""; 0]);
}

#[test]
fn a_name_may_be_anything() {
    let here = directory("report_names");
    let input = fs::read(example("small-bank.input")).expect("an input");
    let program = knowing("report_names", &[&input]);
    let names: [(&[u8], &str); 3] = [
        (b"<script>&\"'.input", "&lt;script&gt;&amp;&quot;&#39;.input"),
        (b"caf\xe9.input", "caf\\xe9.input"),
        (b"a\n\x1b[2J.input", "a\\n\\u{1b}[2J.input"),
    ];
    for (name, shown) in names {
        let path = here.join(OsStr::from_bytes(name));
        fs::write(&path, &input).expect("an input");
        for form in ["--html", "--svg"] {
            let output = bookkit_with(&program, &[Path::new("report"), Path::new(form), &path]);
            let page = String::from_utf8(output.stdout).expect("UTF-8");
            assert!(page.contains(&format!("{shown}: over the limit")) && !page.contains("<script"), "{shown}");
            assert!(!page.contains('\u{1b}') && !page.contains("a\n\\u"), "{shown}");
        }
    }
}

#[test]
fn an_output_that_would_take_the_place_of_its_input() {
    let here = directory("report_same");
    let input = fs::read(example("small-bank.input")).expect("an input");
    let program = knowing("report_same", &[&input]);
    fs::write(here.join("a.input"), &input).expect("an input");
    symlink("a.input", here.join("link")).expect("a link");
    for (from, to) in [("a.input", "a.input"), ("a.input", "./a.input"), ("link", "a.input"), ("a.input", "link")] {
        let output =
            command_with(&program, &["report", "--html", from, to]).current_dir(&here).output().expect("bookkit runs");
        assert_one_line(&output, 2, &["the report would take the place of its input"]);
    }
    assert_eq!(fs::read(here.join("a.input")).expect("an input"), input);
    assert_eq!(files_in(&here), ["a.input", "link"]);
}

#[test]
fn a_place_where_no_file_can_be_written() {
    let here = directory("report_unwritable");
    let input = fs::read(example("mistyped.input")).expect("an input");
    let program = knowing("report_unwritable", &[&input]);
    fs::create_dir(here.join("folder")).expect("a folder");
    symlink("nowhere", here.join("link")).expect("a link");
    for place in ["folder", "link", "lacking/a.html"] {
        let output = bookkit_with(
            &program,
            &[Path::new("report"), Path::new("--html"), &example("mistyped.input"), &here.join(place)],
        );
        assert_one_line(&output, 2, &[place, "cannot be written"]);
    }
    assert_eq!(files_in(&here), ["folder", "link"]);
}

//! The returns of a folder: worst first, as a table, as a list and as a page.

use crate::figures::{grouped, items};
use crate::tables::{rows, seen};
use crate::{example, input, named, run};
use bookkit::{count, index, list, page_name, sha256, sort, table, Entry, Group};
use reference::irdetail;

fn entry(name: &str, input: &[u8]) -> Entry {
    Entry { name: name.as_bytes().to_vec(), read: Ok(named(name, input)) }
}

fn unread(name: &str, why: &str) -> Entry {
    Entry { name: name.as_bytes().to_vec(), read: Err(why.to_string()) }
}

/// The worked example, whose measure is 632,121, with this capital.
fn worked(capital: u64) -> Vec<u8> {
    let text = String::from_utf8(example("worked.txt")).expect("text");
    input(&text.replace("capital 4214126", &format!("capital {capital}")))
}

/// One of every sort and some more, neither by name nor by verdict.
fn inbox() -> Vec<Entry> {
    vec![
        entry("within-little.input", &worked(9_000_000)),
        entry("close.input", &worked(4_214_127)),
        entry("b-over.input", &worked(3_000_000)),
        unread("pipe.input", "it is a device, a pipe or a socket, no file"),
        entry("within-much.input", &worked(4_300_000)),
        entry("a-over.input", &worked(3_000_000)),
        entry("mistyped.input", &example("mistyped.input")),
        entry("far-over.input", &worked(1)),
        entry("damaged.input", &example("damaged.input")),
        entry("empty.input", &run("empty-book")),
    ]
}

const ORDER: [&str; 10] = [
    "far-over.input",
    "a-over.input",
    "b-over.input",
    "damaged.input",
    "mistyped.input",
    "pipe.input",
    "close.input",
    "within-much.input",
    "within-little.input",
    "empty.input",
];

fn sorted() -> Vec<Entry> {
    let mut entries = inbox();
    sort(&mut entries);
    entries
}

#[test]
fn the_worst_come_first() {
    let names: Vec<String> = sorted().iter().map(Entry::shown).collect();
    assert_eq!(names, ORDER);
    let mut reversed: Vec<Entry> = inbox().into_iter().rev().collect();
    sort(&mut reversed);
    assert_eq!(reversed.iter().map(Entry::shown).collect::<Vec<_>>(), ORDER);
    let groups: Vec<Group> = sorted().iter().map(Entry::group).collect();
    assert_eq!(groups[2..7], [Group::Over, Group::TurnedDown, Group::TurnedDown, Group::NotRead, Group::Close]);
}

#[test]
fn the_count_is_of_all() {
    assert_eq!(count(&inbox()), "10 returns: 3 over, 2 turned down, 1 not read, 1 close, 3 within\n");
    assert_eq!(count(&inbox()[..1]), "1 return: 0 over, 0 turned down, 0 close, 1 within\n");
    assert_eq!(count(&[]), "0 returns: 0 over, 0 turned down, 0 close, 0 within\n");
}

#[test]
fn the_table_has_a_row_for_each_and_ends_with_the_count() {
    let text = table(&sorted());
    let lines: Vec<&str> = text.lines().collect();
    assert_eq!(
        lines[0].split_whitespace().collect::<Vec<_>>().join(" "),
        "Return Verdict Measure Share % Headroom Tolerance Hints"
    );
    for (name, line) in ORDER.iter().zip(&lines[2..]) {
        assert!(line.starts_with(&format!("{name} ")), "{line}");
    }
    let cells = |row: usize| lines[row].split_whitespace().collect::<Vec<_>>().join(" ");
    assert_eq!(cells(3), "a-over.input over 632,121 21.08 -182,121.00 2 0");
    assert_eq!(cells(6), "mistyped.input turned down refusal 11 at place 246, interest without principal");
    assert_eq!(cells(7), "pipe.input not read it is a device, a pipe or a socket, no file");
    assert_eq!(cells(11), "empty.input within 0 0.00 0.15 0 1");
    assert!(text.ends_with(&format!("\n\n{}", count(&inbox()))));
    let ends: Vec<usize> = [0, 2, 3, 8, 11].map(|row| lines[row].len()).to_vec();
    assert!(ends.iter().all(|end| *end == ends[0]), "figures stand under their heads: {ends:?}");
}

/// Two names may differ at their ends alone.
#[test]
fn a_long_name_is_not_cut() {
    let long = ["x".repeat(60) + "a.input", "x".repeat(60) + "b.input"];
    let entries: Vec<Entry> = long.iter().map(|name| entry(name, &worked(1))).collect();
    let text = table(&entries);
    long.iter().for_each(|name| assert!(text.lines().any(|line| line == name), "{text}"));
    assert!(text.lines().filter(|line| line.trim_start().starts_with("over ")).count() == 2, "{text}");
}

/// Records of cells, read as RFC 4180 says: CR LF ends a record, a cell in quotes may hold anything, two quotes are one.
fn read(text: &str) -> Vec<Vec<String>> {
    let (mut records, mut record, mut cell, mut within) = (Vec::new(), Vec::new(), String::new(), false);
    let mut letters = text.chars().peekable();
    while let Some(letter) = letters.next() {
        match (letter, within) {
            ('"', true) if letters.peek() == Some(&'"') => cell.extend(letters.next()),
            ('"', true) => within = false,
            ('"', false) => {
                assert!(cell.is_empty(), "a quote within a cell that does not begin with one");
                within = true;
            }
            (',', false) => record.push(std::mem::take(&mut cell)),
            ('\r', false) => {
                assert_eq!(letters.next(), Some('\n'));
                record.push(std::mem::take(&mut cell));
                records.push(std::mem::take(&mut record));
            }
            ('\n', false) => panic!("a line that does not end with CR LF"),
            _ => cell.push(letter),
        }
    }
    assert!(record.is_empty() && cell.is_empty() && !within, "the last record has no end");
    records
}

#[test]
fn the_list_is_one_that_other_programs_read() {
    let records = read(&list(&sorted()));
    assert!(records.iter().all(|record| record.len() == 15));
    let heads = &records[0];
    assert_eq!(heads[..5], ["name", "verdict", "refusal", "place", "why"]);
    assert_eq!(heads[14], "SHA-256");
    assert_eq!(records.iter().skip(1).map(|record| record[0].as_str()).collect::<Vec<_>>(), ORDER);
    let of = |name: &str| &records[1 + ORDER.iter().position(|other| *other == name).expect("a name")];
    assert_eq!(
        of("mistyped.input")[1..5],
        ["turned down", "11", "246", "refusal 11 at place 246, interest without principal"]
    );
    assert_eq!(of("mistyped.input")[5..14], [""; 9]);
    assert_eq!(of("mistyped.input")[14], sha256(&example("mistyped.input")));
    assert_eq!(
        of("pipe.input")[1..],
        ["not read", "", "", "it is a device, a pipe or a socket, no file", "", "", "", "", "", "", "", "", "", ""]
    );
    assert_eq!(of("empty.input")[1..14], ["within", "", "", "", "0", "0", "0", "0.15", "0.15", "0.00", "1", "0", "1"]);
}

/// As `irdetail` printed them: no separators, points where it has them.
#[test]
fn the_figures_of_the_list_are_those_of_irdetail() {
    for name in ["small-bank", "abroad", "listed-curves", "worked"] {
        let input = example(&format!("{name}.input"));
        let printed = irdetail(&input);
        let of = |letter: &str| items(&printed, letter).remove(0);
        let [measure, worst, tolerance] = of("M").try_into().expect("three numbers");
        let due = [vec![measure, tolerance, worst], of("L"), of("H"), of("P"), of("T"), of("N")].concat();
        assert_eq!(read(&list(&[entry("a.input", &input)]))[1][5..13], due, "{name}");
    }
}

/// Commas and quotes are quoted; a line end is escaped already; a formula is none.
#[test]
fn any_name_is_one_cell() {
    let names = [
        "a,b.input",
        "\"a\".input",
        "a\r\nb.input",
        "=HYPERLINK(1).input",
        "+1.input",
        "-1.input",
        "@x.input",
        "'.input",
    ];
    let entries: Vec<Entry> = names.iter().map(|name| entry(name, &worked(1))).collect();
    let shown: Vec<String> =
        read(&list(&entries)).into_iter().skip(1).map(|mut record| record.swap_remove(0)).collect();
    let due = [
        "a,b.input",
        "\"a\".input",
        "a\\r\\nb.input",
        "'=HYPERLINK(1).input",
        "'+1.input",
        "'-1.input",
        "'@x.input",
        "'.input",
    ];
    assert_eq!(shown, due);
}

#[test]
fn the_page_has_the_same_rows_and_a_link_to_each_page() {
    let entries = sorted();
    let page = index(&entries);
    let links: Vec<&str> = page.split("href=\"").skip(1).map(|rest| rest.split('"').next().expect("an end")).collect();
    let read: Vec<&str> = ORDER.into_iter().filter(|name| *name != "pipe.input").collect();
    assert_eq!(links, read.iter().map(|name| format!("{name}.html")).collect::<Vec<_>>());
    assert!(page.contains(count(&entries).trim_end()));
    let rows = rows(&without_pictures(&page));
    let small = rows.iter().find(|row| row[0].contains("a-over")).expect("a row");
    assert_eq!(small[1..3], ["over", "21.08"]);
    assert_eq!(small[4..], ["632,121", "-182,121.00", "2", "0"].map(str::to_string));
    let mistyped = rows.iter().find(|row| row[0].contains("mistyped")).expect("a row");
    assert_eq!(mistyped[1..], ["turned down", "refusal 11 at place 246, interest without principal"]);
    assert!(rows.iter().any(|row| row[0] == "pipe.input" && row[1] == "not read"));
    assert_eq!(grouped("632121"), small[4]);
}

fn without_pictures(page: &str) -> String {
    let parts = page.split("<svg ");
    parts.map(|part| part.split_once("</svg>").map_or(part, |(_, rest)| rest)).collect()
}

/// A name need not be UTF-8: it is shown with escapes, and its link has its bytes.
#[test]
fn names_of_any_bytes() {
    let name = b"caf\xe9 #1.input";
    let entry = Entry { name: name.to_vec(), read: Ok(named("a", &worked(1))) };
    let page = index(&[entry]);
    assert!(page.contains("<a href=\"caf%E9%20%231.input.html\">caf\\xe9 #1.input</a>"), "{page}");
    assert_eq!(page_name(name), b"caf\xe9 #1.input.html");
    assert_eq!(seen("&lt;"), "<");
}

//! The worked records: their bytes, as they were worked out by hand, say what stands beside them.

use crate::page::{block, file, number, section, Said};
use reference::{step, Code, Record, Request, Step, KINDS};

pub fn heading(kind: u8) -> String {
    format!("### Kind {kind}: `")
}

fn bytes(lines: &[Said]) -> Vec<u8> {
    lines.iter().flat_map(|line| line.bytes.clone()).collect()
}

/// Three letters as the number that the layout reads from their bytes.
pub fn code_number(code: &str) -> i64 {
    Code(code.as_bytes().try_into().expect("three letters")).number()
}

/// The record of some lines, as the reference decodes it; they hold nothing else.
fn decoded(lines: &[Said]) -> Record {
    let book = bytes(lines);
    let Step::Whole(record) = step(&book, 0) else { panic!("{book:?} is no whole record") };
    assert_eq!(record.length(), book.len());
    record
}

/// The page's record of a kind.
pub fn worked(kind: u8) -> Record {
    let record = decoded(&block(&heading(kind)));
    assert_eq!(record.kind.number, kind);
    record
}

/// Holds one line of words, as `months 241` or `core 11-12 450`, and its bytes against the record; says of how many
/// numbers it spoke.
fn hold(line: &Said, record: &Record) -> usize {
    let words: Vec<&str> = line.words.iter().map(String::as_str).collect();
    let (values, value) = match words[..] {
        ["kind", value] => (vec![i64::from(record.kind.number)], value),
        [name, value] => (vec![record.one(name)], value),
        [name, range, value] => {
            let (first, last) = range.split_once('-').unwrap_or((range, range));
            (record.all(name)[number(first) as usize - 1..number(last) as usize].to_vec(), value)
        }
        _ => panic!("{words:?}"),
    };
    let said = if words[0] == "code" { code_number(value) } else { number(value) };
    assert!(values.iter().all(|found| *found == said), "{words:?}: {values:?}");
    let width = record.kind.fields.iter().find(|field| field.name == words[0]).map_or(1, |field| field.item.width());
    assert_eq!(line.bytes.len(), width * values.len(), "{words:?}");
    values.len()
}

/// The lines speak of every number of the record, field by field in the order of the layout.
fn hold_all(lines: &[Said], record: &Record) {
    let kind = record.kind;
    let spoken_of: usize = lines.iter().map(|line| hold(line, record)).sum();
    assert_eq!(spoken_of, 1 + kind.fields.iter().map(|field| field.times).sum::<usize>(), "{}", kind.name);
    let names: Vec<&str> = lines.iter().map(|line| line.words[0].as_str()).collect();
    let due = ["kind"].into_iter().chain(kind.fields.iter().map(|field| field.name));
    assert!(names.chunk_by(|one, next| one == next).map(|run| run[0]).eq(due), "{names:?}");
}

#[test]
fn each_worked_record_says_what_stands_beside_it() {
    for kind in &KINDS {
        hold_all(&block(&heading(kind.number)), &worked(kind.number));
    }
}

#[test]
fn the_worked_records_make_a_good_book() {
    let book: Vec<u8> = KINDS.iter().flat_map(|kind| worked(kind.number).bytes()).collect();
    assert_eq!(Request::roomy(&book, 1_000_000).answer().refused(), None);
}

/// What the page says of the flows of the worked records.
#[test]
fn the_flows_named_are_those_of_the_records() {
    let flow = |kind, scenario: usize, bucket: usize| reference::flows(&worked(kind))[scenario][bucket - 1];
    assert_eq!(flow(1, 0, 19), 1_000_000);
    assert_eq!((flow(2, 0, 4), flow(2, 0, 11)), (-25, -25 * 2 - 1_000));
    assert_eq!(flow(3, 0, 3), 1_012);
    assert_eq!(flow(4, 0, 1), -100);
    assert_eq!([1, 2, 3, 4, 5, 6, 7, 8, 9].map(|bucket| flow(5, 0, bucket)), [0, 8, 16, 24, 23, 23, 45, 43, 818 + 81]);
    assert_eq!((flow(6, 1, 1), flow(6, 1, 6)), (-720, -280));
    assert_eq!([5, 6, 7, 8, 9].map(|bucket| flow(9, 0, bucket)), [0, 1_012, 10, 10, 0]);
}

#[test]
fn the_whole_input_is_that_of_the_examples() {
    let lines = block("## A whole input");
    assert_eq!(lines[0].words, ["capital", "4,214,126"]);
    assert_eq!(lines[0].bytes, 4_214_126u64.to_be_bytes());
    assert_eq!(bytes(&lines), file("examples/worked.input"));
    let last = lines.iter().rposition(|line| line.words[0] == "kind").expect("a record");
    hold_all(&lines[1..last], &decoded(&lines[1..last]));
    hold_all(&lines[last..], &worked(1));
}

#[test]
fn the_report_is_that_of_the_examples() {
    let lines = section("## A whole input");
    let report: Vec<&str> = lines.iter().filter_map(|line| line.strip_prefix("    ")).collect();
    assert_eq!((report.join("\n") + "\n").as_bytes(), file("examples/worked.report"));
}

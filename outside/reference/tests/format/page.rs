//! The page, taken apart: its sections, the tables and the blocks of bytes in them.

use std::path::PathBuf;

pub fn file(name: &str) -> Vec<u8> {
    let path = PathBuf::from(env!("CARGO_MANIFEST_DIR")).join("../..").join(name);
    std::fs::read(&path).unwrap_or_else(|error| panic!("{}: {error}", path.display()))
}

/// The lines below the only heading that begins so, up to the next heading.
pub fn section(heading: &str) -> Vec<String> {
    let text = String::from_utf8(file("docs/format.md")).expect("text");
    let found = text.lines().filter(|line| line.starts_with(heading)).count();
    assert_eq!(found, 1, "headings {heading}");
    let below = text.lines().skip_while(|line| !line.starts_with(heading)).skip(1);
    below.take_while(|line| !line.starts_with('#')).map(str::to_string).collect()
}

/// The rows of the only table of a section whose header begins with a word: cells, without header and rule.
pub fn table(heading: &str, first_word: &str) -> Vec<Vec<String>> {
    let lines = section(heading);
    let header = format!("| {first_word}");
    let begin = lines.iter().position(|line| line.starts_with(&header)).expect("a table");
    let rows = lines[begin + 2..].iter().take_while(|line| line.starts_with('|'));
    let cells = |row: &String| row.trim_matches('|').split('|').map(|cell| cell.trim().to_string()).collect();
    rows.map(cells).collect()
}

/// A number as people write it, 1,000,000.
pub fn number(text: &str) -> i64 {
    text.replace(',', "").parse().unwrap_or_else(|_| panic!("{text} is no number"))
}

/// One line of a block: bytes, and the words for what they say.
pub struct Said {
    pub bytes: Vec<u8>,
    pub words: Vec<String>,
}

/// The fenced block of a section: bytes, two spaces or more, the words, and perhaps a remark after two spaces more.
pub fn block(heading: &str) -> Vec<Said> {
    let lines = section(heading);
    let fenced = lines.iter().skip_while(|line| *line != "```").skip(1).take_while(|line| *line != "```");
    fenced.map(|line| said(line)).collect()
}

fn said(line: &str) -> Said {
    let (bytes, rest) = line.split_once("  ").unwrap_or_else(|| panic!("no words beside {line}"));
    let words = rest.trim_start().split("  ").next().unwrap_or_default();
    let byte = |digits: &str| u8::from_str_radix(digits, 16).unwrap_or_else(|_| panic!("{digits} in {line}"));
    Said { bytes: bytes.split(' ').map(byte).collect(), words: words.split(' ').map(str::to_string).collect() }
}

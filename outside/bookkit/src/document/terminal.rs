//! A document as text for a terminal.

use super::{table, wrapped, Document, Part, Section, Table};

/// No line is longer, but for a name that is.
pub const WIDTH: usize = 100;

pub fn terminal(document: &Document) -> String {
    let sections: String = document.sections.iter().map(section).collect();
    format!("{}{sections}", underlined(&document.title, "="))
}

fn section(section: &Section) -> String {
    let parts: Vec<String> = section.parts.iter().map(part).filter(|part| !part.is_empty()).collect();
    format!("\n{}\n{}", underlined(&section.title, "-"), parts.join("\n"))
}

fn underlined(title: &str, with: &str) -> String {
    format!("{title}\n{}\n", with.repeat(title.chars().count().min(WIDTH)))
}

fn part(part: &Part) -> String {
    match part {
        Part::Sentence(text) => ended(wrapped(text, WIDTH)),
        Part::List(items) => items.iter().map(|text| item(text)).collect(),
        Part::Table(table) => captioned(table),
        Part::Pictures { .. } => String::new(),
    }
}

fn item(text: &str) -> String {
    let lines = wrapped(text, WIDTH - 2);
    lines.iter().enumerate().map(|(index, line)| format!("{}{line}\n", if index == 0 { "- " } else { "  " })).collect()
}

fn captioned(table: &Table) -> String {
    let mut lines = wrapped(&table.caption, WIDTH);
    lines.push(String::new());
    lines.extend(table::lines(table));
    ended(lines)
}

fn ended(lines: Vec<String>) -> String {
    lines.iter().map(|line| format!("{line}\n")).collect()
}

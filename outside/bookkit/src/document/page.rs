//! A document as one page of HTML that needs nothing else: no script, no font, no picture from elsewhere.

use super::{element, escaped, Column, Document, Holds, Laid, Part, Section, Table};
use crate::draw::{Picture, DRAWN};

const STYLE: &str = include_str!("page.css");

pub fn page(document: &Document) -> String {
    let contents: String = document.sections.iter().map(link).collect();
    let contents = element("nav", "aria-label=\"Contents\"", &element("ul", "", &contents));
    let sections: String = document.sections.iter().map(section).collect();
    let main = element("main", &format!("class=\"{}\"", document.outcome), &sections);
    shell(&document.title, document.digest.as_deref(), &(contents + &main))
}

/// A whole page around its inside. Where there is a digest, every printed sheet bears it.
pub fn shell(title: &str, digest: Option<&str>, inside: &str) -> String {
    let title = escaped(title);
    let foot = digest.map(|digest| format!("@page {{ @bottom-left {{ content: \"SHA-256 {digest}\"; }} }}\n"));
    let style = format!("{STYLE}{DRAWN}{}", foot.unwrap_or_default());
    let head = format!(
        "<meta charset=\"utf-8\">\n<meta name=\"viewport\" content=\"width=device-width, initial-scale=1\">\n\
         <title>{title}</title>\n<style>\n{style}</style>\n"
    );
    let header = element("header", "", &format!("<p>Interest rate risk return</p>\n<h1>{title}</h1>\n"));
    format!("<!DOCTYPE html>\n<html lang=\"en\">\n<head>\n{head}</head>\n<body>\n{header}{inside}</body>\n</html>\n")
}

fn link(section: &Section) -> String {
    element("li", "", &format!("<a href=\"#{}\">{}</a>", section.anchor, escaped(&section.title)))
}

fn section(section: &Section) -> String {
    let parts: String = section.parts.iter().map(part).collect();
    let inside = format!("\n<h2>{}</h2>\n{parts}", escaped(&section.title));
    element("section", &format!("id=\"{}\"", section.anchor), &inside)
}

fn part(part: &Part) -> String {
    match part {
        Part::Sentence(text) => element("p", "", &escaped(text)),
        Part::List(items) => {
            let items: String = items.iter().map(|item| element("li", "", &escaped(item))).collect();
            element("ul", "", &items)
        }
        Part::Table(table) => framed(table),
        Part::Pictures { pictures, laid, note } => {
            let figures: String = pictures.iter().map(figure).collect();
            let laid = if *laid == Laid::SideBySide { "class=\"panels\"" } else { "" };
            element("div", laid, &figures) + &element("p", "class=\"note\"", &escaped(note))
        }
    }
}

fn figure(picture: &Picture) -> String {
    element("figure", "", &(element("figcaption", "", &escaped(&picture.title)) + &picture.inline()))
}

/// A table wider than the screen is moved within its frame, by keys too.
fn framed(table: &Table) -> String {
    let name = escaped(&table.caption);
    let head: String = table.columns.iter().map(head).collect();
    let rows: String = table.rows.iter().map(|row| element("tr", "", &cells(&table.columns, row))).collect();
    let inside = caption(&name) + &element("thead", "", &element("tr", "", &head)) + &element("tbody", "", &rows);
    let attributes = format!("class=\"frame\" role=\"region\" tabindex=\"0\" aria-label=\"{name}\"");
    element("div", &attributes, &element("table", "", &inside))
}

/// No wider than the screen, however wide its table is.
pub fn caption(text: &str) -> String {
    element("caption", "", &format!("<span>{text}</span>"))
}

fn head(column: &Column) -> String {
    element("th", &format!("scope=\"col\"{}", class(column)), &escaped(&column.head))
}

fn cells(columns: &[Column], row: &[String]) -> String {
    let cell = |(index, text): (usize, &String)| match index {
        0 => element("th", &format!("scope=\"row\"{}", class(&columns[0])), &escaped(text)),
        _ => element("td", class(&columns[index]).trim_start(), &escaped(text)),
    };
    row.iter().enumerate().map(cell).collect()
}

fn class(column: &Column) -> &'static str {
    match column.holds {
        Holds::Figures => "",
        Holds::Words => " class=\"words\"",
        Holds::Sentences => " class=\"words sentences\"",
    }
}

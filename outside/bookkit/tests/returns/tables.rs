//! The tables of a page, read back.

/// The part of a page between a section's begin and its end.
pub fn section<'a>(page: &'a str, anchor: &str) -> &'a str {
    let begin = format!("<section id=\"{anchor}\">");
    let (_, rest) = page.split_once(&begin).unwrap_or_else(|| panic!("no section {anchor}"));
    rest.split_once("</section>").expect("its end").0
}

/// The rows of a table's body, cell by cell, as a reader sees them.
pub fn rows(table: &str) -> Vec<Vec<String>> {
    let body = table.split_once("<tbody>").expect("a body").1.split_once("</tbody>").expect("its end").0;
    body.split("<tr>").skip(1).map(cells).collect()
}

/// The tables of a section, row by row.
pub fn tables(page: &str, anchor: &str) -> Vec<Vec<Vec<String>>> {
    section(page, anchor).split("<table>").skip(1).map(rows).collect()
}

fn cells(row: &str) -> Vec<String> {
    let after = |cell: &str| cell.split_once('>').expect("a tag").1.split("</t").next().map(seen).expect("an end");
    row.split("<t").skip(1).map(after).collect()
}

pub fn seen(markup: &str) -> String {
    let letters = [("&lt;", "<"), ("&gt;", ">"), ("&quot;", "\""), ("&#39;", "'"), ("&amp;", "&")];
    letters.iter().fold(markup.to_string(), |text, (name, letter)| text.replace(name, letter))
}

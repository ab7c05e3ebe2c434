//! The inbox as a page, with a link to the page of each return.

use super::{count, Entry, Group, Told};
use crate::detail::LIMIT_SHARE;
use crate::document::{caption, element, escaped, shell};
use crate::draw::{line, rectangle, Scale, WHOLE};
use crate::figure::{grouped, with_hundredths};
use crate::sha256::sha256;

const SCALE: &str = "0 to 30 per cent, limit at 15";
const HEADS: [&str; 8] =
    ["Return", "Verdict", "Share of Tier 1, per cent", SCALE, "Measure", "Headroom", "Tolerance", "Hints"];

/// In hundredths of a per cent of Tier 1 capital: the limit stands in the middle.
const FARTHEST: i64 = 2 * LIMIT_SHARE;

/// Bytes that a file's name may have.
const LONGEST_NAME: usize = 255;

/// The name of a return's page: no two are one, and none is the index's, for a return's ends in `.input`. Where that is too
/// long for a name, the digest stands for it.
pub fn page_name(name: &[u8]) -> Vec<u8> {
    let whole = [name, b".html"].concat();
    match whole.len() {
        ..=LONGEST_NAME => whole,
        _ => format!("{}.html", sha256(name)).into_bytes(),
    }
}

pub fn index(entries: &[Entry]) -> String {
    let heads: String = HEADS.iter().map(|head| head_cell(head)).collect();
    let rows: String = entries.iter().map(row).collect();
    let said_once =
        "Worst first: over, turned down, not read, close, within; in each the greatest share first. Thousands.";
    let table = caption(said_once) + &element("thead", "", &element("tr", "", &heads)) + &element("tbody", "", &rows);
    let frame = "class=\"frame\" role=\"region\" tabindex=\"0\" aria-label=\"Returns\"";
    let said = "A filled bar is the measure's share of Tier 1 capital, the dashes in the middle the limit; a bar that runs out of \
                its frame is longer than there is room. Every figure is one that irdetail printed.";
    let inside = element("p", "", &escaped(count(entries).trim_end()))
        + &element("div", frame, &element("table", "", &table))
        + &element("p", "", said);
    shell("Inbox", None, &element("main", "class=\"inbox\"", &inside))
}

fn head_cell(head: &str) -> String {
    let words = ["Return", "Verdict", SCALE].contains(&head);
    element("th", if words { "scope=\"col\" class=\"words\"" } else { "scope=\"col\"" }, head)
}

fn row(entry: &Entry) -> String {
    let name = element("th", "scope=\"row\" class=\"words\"", &link(entry));
    let verdict = element("td", "class=\"words\"", entry.group().words());
    let rest = match (entry.told(), entry.why()) {
        (Told::Figures(figures), _) => {
            let cell = |text: String| element("td", "", &text);
            cell(with_hundredths(figures.share))
                + &element("td", "", &bar(figures.share))
                + &cell(grouped(figures.measure))
                + &cell(with_hundredths(figures.headroom))
                + &cell(grouped(figures.tolerance))
                + &cell(entry.hints().to_string())
        }
        (_, why) => element("td", "class=\"words sentences\" colspan=\"6\"", &escaped(&why.unwrap_or_default())),
    };
    element("tr", "", &(name + &verdict + &rest))
}

/// What was not read has no page.
fn link(entry: &Entry) -> String {
    let name = escaped(&entry.shown());
    match entry.group() {
        Group::NotRead => name,
        _ => format!("<a href=\"{}\">{name}</a>", encoded(&page_name(&entry.name))),
    }
}

/// Nothing of a name is read as part of an address.
fn encoded(name: &[u8]) -> String {
    let letter = |byte: &u8| match byte {
        b'A'..=b'Z' | b'a'..=b'z' | b'0'..=b'9' | b'-' | b'.' | b'_' | b'~' => char::from(*byte).to_string(),
        _ => format!("%{byte:02X}"),
    };
    name.iter().map(letter).collect()
}

fn bar(share: i64) -> String {
    let scale = Scale::over([0, FARTHEST].into_iter(), WHOLE).with_room(0, 6);
    let (end, limit, farthest) = (scale.at(share), scale.at(LIMIT_SHARE), scale.at(FARTHEST));
    let said = format!("{} per cent of Tier 1 capital, limit 15", with_hundredths(share));
    let inside = rectangle("room", (0, 30), farthest, 100)
        + &rectangle("loss", (0, 50), end, 60)
        + &line("ground", (limit, 0), (limit, 160))
        + &line("limit", (limit, 0), (limit, 160));
    format!(
        "<svg class=\"row-scale\" role=\"img\" width=\"100%\" height=\"16\"><title>{said}</title>\n{inside}</svg>\n"
    )
}

#[cfg(test)]
mod tests {
    use super::{encoded, page_name};

    #[test]
    fn a_link_holds_nothing_but_a_name() {
        assert_eq!(encoded(b"a b.input"), "a%20b.input");
        assert_eq!(encoded(b"javascript:x//?#&\"<\n\xff%"), "javascript%3Ax%2F%2F%3F%23%26%22%3C%0A%FF%25");
    }

    #[test]
    fn no_page_is_the_index() {
        assert_eq!(page_name(b"index.input"), b"index.input.html");
        let long = |last: u8| [&[b'x'; 248][..], &[last], b".input"].concat();
        assert_eq!(page_name(&long(b'y')).len(), 64 + 5);
        assert_ne!(page_name(&long(b'y')), page_name(&long(b'z')));
        assert_eq!(page_name(&long(b'y')[5..]).len(), 255);
    }
}

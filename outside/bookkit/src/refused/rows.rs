//! What is known of a refusal, row by row.

use super::bytes::shown;
use super::seen::{seen, Seen};
use super::Finding;
use crate::figure::grouped;
use crate::show::record_line;
use crate::source::Source;
use crate::trade::kind_name;
use reference::CAPITAL_BYTES;

/// So many records before the one at fault are listed.
const BEFORE: usize = 3;

/// What is told, and what it is. Rows that a refusal has no use for are left out.
pub fn rows(finding: &Finding, source: &Source) -> Vec<Vec<String>> {
    let Seen { record, field, range, value, expected, text } = seen(finding, source);
    let no_byte = if finding.refused.number == 15 { ", which is a currency and no byte" } else { "" };
    let refusal = format!("{}, at place {}{no_byte}", finding.refused.number, finding.refused.place);
    let bytes = range.as_ref().map(|range| shown(&source.bytes, range.clone()));
    let byte = range.map(|range| {
        let start = grouped(range.start as i64);
        format!("{start}, counted from 0; place 0 of the book is byte {CAPITAL_BYTES} of the file")
    });
    let rows = [
        ("Refusal", Some(refusal)),
        ("Record", record),
        ("Field", field),
        ("Its bytes", bytes),
        ("Byte of the file", byte),
        ("Value read", Some(value)),
        ("Expected", Some(expected)),
        ("Record as text", text),
    ];
    rows.into_iter().filter_map(|(what, told)| Some(vec![what.to_string(), told?])).collect()
}

/// The records just before the one at fault: number, place, kind and text. They tell whether bytes are shifted.
pub fn before(finding: &Finding) -> Vec<Vec<String>> {
    let earlier = finding.at_fault().unwrap_or_default();
    let row = |index: usize| {
        let placed = &finding.records[index];
        let kind = kind_name(placed.record.kind.number).to_string();
        vec![placed.number.to_string(), placed.place.to_string(), kind, record_line(&placed.record)]
    };
    (earlier.saturating_sub(BEFORE)..earlier).map(row).collect()
}

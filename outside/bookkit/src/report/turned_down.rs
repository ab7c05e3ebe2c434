//! The report of a book that was turned down: what, where and why, in place of the figures.

use super::records;
use crate::assessed::Assessed;
use crate::document::{Column, Document, Part, Section, Table};
use crate::refused::{before, rows, Finding};

pub fn document(assessed: &Assessed, finding: &Finding) -> Document {
    let source = &assessed.source;
    let mut sections = vec![
        turned_down(finding),
        Section::new("where", "Where it is", vec![Part::Table(facts(rows(finding, source)))]),
        causes(assessed, finding),
    ];
    sections.extend(records_before(finding));
    sections.push(records::input(source, None));
    sections.push(proved());
    Document {
        title: format!("{}: turned down", source.name),
        outcome: "turned-down",
        digest: source.digest(),
        sections,
    }
}

fn turned_down(finding: &Finding) -> Section {
    let meaning = finding.meaning();
    let parts = vec![
        Part::Sentence(format!("Turned down with refusal {}, {meaning}", finding.refused.number)),
        Part::sentence("There are no figures: no part of a book that is turned down counts."),
    ];
    Section::new("verdict", "Turned down", parts)
}

fn facts(rows: Vec<Vec<String>>) -> Table {
    let columns = vec![Column::words("What"), Column::sentences("Found")];
    let caption = "Places count bytes of the book from 0; what is at fault stands in brackets, in hexadecimal.";
    Table { caption: caption.to_string(), columns, rows }
}

fn causes(assessed: &Assessed, finding: &Finding) -> Section {
    let plainly = assessed.source.plainly.iter().map(|what| format!("In this case {what}."));
    let causes = plainly.chain(finding.causes().iter().map(|cause| cause.to_string())).collect();
    let parts = vec![Part::List(causes), Part::sentence(finding.look_at())];
    Section::new("causes", "What usually causes it", parts)
}

fn records_before(finding: &Finding) -> Option<Section> {
    let rows = before(finding);
    let columns =
        vec![Column::words("Record"), Column::figures("Place"), Column::words("Kind"), Column::sentences("As text")];
    let caption =
        "The records just before. If these make no sense either, the bytes are shifted, and the fault lies further up.";
    let table = Table { caption: caption.to_string(), columns, rows };
    (!table.rows.is_empty()).then(|| Section::new("before", "The records before it", vec![Part::Table(table)]))
}

fn proved() -> Section {
    let said = "The number and the place are those that irdetail printed for this input, and irdetail is proved to turn down \
                exactly what the definitions of the rules turn down, with this number at this place; the words around them are not proved.";
    Section::new("proved", "What is proved", vec![Part::sentence(said)])
}

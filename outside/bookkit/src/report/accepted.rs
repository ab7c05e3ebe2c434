//! The report of an accepted book.

use super::verdict::outcome;
use super::{changes, ladders, records, verdict, Form};
use crate::assessed::Assessed;
use crate::detail::Figures;
use crate::document::{Document, Part, Section};
use crate::hints::hints;

pub fn document(assessed: &Assessed, figures: &Figures, form: Form) -> Document {
    let (word, words) = outcome(figures.verdict);
    let mut sections = vec![
        verdict::section(figures),
        hinted(&hints(assessed)),
        records::input(&assessed.source, Some(figures.records)),
        changes::section(figures),
    ];
    sections.extend(changes::add_ons(figures));
    sections.extend([records::section(figures), proved()]);
    sections.extend(figures.currencies.iter().map(|currency| match form {
        Form::Page => ladders::whole(currency, figures.worst),
        Form::Terminal | Form::Picture => ladders::short(currency, figures.worst),
    }));
    let title = format!("{}: {words}", assessed.source.name);
    Document { title, outcome: word, digest: assessed.source.digest(), sections }
}

fn hinted(hints: &[String]) -> Section {
    let parts = match hints.is_empty() {
        true => vec![Part::sentence("Nothing odd was seen. Hints never change a verdict.")],
        false => vec![
            Part::sentence(
                "These are hints and change nothing: the verdict stands. They say what looks odd in an accepted book.",
            ),
            Part::List(hints.to_vec()),
        ],
    };
    Section::new("hints", "Hints", parts)
}

fn proved() -> Section {
    let said = "Every figure of the return is one that irdetail printed for this input, and irdetail is proved to print what \
                the definitions of the rules say; the size, the SHA-256, the hints, the words and the drawing are not proved.";
    Section::new("proved", "What is proved", vec![Part::sentence(said)])
}

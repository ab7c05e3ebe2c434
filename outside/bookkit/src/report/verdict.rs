//! The verdict in a sentence, and the figures that it rests on.

use crate::detail::{Figures, Verdict};
use crate::document::{Column, Laid, Part, Section, Table};
use crate::draw;
use crate::figure::{grouped, with_hundredths};
use crate::trade::scenario_name;

/// One word for the outcome, and how it reads after a name.
pub fn outcome(verdict: Verdict) -> (&'static str, &'static str) {
    match verdict {
        Verdict::Over => ("over", "over the limit"),
        Verdict::Within => ("within", "within the limit"),
        Verdict::Close => ("close", "close to the limit"),
    }
}

pub fn section(figures: &Figures) -> Section {
    let [verdict, standing] = sentences(figures).map(Part::Sentence);
    let parts = vec![
        verdict,
        standing,
        Part::pictures(draw::verdict_lines(figures), Laid::Stacked, draw::HOW_TO_READ_LINE),
        Part::Table(table(figures)),
    ];
    Section::new("verdict", "Verdict", parts)
}

/// What the verdict is, then how the measure stands to capital and where it comes from.
pub fn sentences(figures: &Figures) -> [String; 2] {
    let worst = match figures.worst {
        0 => "No scenario brings a loss.".to_string(),
        worst => format!("The loss is greatest in scenario {worst}, {}.", scenario_name(worst)),
    };
    let (share, headroom) = (with_hundredths(figures.share), with_hundredths(figures.headroom));
    let standing = format!(
        "The measure is {share} per cent of Tier 1 capital, where 15 is the limit; the headroom is {headroom} thousand. {worst}"
    );
    [verdict_sentence(figures), standing]
}

fn verdict_sentence(figures: &Figures) -> String {
    let (measure, tolerance) = (grouped(figures.measure), grouped(figures.tolerance));
    let limit = with_hundredths(figures.limit);
    match figures.verdict {
        Verdict::Over => format!(
            "Over the limit: the measure of {measure} thousand is above the limit of {limit} thousand, and stays so with its \
             tolerance of {tolerance} taken off."
        ),
        Verdict::Within => format!(
            "Within the limit: the measure of {measure} thousand is not above the limit of {limit} thousand, and stays so \
             with its tolerance of {tolerance} added."
        ),
        Verdict::Close => format!(
            "Close to the limit: the measure of {measure} thousand has a tolerance of {tolerance}, which reaches the limit of \
             {limit} thousand, so that neither over nor within can be said."
        ),
    }
}

fn table(figures: &Figures) -> Table {
    let row = |name: &str, figure: String, what: &str| vec![name.to_string(), figure, what.to_string()];
    let rows = vec![
        row("Measure", grouped(figures.measure), "the greatest of the six sums of losses"),
        row("Tolerance", grouped(figures.tolerance), "the exact measure is at most so far from the measure"),
        row("Limit", with_hundredths(figures.limit), "15 per cent of Tier 1 capital"),
        row("Headroom", with_hundredths(figures.headroom), "limit less measure; minus where the measure is above"),
        row("Tier 1 capital", grouped(figures.capital), "as the input has it"),
        row("Share", with_hundredths(figures.share), "the measure in per cent of Tier 1 capital, rounded up"),
    ];
    let columns = vec![Column::words("Figure"), Column::figures("Value"), Column::sentences("What it is")];
    let caption = "What the verdict rests on, in thousands of the reporting currency; the share in per cent.";
    Table { caption: caption.to_string(), columns, rows }
}

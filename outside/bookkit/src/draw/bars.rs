//! The six changes of a currency, and the six sums, as bars: a loss to the right, a gain to the left.

use super::scale::{in_hundredths, Scale, WHOLE};
use super::shapes::{line, rectangle, text, Anchor};
use super::Picture;
use crate::detail::{Currency, Figures};
use crate::figure::{grouped, with_hundredths};
use crate::trade::scenario;
use reference::SCENARIOS;

/// Of one scenario, in tenths of a pixel.
const ROW: i64 = 320;

pub const HOW_TO_READ_BARS: &str =
    "Thousands. A loss is a filled bar to the right, a gain an open one to the left. The \
                                    currencies are on one scale; the sums have their own, and dashes at the limit.";

/// One picture for each currency, all on one scale.
pub fn changes(currencies: &[Currency]) -> Vec<Picture> {
    let all = currencies.iter().flat_map(|currency| currency.changes).chain([0]);
    let scale = Scale::over(all, WHOLE);
    currencies.iter().map(|currency| of_currency(currency, &scale)).collect()
}

fn of_currency(currency: &Currency, scale: &Scale) -> Picture {
    let title = format!("Currency {}", currency.number);
    panel(title, &currency.changes, |change| scale.at(change), "")
}

/// The sums against the limit, which a sum has to stay below.
pub fn sums(figures: &Figures) -> Picture {
    let all = figures.sums.into_iter().map(in_hundredths).chain([0, figures.limit]);
    let scale = Scale::over(all, WHOLE).with_room(0, 4);
    let limit = scale.at(figures.limit);
    let marks: String = (0..SCENARIOS).map(|index| limit_mark(index, limit)).collect();
    let title = "Losses added over currencies".to_string();
    let mut picture = panel(title, &figures.sums, |sum| scale.at(in_hundredths(sum)), &marks);
    let label = format!("limit {}", with_hundredths(figures.limit));
    picture.description += &format!(" The {label}.");
    let bottom = ROW * SCENARIOS as i64 + 130;
    picture.shapes += &text("figure strong", (limit, bottom), Anchor::near(limit), &label);
    picture.height += 18;
    picture
}

/// Beside the bar alone: a line through the whole picture would strike out words and figures.
fn limit_mark(index: usize, limit: i64) -> String {
    let (top, bottom) = (ROW * index as i64 + 160, ROW * index as i64 + 300);
    line("ground", (limit, top), (limit, bottom)) + &line("limit", (limit, top), (limit, bottom))
}

/// Marks come over the bars.
fn panel(title: String, figures: &[i64; SCENARIOS], at: impl Fn(i64) -> i64, marks: &str) -> Picture {
    let rows = || figures.iter().enumerate();
    let bars: String = rows().map(|(index, figure)| bar(index, *figure, &at)).collect();
    let labels: String = rows().map(|(index, figure)| label(index, *figure)).collect();
    let said: Vec<String> =
        rows().map(|(index, figure)| format!("scenario {}, {}", scenario(index + 1), grouped(*figure))).collect();
    Picture {
        title,
        description: format!("In thousands, a loss plus: {}.", said.join("; ")),
        height: ROW * SCENARIOS as i64 / 10,
        shapes: format!("{bars}{marks}{labels}"),
    }
}

fn bar(index: usize, figure: i64, at: &impl Fn(i64) -> i64) -> String {
    let top = ROW * index as i64;
    let (nought, end) = (at(0), at(figure));
    let bar = match figure >= 0 {
        true => rectangle("loss", (nought, top + 180), end - nought, 90),
        false => rectangle("gain", (end, top + 180), nought - end, 90),
    };
    bar + &line("axis", (nought, top + 150), (nought, top + 300))
}

fn label(index: usize, figure: i64) -> String {
    let bottom = ROW * index as i64 + 130;
    text("words", (0, bottom), Anchor::Start, &scenario(index + 1))
        + &text("figure", (WHOLE, bottom), Anchor::End, &grouped(figure))
}

//! The measure, its tolerance and the limit on one line, to scale.

use super::scale::{in_hundredths, Scale, WHOLE};
use super::shapes::{line, rectangle, text, Anchor};
use super::Picture;
use crate::detail::Figures;
use crate::figure::{grouped, with_hundredths};

/// Nearer to each other than so many hundredths of a per cent of the width, the measure and the limit look like one.
const TOO_NEAR: i64 = 4_00;
const HEIGHT: i64 = 74;

pub const HOW_TO_READ_LINE: &str =
    "The bar is the measure; the frame at its end is what the tolerance leaves open; the \
                                   dashed line is the limit, and what lies beyond it is grey. Thousands.";

/// The line, and where measure and limit cannot be told apart on it, their neighbourhood magnified.
pub fn verdict_lines(figures: &Figures) -> Vec<Picture> {
    let (low, high) = band(figures);
    let whole = Scale::over([0, high, figures.limit].into_iter(), WHOLE).with_room(0, 10);
    let near = (whole.at(in_hundredths(figures.measure)) - whole.at(figures.limit)).abs() < TOO_NEAR;
    let mut pictures = vec![picture(figures, &whole, "Measure and limit, to scale")];
    if near {
        let around = Scale::over([low, high, figures.limit].into_iter(), WHOLE).with_room(30, 30);
        pictures.push(picture(figures, &around, "The same near the limit, magnified: it does not begin at 0"));
    }
    pictures
}

/// The exact measure lies between these.
fn band(figures: &Figures) -> (i64, i64) {
    let (measure, tolerance) = (in_hundredths(figures.measure), in_hundredths(figures.tolerance));
    (measure.saturating_sub(tolerance).max(0), measure.saturating_add(tolerance))
}

fn picture(figures: &Figures, scale: &Scale, title: &str) -> Picture {
    let measure = format!("measure {} ± {}", grouped(figures.measure), grouped(figures.tolerance));
    let limit = format!("limit {}", with_hundredths(figures.limit));
    let shapes = marks(figures, scale) + &labels(figures, scale, &measure, &limit);
    let description = format!("{measure}, {limit}, in thousands.");
    Picture { title: title.to_string(), description, height: HEIGHT, shapes }
}

fn marks(figures: &Figures, scale: &Scale) -> String {
    let (low, high) = band(figures);
    let (limit, measure) = (scale.at(figures.limit), scale.at(in_hundredths(figures.measure)));
    let (low, high) = (scale.at(low), scale.at(high));
    rectangle("beyond", (limit, 220), WHOLE - limit, 240)
        + &line("axis", (0, 460), (WHOLE, 460))
        + &rectangle("loss", (0, 260), measure, 160)
        + &rectangle("band", (low, 230), high - low, 220)
        + &line("ground", (limit, 180), (limit, 540))
        + &line("limit", (limit, 180), (limit, 540))
        + &line("mark", (measure, 180), (measure, 460))
}

/// The measure's above the line and the limit's below, so that they never meet.
fn labels(figures: &Figures, scale: &Scale, measure: &str, limit: &str) -> String {
    let (measure_at, limit_at) = (scale.at(in_hundredths(figures.measure)), scale.at(figures.limit));
    let begins_at_nought = scale.holds(0) && limit_at > WHOLE / 4;
    let nought = if begins_at_nought { text("figure", (0, 680), Anchor::Start, "0") } else { String::new() };
    text("figure strong", (measure_at, 130), Anchor::near(measure_at), measure)
        + &text("figure strong", (limit_at, 680), Anchor::near(limit_at), limit)
        + &nought
}

//! Pictures in SVG. Every figure that is written in one is `irdetail`'s; what is worked out is only where it is drawn.

mod bars;
mod curves;
mod ladder;
mod scale;
mod shapes;
mod standalone;
mod verdict_line;

pub use bars::{changes, sums, HOW_TO_READ_BARS};
pub use curves::{curves, how_to_read_curves};
pub use ladder::{how_to_read_ladder, ladder};
pub use scale::{Scale, WHOLE};
pub use shapes::{line, rectangle};
pub use standalone::{of_figures, of_text};
pub use verdict_line::{verdict_lines, HOW_TO_READ_LINE};

use crate::document::escaped;

/// How shapes are dressed, in a page and in a picture that stands alone. Nothing is told by colour alone.
pub const DRAWN: &str = include_str!("drawn.css");

/// Without a width of its own: it takes that of its surroundings.
pub struct Picture {
    pub title: String,
    /// The same in words, for those who do not see it.
    pub description: String,
    /// In pixels.
    pub height: i64,
    pub shapes: String,
}

impl Picture {
    /// As an element of a page.
    pub fn inline(&self) -> String {
        format!("<svg role=\"img\" width=\"100%\" height=\"{}\">\n{}</svg>\n", self.height, self.inside())
    }

    /// As a part of a larger picture.
    pub fn placed(&self, left: i64, top: i64, width: i64) -> String {
        let (height, inside) = (self.height, self.inside());
        format!("<svg x=\"{left}\" y=\"{top}\" width=\"{width}\" height=\"{height}\">\n{inside}</svg>\n")
    }

    fn inside(&self) -> String {
        let (title, description) = (escaped(&self.title), escaped(&self.description));
        format!("<title>{title}</title>\n<desc>{description}</desc>\n{}", self.shapes)
    }
}

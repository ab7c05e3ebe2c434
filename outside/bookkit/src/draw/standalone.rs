//! One picture that stands alone, on a white ground of its own, for a document of another make.

use super::{changes, sums, verdict_lines, Picture, DRAWN, HOW_TO_READ_BARS, HOW_TO_READ_LINE};
use crate::detail::Figures;
use crate::document::{escaped, wrapped};

/// In pixels.
const WIDTH: i64 = 780;
const MARGIN: i64 = 28;
const COLUMNS: usize = 3;
const COLUMN_GAP: i64 = 32;
/// Letters in a line of a sentence, and of a note.
const LETTERS: usize = 108;
const SMALL_LETTERS: usize = 128;

/// The verdict's line, and the sums and changes as bars.
pub fn of_figures(title: &str, sentence: &str, figures: &Figures) -> String {
    let mut sheet = Sheet { inside: String::new(), top: MARGIN };
    sheet.write("title", &[title.to_string()]);
    sheet.top += 6;
    sheet.write("words", &wrapped(sentence, LETTERS));
    verdict_lines(figures).iter().for_each(|line| sheet.spread(std::slice::from_ref(line), 1));
    let mut panels = vec![sums(figures)];
    panels.extend(changes(&figures.currencies));
    panels.chunks(COLUMNS).for_each(|row| sheet.spread(row, COLUMNS));
    sheet.top += 6;
    [HOW_TO_READ_LINE, HOW_TO_READ_BARS].iter().for_each(|note| sheet.write("small", &wrapped(note, SMALL_LETTERS)));
    sheet.alone(title, sentence)
}

/// The text of a terminal, where there are no figures to draw.
pub fn of_text(title: &str, text: &str) -> String {
    let mut sheet = Sheet { inside: String::new(), top: MARGIN };
    let lines: Vec<String> = text.lines().map(str::to_string).collect();
    sheet.write("typed", &lines);
    sheet.alone(title, "")
}

/// What is drawn so far, and where the next goes.
struct Sheet {
    inside: String,
    top: i64,
}

impl Sheet {
    fn write(&mut self, class: &str, lines: &[String]) {
        for line in lines {
            self.top += 17;
            self.inside += &format!(
                "<text class=\"{class}\" xml:space=\"preserve\" x=\"{MARGIN}\" y=\"{}\">{}</text>\n",
                self.top,
                escaped(line)
            );
        }
    }

    /// Pictures beside each other in so many columns, each with its title above it.
    fn spread(&mut self, pictures: &[Picture], columns: usize) {
        let columns = columns as i64;
        let column = (WIDTH - 2 * MARGIN - (columns - 1) * COLUMN_GAP) / columns;
        self.top += 28;
        for (picture, left) in pictures.iter().zip((0..).map(|index| MARGIN + index * (column + COLUMN_GAP))) {
            let (top, title) = (self.top, escaped(&picture.title));
            self.inside += &format!("<text class=\"strong\" x=\"{left}\" y=\"{top}\">{title}</text>\n");
            self.inside += &picture.placed(left, top + 8, column);
        }
        self.top += 8 + pictures.iter().map(|picture| picture.height).max().unwrap_or_default();
    }

    fn alone(self, title: &str, description: &str) -> String {
        let (height, title, description) = (self.top + MARGIN, escaped(title), escaped(description));
        format!(
            "<svg xmlns=\"http://www.w3.org/2000/svg\" width=\"{WIDTH}\" height=\"{height}\" \
             viewBox=\"0 0 {WIDTH} {height}\" role=\"img\">\n<title>{title}</title>\n<desc>{description}</desc>\n\
             <style>\n{DRAWN}</style>\n<rect width=\"{WIDTH}\" height=\"{height}\" fill=\"#fff\"/>\n{}</svg>\n",
            self.inside
        )
    }
}

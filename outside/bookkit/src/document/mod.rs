//! A report as sections of sentences, tables and pictures, before it is written for a terminal or as a page.

mod markup;
mod page;
mod table;
mod terminal;
mod wrap;

pub use markup::{element, escaped};
pub use page::{caption, page, shell};
pub use terminal::{terminal, WIDTH};
pub use wrap::wrapped;

use crate::draw::Picture;

pub struct Document {
    pub title: String,
    /// A word for the outcome, by which a page dresses it.
    pub outcome: &'static str,
    /// What binds each printed sheet to its input.
    pub digest: Option<String>,
    pub sections: Vec<Section>,
}

pub struct Section {
    /// What links lead to, within a page.
    pub anchor: String,
    pub title: String,
    pub parts: Vec<Part>,
}

pub enum Part {
    Sentence(String),
    List(Vec<String>),
    Table(Table),
    /// A terminal shows none of them: each has its table. The note says how to read them.
    Pictures {
        pictures: Vec<Picture>,
        laid: Laid,
        note: String,
    },
}

#[derive(Clone, Copy, PartialEq, Eq)]
pub enum Laid {
    Stacked,
    SideBySide,
}

pub struct Table {
    pub caption: String,
    pub columns: Vec<Column>,
    /// The first cell is the row's head.
    pub rows: Vec<Vec<String>>,
}

pub struct Column {
    pub head: String,
    pub holds: Holds,
}

#[derive(Clone, Copy, PartialEq, Eq)]
pub enum Holds {
    Figures,
    /// A few words, which stay on one line.
    Words,
    /// Anything longer, which is broken where there is no room.
    Sentences,
}

impl Section {
    pub fn new(anchor: &str, title: &str, parts: Vec<Part>) -> Section {
        Section { anchor: anchor.to_string(), title: title.to_string(), parts }
    }
}

impl Part {
    pub fn sentence(text: &str) -> Part {
        Part::Sentence(text.to_string())
    }

    pub fn pictures(pictures: Vec<Picture>, laid: Laid, note: &str) -> Part {
        Part::Pictures { pictures, laid, note: note.to_string() }
    }
}

impl Column {
    pub fn figures(head: impl Into<String>) -> Column {
        Column { head: head.into(), holds: Holds::Figures }
    }

    pub fn words(head: impl Into<String>) -> Column {
        Column { head: head.into(), holds: Holds::Words }
    }

    pub fn sentences(head: impl Into<String>) -> Column {
        Column { head: head.into(), holds: Holds::Sentences }
    }
}

//! The few shapes that pictures are made of. Across, places are hundredths of a per cent of the width, so that letters keep
//! their size on a phone and on a sheet; down, they are tenths of a pixel.

use super::scale::WHOLE;
use crate::document::escaped;

/// A class of the style sheet.
pub type Class = &'static str;
pub type Point = (i64, i64);

/// A row of letters that stands under or above a mark ends within the picture, wherever the mark is, if it takes no more than
/// two thirds of the width.
#[derive(Clone, Copy)]
pub enum Anchor {
    Start,
    Middle,
    End,
}

impl Anchor {
    pub fn near(across: i64) -> Anchor {
        match 3 * across / WHOLE {
            0 => Anchor::Start,
            1 => Anchor::Middle,
            _ => Anchor::End,
        }
    }

    fn word(self) -> &'static str {
        match self {
            Anchor::Start => "start",
            Anchor::Middle => "middle",
            Anchor::End => "end",
        }
    }
}

pub fn across(place: i64) -> String {
    format!("{}.{:02}%", place / 100, place % 100)
}

pub fn down(place: i64) -> String {
    format!("{}.{}", place / 10, place % 10)
}

pub fn rectangle(class: Class, (left, top): Point, width: i64, height: i64) -> String {
    format!(
        "<rect class=\"{class}\" x=\"{}\" y=\"{}\" width=\"{}\" height=\"{}\"/>\n",
        across(left),
        down(top),
        across(width),
        down(height)
    )
}

/// A round spot, its radius in pixels.
pub fn spot(class: Class, (left, top): Point, radius: i64) -> String {
    format!("<circle class=\"{class}\" cx=\"{}\" cy=\"{}\" r=\"{radius}\"/>\n", across(left), down(top))
}

pub fn line(class: Class, from: Point, to: Point) -> String {
    format!(
        "<line class=\"{class}\" x1=\"{}\" y1=\"{}\" x2=\"{}\" y2=\"{}\"/>\n",
        across(from.0),
        down(from.1),
        across(to.0),
        down(to.1)
    )
}

pub fn text(class: Class, (left, bottom): Point, anchor: Anchor, words: &str) -> String {
    format!(
        "<text class=\"{class}\" x=\"{}\" y=\"{}\" text-anchor=\"{}\">{}</text>\n",
        across(left),
        down(bottom),
        anchor.word(),
        escaped(words)
    )
}

/// Letters that run upwards and end at the place. Only a picture of its own can be turned about a place in per cent.
pub fn upright_text(class: Class, (left, top): Point, words: &str) -> String {
    format!(
        "<svg x=\"{}\" y=\"{}\" overflow=\"visible\"><text class=\"{class}\" x=\"0\" y=\"4\" text-anchor=\"end\" \
         transform=\"rotate(-90)\">{}</text></svg>\n",
        across(left),
        down(top),
        escaped(words)
    )
}

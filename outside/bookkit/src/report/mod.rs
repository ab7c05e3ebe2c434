//! A return for the one who signs it and the one who inspects it: for a terminal, as a page, as a picture.

mod accepted;
mod changes;
mod ladders;
mod records;
mod turned_down;
mod verdict;

use crate::assessed::{Assessed, Outcome};
use crate::document::{page, terminal};
use crate::draw;

#[derive(Clone, Copy, PartialEq, Eq)]
pub enum Form {
    Terminal,
    Page,
    Picture,
}

pub fn report(assessed: &Assessed, form: Form) -> String {
    let document = match &assessed.outcome {
        Outcome::Accepted(figures) => accepted::document(assessed, figures, form),
        Outcome::Refused(finding) => turned_down::document(assessed, finding),
    };
    match (form, &assessed.outcome) {
        (Form::Terminal, _) => terminal(&document),
        (Form::Page, _) => page(&document),
        (Form::Picture, Outcome::Accepted(figures)) => {
            draw::of_figures(&document.title, &verdict::sentences(figures).join(" "), figures)
        }
        (Form::Picture, Outcome::Refused(_)) => draw::of_text(&document.title, &terminal(&document)),
    }
}

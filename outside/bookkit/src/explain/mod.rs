//! What each refusal number means, what its place is, what to look at and what usually causes it.

mod explanations;

use explanations::EXPLANATIONS;

pub struct Explanation {
    number: u8,
    /// What it is called, then a colon and what it says.
    pub meaning: &'static str,
    pub place: &'static str,
    pub look_at: &'static str,
    pub causes: &'static [&'static str],
}

impl Explanation {
    /// What the number is called.
    pub fn called(&self) -> &'static str {
        self.meaning.split(':').next().unwrap_or_default()
    }
}

/// Nothing for a number that is none.
pub fn explanation(number: u8) -> Option<&'static Explanation> {
    EXPLANATIONS.iter().find(|explanation| explanation.number == number)
}

/// What a refusal number means; nothing for a number that is none.
pub fn explain(number: u8) -> Option<String> {
    let found = explanation(number)?;
    let Explanation { meaning, place, look_at, causes, .. } = found;
    let causes: String = causes.iter().map(|cause| format!("- {cause}\n")).collect();
    Some(format!("{number}: {meaning}\nIts place: {place}.\n{look_at}\nWhat usually causes it:\n{causes}"))
}

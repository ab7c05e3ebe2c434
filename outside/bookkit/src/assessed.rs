//! A return: an input, and what `irdetail` printed for it.

use crate::detail::{read, Detail, Figures, Refused};
use crate::refused::Finding;
use crate::source::Source;
use crate::walk::whole_records;

pub struct Assessed {
    pub source: Source,
    pub(crate) outcome: Outcome,
}

pub(crate) enum Outcome {
    Accepted(Box<Figures>),
    Refused(Finding),
}

impl Assessed {
    /// Takes apart what `irdetail` printed, or says on one line why it cannot have printed that for this input.
    pub fn of(source: Source, printed: &str) -> Result<Assessed, String> {
        let outcome = match read(printed)? {
            Detail::Accepted(figures) => {
                agrees(&figures, &source)?;
                Outcome::Accepted(figures)
            }
            Detail::Refused(refused) => {
                let misplaced = || format!("R {} {} does not fit this input", refused.number, refused.place);
                Outcome::Refused(Finding::of(refused, &source).ok_or_else(misplaced)?)
            }
        };
        Ok(Assessed { source, outcome })
    }

    /// Number and place of the refusal and what it is called, where the book was turned down.
    pub fn refusal(&self) -> Option<(Refused, &'static str)> {
        match &self.outcome {
            Outcome::Accepted(_) => None,
            Outcome::Refused(finding) => Some((finding.refused, finding.called())),
        }
    }
}

/// Figures of another input would be wrong without looking so.
fn agrees(figures: &Figures, source: &Source) -> Result<(), String> {
    if source.capital() != u64::try_from(figures.capital).ok() {
        return Err("T is not the capital of this input".to_string());
    }
    if whole_records(source.book()).len() as i64 != figures.records {
        return Err("N is not how many records this input has".to_string());
    }
    Ok(())
}

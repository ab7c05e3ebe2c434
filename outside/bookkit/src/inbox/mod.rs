//! The returns of a folder, worst first.

mod index;
mod list;
mod table;

pub use index::{index, page_name};
pub use list::list;
pub use table::table;

use crate::assessed::{Assessed, Outcome};
use crate::detail::{Figures, Verdict};
use crate::hints::hints;
use crate::plain::plain;
use crate::refused::Finding;
use std::cmp::Reverse;

/// One file of the folder.
pub struct Entry {
    /// As the folder has it; it need not be UTF-8.
    pub name: Vec<u8>,
    /// Or why it could not be read.
    pub read: Result<Assessed, String>,
}

/// What became of a return, the worst first.
#[derive(Clone, Copy, Debug, PartialEq, Eq, PartialOrd, Ord)]
pub enum Group {
    Over,
    TurnedDown,
    NotRead,
    Close,
    Within,
}

const GROUPS: [Group; 5] = [Group::Over, Group::TurnedDown, Group::NotRead, Group::Close, Group::Within];

impl Group {
    pub fn words(self) -> &'static str {
        match self {
            Group::Over => "over",
            Group::TurnedDown => "turned down",
            Group::NotRead => "not read",
            Group::Close => "close",
            Group::Within => "within",
        }
    }
}

/// What an entry's row shows in place of a verdict's figures, or the figures.
pub(crate) enum Told<'a> {
    Figures(&'a Figures),
    Refused(&'a Finding),
    NotRead(&'a str),
}

impl Entry {
    pub(crate) fn told(&self) -> Told<'_> {
        match &self.read {
            Err(why) => Told::NotRead(why),
            Ok(Assessed { outcome: Outcome::Refused(finding), .. }) => Told::Refused(finding),
            Ok(Assessed { outcome: Outcome::Accepted(figures), .. }) => Told::Figures(figures),
        }
    }

    pub fn group(&self) -> Group {
        match self.told() {
            Told::NotRead(_) => Group::NotRead,
            Told::Refused(_) => Group::TurnedDown,
            Told::Figures(figures) => match figures.verdict {
                Verdict::Over => Group::Over,
                Verdict::Close => Group::Close,
                Verdict::Within => Group::Within,
            },
        }
    }

    /// The name, fit to be printed.
    pub fn shown(&self) -> String {
        plain(&self.name)
    }

    pub(crate) fn hints(&self) -> usize {
        self.read.as_ref().map_or(0, |assessed| hints(assessed).len())
    }

    fn share(&self) -> Option<i64> {
        match self.told() {
            Told::Figures(figures) => Some(figures.share),
            _ => None,
        }
    }

    /// Why there are no figures, in words; nothing where there are.
    pub(crate) fn why(&self) -> Option<String> {
        match self.told() {
            Told::Figures(_) => None,
            Told::NotRead(why) => Some(why.to_string()),
            Told::Refused(finding) => {
                let plainly = self.read.as_ref().ok().and_then(|assessed| assessed.source.plainly.as_ref());
                let plainly = plainly.map_or(String::new(), |what| format!("; {what}"));
                let refused = finding.refused;
                Some(format!("refusal {} at place {}, {}{plainly}", refused.number, refused.place, finding.called()))
            }
        }
    }
}

/// Worst first: by what became of them, then by the greatest share, then by name.
pub fn sort(entries: &mut [Entry]) {
    entries.sort_by(|one, other| {
        let key = |entry: &Entry| (entry.group(), Reverse(entry.share()));
        key(one).cmp(&key(other)).then_with(|| one.name.cmp(&other.name))
    });
}

/// How many there are of each. What was not read is only counted where there is some.
pub fn count(entries: &[Entry]) -> String {
    let of = |group: Group| entries.iter().filter(|entry| entry.group() == group).count();
    let named = GROUPS.iter().filter(|group| **group != Group::NotRead || of(**group) > 0);
    let counts: Vec<String> = named.map(|group| format!("{} {}", of(*group), group.words())).collect();
    let returns = if entries.len() == 1 { "1 return" } else { &format!("{} returns", entries.len()) };
    format!("{returns}: {}\n", counts.join(", "))
}

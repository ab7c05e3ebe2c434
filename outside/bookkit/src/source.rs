//! An input as it came: its name, its bytes, and what tells it from another.

use crate::figure::grouped;
use crate::sha256::sha256;
use reference::{split_input, CAPITAL_BYTES, LONGEST_BOOK};

/// No more of an input matters: `irdetail` turns a longer one down.
pub const LONGEST_INPUT: usize = CAPITAL_BYTES + LONGEST_BOOK;

pub struct Source {
    /// The file's own name, fit to be printed, without the folders before it.
    pub name: String,
    /// One byte more than the longest input where there are more.
    pub bytes: Vec<u8>,
    /// What it plainly is, where that is something else than an input.
    pub plainly: Option<String>,
}

impl Source {
    /// The book; of an input that is too short for capital, nothing.
    pub fn book(&self) -> &[u8] {
        split_input(&self.bytes).map_or(&[], |(_, book)| book)
    }

    pub fn capital(&self) -> Option<u64> {
        split_input(&self.bytes).map(|(capital, _)| capital)
    }

    pub fn is_too_long(&self) -> bool {
        self.bytes.len() > LONGEST_INPUT
    }

    pub fn size(&self) -> String {
        match self.is_too_long() {
            true => format!("more than {} bytes", grouped(LONGEST_INPUT as i64)),
            false => format!("{} bytes", grouped(self.bytes.len() as i64)),
        }
    }

    /// Nothing for an input that was not read to its end.
    pub fn digest(&self) -> Option<String> {
        (!self.is_too_long()).then(|| sha256(&self.bytes))
    }
}

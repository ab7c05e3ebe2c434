//! Books for people: a text form that can be read and written, refusal numbers in words, and returns as reports.

mod assessed;
mod detail;
mod document;
mod draw;
mod explain;
mod figure;
mod hints;
mod inbox;
mod make;
mod plain;
mod recognise;
mod refused;
mod report;
mod sha256;
mod show;
mod source;
mod trade;
mod values;
mod walk;

pub use assessed::Assessed;
pub use detail::Refused;
pub use explain::explain;
pub use hints::hints;
pub use inbox::{count, index, list, page_name, sort, table, Entry, Group};
pub use make::{make, BadLine};
pub use plain::{plain, quoted};
pub use recognise::{something_else, Wanted};
pub use report::{report, Form};
pub use sha256::sha256;
pub use show::{show_book, show_input, Listing};
pub use source::{Source, LONGEST_INPUT};

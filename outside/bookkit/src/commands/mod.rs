//! The commands: what is read, what is written, and with which status it ends.

mod inbox;
mod report;
mod text;

pub use inbox::{inbox, inbox_list, inbox_pages};
pub use report::report;
pub use text::{explained, make_into, print, show};

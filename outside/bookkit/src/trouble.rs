//! What goes wrong.

/// The line for standard error, unless nobody listens any more, and the status.
pub struct Trouble {
    pub why: Option<String>,
    pub status: u8,
}

pub fn not_done(why: String) -> Trouble {
    Trouble { why: Some(why), status: 2 }
}

/// Done, but the book is turned down.
pub fn turned_down(why: Option<String>) -> Trouble {
    Trouble { why, status: 1 }
}

//! Books as text, and refusal numbers in words.

use crate::files;
use crate::trouble::{not_done, turned_down, Trouble};
use bookkit::{explain, make, quoted, show_book, show_input, something_else, BadLine, Wanted, LONGEST_INPUT};
use reference::LONGEST_BOOK;
use std::ffi::OsStr;

/// Far above any text that a book of 65,528 bytes has; comments may take the rest.
const LONGEST_TEXT: usize = 16 << 20;

pub fn show(path: &OsStr, wanted: Wanted) -> Result<(), Trouble> {
    let name = files::name(path);
    let (most, show): (usize, fn(&[u8]) -> bookkit::Listing) = match wanted {
        Wanted::Input => (LONGEST_INPUT, show_input),
        _ => (LONGEST_BOOK, show_book),
    };
    let bytes = read(path, wanted, most)?;
    if bytes.len() > most {
        let why = format!("{name}: irreport would print R 17 0: there are more than {most} bytes; none are listed");
        return Err(turned_down(Some(why)));
    }
    let listing = show(&bytes);
    let heard = files::print(listing.text.as_bytes()).map_err(not_done)?;
    let Some(refusal) = listing.refusal else { return Ok(()) };
    let why = format!("{name}: irreport would print R {} {}: {}", refusal.number, refusal.place, refusal.because);
    Err(turned_down(heard.then_some(why)))
}

/// The bytes of a file, which must not plainly be something else than is wanted.
fn read(path: &OsStr, wanted: Wanted, most: usize) -> Result<Vec<u8>, Trouble> {
    let bytes = files::read(path, most).map_err(not_done)?;
    match something_else(&bytes, wanted) {
        None => Ok(bytes),
        Some(what) => Err(not_done(format!("{}: {what}", files::name(path)))),
    }
}

pub fn make_into(path: &OsStr, output: &OsStr) -> Result<(), Trouble> {
    let name = files::name(path);
    if files::same(path, output) {
        return Err(not_done(format!("{name}: the book would take the place of its text")));
    }
    let text = read(path, Wanted::Text, LONGEST_TEXT)?;
    if text.len() > LONGEST_TEXT {
        return Err(not_done(format!(
            "{name}: there are more than {LONGEST_TEXT} bytes, too many for the text of a book"
        )));
    }
    let book = make(&text).map_err(|BadLine { line, why }| not_done(format!("{name}: line {line}: {why}")))?;
    files::write(output, &book).map(|_| ()).map_err(not_done)
}

pub fn explained(number: &str) -> Result<(), Trouble> {
    let text = number.parse().ok().and_then(explain);
    let text = text.ok_or_else(|| not_done(format!("{} is no refusal number; they are 1 to 20", quoted(number))))?;
    print(&text)
}

pub fn print(text: &str) -> Result<(), Trouble> {
    files::print(text.as_bytes()).map(|_| ()).map_err(not_done)
}

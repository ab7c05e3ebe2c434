//! The returns of a folder.

use super::report::assess;
use crate::files;
use crate::irdetail::Program;
use crate::trouble::{not_done, turned_down, Trouble};
use bookkit::{count, index, list, page_name, plain, report, sort, table, Entry, Form, Group, LONGEST_INPUT};
use std::ffi::{OsStr, OsString};
use std::io::Write;
use std::os::unix::ffi::{OsStrExt, OsStringExt};
use std::path::Path;

const ENDING: &[u8] = b".input";

pub fn inbox(directory: &OsStr) -> Result<(), Trouble> {
    let entries = entries(directory)?;
    files::print(table(&entries).as_bytes()).map_err(not_done)?;
    ended(&entries)
}

pub fn inbox_list(directory: &OsStr, output: &OsStr) -> Result<(), Trouble> {
    let entries = entries(directory)?;
    let is_output = |entry: &&Entry| files::same(&within(directory, entry.name.clone()), output);
    if let Some(entry) = entries.iter().find(is_output) {
        return Err(not_done(format!("{}: the list would take the place of this input", entry.shown())));
    }
    files::write(output, list(&entries).as_bytes()).map_err(not_done)?;
    counted(&entries)
}

/// The index comes last: then each of its links leads to a page.
pub fn inbox_pages(directory: &OsStr, folder: &OsStr) -> Result<(), Trouble> {
    let entries = entries(directory)?;
    files::make_folder(folder).map_err(not_done)?;
    for entry in &entries {
        if let Ok(assessed) = &entry.read {
            let page = report(assessed, Form::Page);
            files::write(&within(folder, page_name(&entry.name)), page.as_bytes()).map_err(not_done)?;
        }
    }
    files::write(&within(folder, b"index.html".to_vec()), index(&entries).as_bytes()).map_err(not_done)?;
    counted(&entries)
}

fn within(folder: &OsStr, name: Vec<u8>) -> OsString {
    Path::new(folder).join(OsString::from_vec(name)).into_os_string()
}

/// Standard output, or the folder, has the rest.
fn counted(entries: &[Entry]) -> Result<(), Trouble> {
    // Where standard error is gone, the status is all that can be said.
    let _ = std::io::stderr().write_all(count(entries).as_bytes());
    ended(entries)
}

/// The rows and the count have said what could not be read: there is no further line.
fn ended(entries: &[Entry]) -> Result<(), Trouble> {
    match entries.iter().any(|entry| entry.group() == Group::NotRead) {
        true => Err(turned_down(None)),
        false => Ok(()),
    }
}

/// Every `.input` of the folder, worst first.
fn entries(directory: &OsStr) -> Result<Vec<Entry>, Trouble> {
    let names = files::names_in(directory).map_err(not_done)?;
    let program = Program::find();
    let inputs = names.into_iter().filter(|name| name.as_bytes().ends_with(ENDING));
    let entries: Result<Vec<Entry>, String> = inputs.map(|name| entry(&program, directory, name)).collect();
    let mut entries = entries.map_err(not_done)?;
    sort(&mut entries);
    Ok(entries)
}

/// A file that cannot be read has its row; a program that cannot be used ends it all.
fn entry(program: &Program, directory: &OsStr, name: OsString) -> Result<Entry, String> {
    let shown = plain(name.as_bytes());
    let read = match files::read_entry(&Path::new(directory).join(&name), LONGEST_INPUT) {
        Ok(bytes) => Ok(assess(program, shown, bytes)?),
        Err(why) => Err(why),
    };
    Ok(Entry { name: name.into_vec(), read })
}

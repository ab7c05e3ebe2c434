//! One return.

use crate::files;
use crate::irdetail::Program;
use crate::trouble::{not_done, turned_down, Trouble};
use bookkit::{report as written, something_else, Assessed, Form, Source, Wanted, LONGEST_INPUT};
use std::ffi::OsStr;

pub fn report(path: &OsStr, form: Form, output: &OsStr) -> Result<(), Trouble> {
    let name = files::name(path);
    if files::same(path, output) {
        return Err(not_done(format!("{name}: the report would take the place of its input")));
    }
    let bytes = files::read(path, LONGEST_INPUT).map_err(not_done)?;
    let assessed = assess(&Program::find(), files::own_name(path), bytes).map_err(not_done)?;
    let heard = files::write(output, written(&assessed, form).as_bytes()).map_err(not_done)?;
    let Some((refused, called)) = assessed.refusal() else { return Ok(()) };
    let why = format!("{name}: irdetail printed R {} {}: {called}", refused.number, refused.place);
    Err(turned_down(heard.then_some(why)))
}

/// What the program printed for these bytes, taken apart.
pub fn assess(program: &Program, name: String, bytes: Vec<u8>) -> Result<Assessed, String> {
    let printed = program.printed(&bytes)?;
    let plainly = something_else(&bytes, Wanted::Input);
    let of = format!("{} printed for {name}", program.name());
    let misprinted = |why| format!("what {of} is not what irdetail prints: {why}");
    Assessed::of(Source { name, bytes, plainly }, &printed).map_err(misprinted)
}

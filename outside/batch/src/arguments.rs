//! What was asked for: the inputs to report.

use crate::folder;
use crate::report::is_input;
use crate::shown;
use std::ffi::{OsStr, OsString};
use std::fs;
use std::io::{self, Read};
use std::os::unix::ffi::OsStringExt;
use std::path::{Path, PathBuf};

pub enum Wanted {
    Help,
    Inputs { inputs: Vec<PathBuf>, not_looked_at: Option<String> },
}

/// A part of a list for one of many tasks: of every `of` inputs the one at `place`, counted from 1.
struct Share {
    place: usize,
    of: usize,
}

const USAGE: &str = "a directory or .input files are wanted";
const LIST_USAGE: &str = "--list FILE or --list FILE --share K/N is wanted";

/// A name that ends in `.input` is an input whatever it leads to; a folder that is called so can be named with a slash.
pub fn wanted(words: &[OsString]) -> Result<Wanted, String> {
    let texts: Vec<&str> = words.iter().map(|word| word.to_str().unwrap_or_default()).collect();
    match texts[..] {
        [] => Err(USAGE.to_string()),
        ["--help" | "-h"] => Ok(Wanted::Help),
        ["--list", _] => listed(&words[1], &Share { place: 1, of: 1 }),
        ["--list", _, "--share", share] => listed(&words[1], &Share::of(share)?),
        ["--list" | "--share", ..] => Err(LIST_USAGE.to_string()),
        [_] if !is_input(Path::new(&words[0])) && Path::new(&words[0]).is_dir() => of_folder(Path::new(&words[0])),
        _ => named(words.iter().map(PathBuf::from).collect()),
    }
}

fn of_folder(path: &Path) -> Result<Wanted, String> {
    let folder = folder::list(path)?;
    let not_looked_at = folder.not_looked_at();
    if folder.inputs.is_empty() {
        let besides = not_looked_at.map(|what| format!(", but {what}")).unwrap_or_default();
        return Err(format!("{} has no .input files{besides}", shown::name(path)));
    }
    let not_looked_at = not_looked_at.map(|what| format!("not looked at in {}: {what}", shown::name(path)));
    Ok(Wanted::Inputs { inputs: folder.inputs, not_looked_at })
}

fn named(inputs: Vec<PathBuf>) -> Result<Wanted, String> {
    match inputs.iter().find(|input| !is_input(input)) {
        None => Ok(Wanted::Inputs { inputs, not_looked_at: None }),
        Some(other) if fs::symlink_metadata(other).is_err() => Err(format!("{} is not there", shown::name(other))),
        Some(other) if other.is_dir() => {
            Err(format!("{} is a folder, which has to be given alone", shown::name(other)))
        }
        Some(other) => Err(format!("{} is no .input file", shown::name(other))),
    }
}

/// Each name ends with a NUL byte, which no name can hold. An empty one is what `printf '%s\0'` makes of no names.
fn listed(list: &OsStr, share: &Share) -> Result<Wanted, String> {
    let bytes = read(list).map_err(|error| format!("{} cannot be read: {error}", shown::name(Path::new(list))))?;
    let names = bytes.split(|byte| *byte == 0).filter(|name| !name.is_empty());
    let inputs: Vec<PathBuf> = names.map(|name| PathBuf::from(OsString::from_vec(name.to_vec()))).collect();
    if let Some(other) = inputs.iter().find(|input| !is_input(input)) {
        let other = shown::name(other);
        return Err(format!(
            "{other} is no .input file; each name of a list ends with a NUL byte, as find -print0 has it"
        ));
    }
    let inputs = inputs.into_iter().skip(share.place - 1).step_by(share.of).collect();
    Ok(Wanted::Inputs { inputs, not_looked_at: None })
}

fn read(list: &OsStr) -> io::Result<Vec<u8>> {
    if list != "-" {
        return fs::read(list);
    }
    let mut bytes = Vec::new();
    io::stdin().read_to_end(&mut bytes)?;
    Ok(bytes)
}

impl Share {
    fn of(text: &str) -> Result<Share, String> {
        let numbers = text.split_once('/').and_then(|(place, of)| Some((place.parse().ok()?, of.parse().ok()?)));
        match numbers {
            Some((place, of)) if 1 <= place && place <= of => Ok(Share { place, of }),
            _ => Err(format!("{} is no share; 3/100 is the third of a hundred", shown::text(text.as_bytes()))),
        }
    }
}

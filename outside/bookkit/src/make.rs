//! From the text form to bytes.

use crate::plain::quoted;
use crate::values;
use reference::{Kind, Record, CAPITAL_BYTES, KINDS, LONGEST_BOOK};

/// What is wrong with a text, and in which line (from 1).
#[derive(Debug, PartialEq, Eq)]
pub struct BadLine {
    pub line: usize,
    pub why: String,
}

/// The bytes that the text stands for: an input of `irreport` if it names capital, else a book. Neither is made longer
/// than `irreport` takes it.
pub fn make(text: &[u8]) -> Result<Vec<u8>, BadLine> {
    let mut bytes = Vec::new();
    let mut begun = false;
    let mut most = LONGEST_BOOK;
    for (index, line) in text.split(|byte| *byte == b'\n').enumerate() {
        let bad = |why| BadLine { line: index + 1, why };
        let line = std::str::from_utf8(line).map_err(|_| bad("this is not text (UTF-8)".to_string()))?;
        let statement = line.split('#').next().unwrap_or_default();
        let mut words = statement.split_whitespace();
        let Some(first) = words.next() else { continue };
        let made = match first {
            "capital" => {
                most += CAPITAL_BYTES;
                capital(words.collect(), begun)
            }
            "raw" => raw(words.collect()),
            name => record(name, words.collect()),
        };
        bytes.extend(made.map_err(bad)?);
        if bytes.len() > most {
            return Err(bad(format!(
                "here the book grows above {LONGEST_BOOK} bytes, and irreport would print R 17 0"
            )));
        }
        begun = true;
    }
    Ok(bytes)
}

fn capital(words: Vec<&str>, begun: bool) -> Result<Vec<u8>, String> {
    if begun {
        return Err("capital comes once, before everything else".to_string());
    }
    match words[..] {
        [number] => {
            let wrong = || format!("capital takes a whole number from 0 to {}, not {}", u64::MAX, quoted(number));
            Ok(number.parse::<u64>().map_err(|_| wrong())?.to_be_bytes().to_vec())
        }
        _ => Err("capital takes one number".to_string()),
    }
}

fn raw(words: Vec<&str>) -> Result<Vec<u8>, String> {
    let wrong = |word: &str| format!("raw takes bytes of two hexadecimal digits, not {}", quoted(word));
    if words.is_empty() {
        return Err(wrong(""));
    }
    words.iter().map(|word| values::hexadecimal(word).ok_or_else(|| wrong(word))).collect()
}

fn record(name: &str, words: Vec<&str>) -> Result<Vec<u8>, String> {
    let kind = KINDS.iter().find(|kind| kind.name == name).ok_or_else(|| {
        let names: Vec<&str> = KINDS.iter().map(|kind| kind.name).collect();
        let names = names.join(", ");
        format!("{} is no record; records are {names}; besides there are capital and raw", quoted(name))
    })?;
    let items = items(kind, &words)?;
    let mut numbers = Vec::new();
    for field in kind.fields {
        let named: Vec<&str> = items.iter().filter(|(name, _)| *name == field.name).map(|(_, text)| *text).collect();
        match named[..] {
            [text] => numbers.extend(values::read(kind, field, text)?),
            [] => return Err(format!("{} lacks {}", kind.name, field.name)),
            _ => return Err(format!("{} has {} twice", kind.name, field.name)),
        }
    }
    Ok(Record::new(kind, numbers).bytes())
}

/// The `field=value` items of a line; each has to name a field of the kind.
fn items<'a>(kind: &Kind, words: &[&'a str]) -> Result<Vec<(&'a str, &'a str)>, String> {
    let fields: Vec<&str> = kind.fields.iter().map(|field| field.name).collect();
    let item = |word: &&'a str| match word.split_once('=') {
        Some((name, text)) if fields.contains(&name) => Ok((name, text)),
        _ => {
            let (first, all) = (fields[0], fields.join(", "));
            Err(format!("{} takes items like {first}=..., of {all}, not {}", kind.name, quoted(word)))
        }
    };
    words.iter().map(item).collect()
}

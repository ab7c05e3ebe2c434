//! How the numbers of a field stand in the text form, and how they are read back.

use crate::plain::quoted;
use reference::{Code, Field, Item, Kind};

const NIL: &str = "nil";

/// The words for sides 1 and 2.
fn side_words(kind: &Kind) -> [&'static str; 2] {
    if kind.number == 7 {
        ["sold", "bought"]
    } else {
        ["asset", "liability"]
    }
}

pub fn written(kind: &Kind, field: &Field, values: &[i64]) -> String {
    match (field.item, values) {
        (Item::Side, [side @ 1..=2]) => side_words(kind)[*side as usize - 1].to_string(),
        (Item::Code, [number]) => written_code(Code::of_number(*number)),
        (_, [value]) => value.to_string(),
        _ => written_list(values),
    }
}

/// Letters and digits as they are; where any other byte is among the three, all of them in hexadecimal, as 45:55:20.
fn written_code(Code(bytes): Code) -> String {
    if bytes.iter().all(u8::is_ascii_alphanumeric) {
        bytes.iter().map(|byte| char::from(*byte)).collect()
    } else {
        bytes.map(|byte| format!("{byte:02x}")).join(":")
    }
}

/// Runs of equal numbers as `first-last:value`, counted from 1; what is not named is nil.
fn written_list(values: &[i64]) -> String {
    let mut runs = Vec::new();
    let mut first = 1;
    for run in values.chunk_by(|left, right| left == right) {
        let last = first + run.len() - 1;
        match run[0] {
            0 => {}
            value if first == last => runs.push(format!("{first}:{value}")),
            value => runs.push(format!("{first}-{last}:{value}")),
        }
        first = last + 1;
    }
    if runs.is_empty() {
        NIL.to_string()
    } else {
        runs.join(",")
    }
}

/// The numbers of a field, or what is wrong with the text.
pub fn read(kind: &Kind, field: &Field, text: &str) -> Result<Vec<i64>, String> {
    if field.times > 1 {
        return read_list(field, text);
    }
    match field.item {
        Item::Side => read_side(kind, field, text),
        Item::Code => Ok(vec![read_code(field, text)?.number()]),
        _ => Ok(vec![read_number(field, text)?]),
    }
}

fn read_code(field: &Field, text: &str) -> Result<Code, String> {
    let in_hexadecimal = || {
        let bytes: Option<Vec<u8>> = text.split(':').map(hexadecimal).collect();
        bytes?.try_into().ok()
    };
    let as_it_is = || text.bytes().all(|byte| byte.is_ascii_alphanumeric()).then(|| text.as_bytes().try_into().ok())?;
    as_it_is().or_else(in_hexadecimal).map(Code).ok_or_else(|| {
        let (name, text) = (field.name, quoted(text));
        format!("{name} takes three letters like EUR, or three bytes in hexadecimal like 45:55:52, not {text}")
    })
}

/// A byte of two hexadecimal digits.
pub fn hexadecimal(text: &str) -> Option<u8> {
    let digits = text.len() == 2 && text.bytes().all(|digit| digit.is_ascii_hexdigit());
    digits.then(|| u8::from_str_radix(text, 16).ok())?
}

fn read_side(kind: &Kind, field: &Field, text: &str) -> Result<Vec<i64>, String> {
    let words = side_words(kind);
    match words.iter().position(|word| *word == text) {
        Some(index) => Ok(vec![index as i64 + 1]),
        None if text.starts_with(|first: char| first.is_alphabetic()) => {
            Err(format!("side takes {} or {}, not {}", words[0], words[1], quoted(text)))
        }
        None => Ok(vec![read_number(field, text)?]),
    }
}

fn read_number(field: &Field, text: &str) -> Result<i64, String> {
    let (low, high) = field.item.bounds();
    let wrong = |_| format!("{} takes a whole number, not {}", field.name, quoted(text));
    let number: i128 = text.parse().map_err(wrong)?;
    match i64::try_from(number) {
        Ok(number) if (low..=high).contains(&number) => Ok(number),
        _ => Err(format!("{} cannot hold {number}: only {low} to {high} fit", field.name)),
    }
}

fn read_list(field: &Field, text: &str) -> Result<Vec<i64>, String> {
    let mut values = vec![None; field.times];
    for run in text.split(',').filter(|_| text != NIL) {
        let (range, value) = run.split_once(':').ok_or_else(|| {
            let (name, last, run) = (field.name, field.times, quoted(run));
            format!("{name} takes \"{NIL}\" or items like 3:500 or 1-{last}:500, not {run}")
        })?;
        let value = read_number(field, value)?;
        for index in read_range(field, range)? {
            if values[index].replace(value).is_some() {
                return Err(format!("{} names {} {} twice", field.name, field.counted_by(), index + 1));
            }
        }
    }
    Ok(values.into_iter().map(Option::unwrap_or_default).collect())
}

/// The places `first-last` or `first`, as indexes from 0.
fn read_range(field: &Field, text: &str) -> Result<std::ops::Range<usize>, String> {
    let (first, last) = text.split_once('-').unwrap_or((text, text));
    match (first.parse::<usize>(), last.parse::<usize>()) {
        (Ok(first), Ok(last)) if 1 <= first && first <= last && last <= field.times => Ok(first - 1..last),
        _ => {
            let (name, counted_by, last) = (field.name, field.counted_by(), field.times);
            Err(format!("{name} has {counted_by}s 1 to {last}, not {}", quoted(text)))
        }
    }
}

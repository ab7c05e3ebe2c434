//! From bytes to the text form. Everything but the records is a comment, which `make` passes over.

use crate::trade::{LISTED_CURVE, RECOLLECTED};
use crate::values;
use reference::{answer_input, shocks, split_input, step, Answer, Field, Record, Refusal, Request, Step};

const RAW_BYTES_IN_A_LINE: usize = 16;

pub struct Listing {
    pub text: String,
    /// Why `irreport` would turn the book down, if it would.
    pub refusal: Option<Refusal>,
}

/// The listing of a book without capital; capital is then no reason to turn it down.
pub fn show_book(book: &[u8]) -> Listing {
    listing(None, book, Request::roomy(book, 1).answer())
}

/// The listing of an input of `irreport`. One too short for capital is also too short for a record: all raw.
pub fn show_input(input: &[u8]) -> Listing {
    let answer = answer_input(input);
    match split_input(input) {
        Some((capital, book)) => listing(Some(capital), book, answer),
        None => listing(None, input, answer),
    }
}

fn listing(capital: Option<u64>, book: &[u8], answer: Answer) -> Listing {
    let refusal = match answer {
        Answer::Accepted(_) => None,
        Answer::Refused(refusal) => Some(refusal),
    };
    let found = refusal.as_ref().map(|refusal| (refusal.number, refusal.place));
    let mark = |here: bool| refusal.iter().filter(|_| here).map(marked).collect::<String>();
    let mut text = mark(matches!(found, Some((16..=18, _))));
    text.extend(capital.map(|capital| format!("capital {capital}\n")));
    let (mut place, mut count) = (0, 0);
    while let Step::Whole(record) = step(book, place) {
        let next = place + record.length();
        let at_fault = found.filter(|(number, at)| is_of_a_record(*number) && (place..next).contains(at));
        text += &mark(at_fault.is_some());
        text += &format!("{}  # place {place}{}\n", record_line(&record), remark(&record));
        text.extend(at_fault.and_then(|(_, at)| pointer(&record, place, at)));
        place = next;
        count += 1;
    }
    text += &mark(matches!(found, Some((1..=2, at)) if at == place));
    text += &raw_lines(&book[place..], place);
    text += &mark(matches!(found, Some((15, _))));
    Listing { text: summary(book.len(), count, found) + &text, refusal }
}

/// The others have no byte of the book for their place.
fn is_of_a_record(number: u8) -> bool {
    matches!(number, 1..=14 | 19..=20)
}

fn summary(length: usize, records: usize, refused: Option<(u8, usize)>) -> String {
    let fate = match refused {
        None => "accepts it".to_string(),
        Some((number, place)) => format!("turns it down with R {number} {place}, marked >>>"),
    };
    format!("# Bytes of book: {length}. Whole records: {records}. irreport {fate}.\n")
}

fn marked(refusal: &Refusal) -> String {
    let Refusal { number, place, because } = refusal;
    format!("# >>> R {number} {place}: {because}. More: bookkit explain {number}\n")
}

pub fn record_line(record: &Record) -> String {
    line_before(record, None)
}

/// What a listed curve does not say itself: the shocks that are used, and what to think of the second list.
fn remark(record: &Record) -> String {
    if record.kind.number != LISTED_CURVE {
        return String::new();
    }
    let used = shocks(record).map(|[parallel, short, long]| {
        format!("; its shocks, as listed: parallel {parallel}, short {short}, long {long}")
    });
    let doubt = (record.one("edition") == 2).then(|| format!("; {RECOLLECTED}"));
    used.unwrap_or_default() + &doubt.unwrap_or_default()
}

/// The line of a record, up to a field if one is named.
fn line_before(record: &Record, end: Option<&Field>) -> String {
    let fields = record.kind.fields.iter().take_while(|field| end.is_none_or(|end| end.name != field.name));
    fields.fold(record.kind.name.to_string(), |line, field| line + " " + &item(record, field))
}

fn item(record: &Record, field: &Field) -> String {
    format!("{}={}", field.name, values::written(record.kind, field, record.all(field.name)))
}

/// A line that marks the field at fault in the line above it; none where the record as a whole is at fault.
fn pointer(record: &Record, start: usize, place: usize) -> Option<String> {
    let (field, index) = record.kind.begins_at(place - start)?;
    let blanks = " ".repeat(line_before(record, Some(field)).len());
    let marks = "^".repeat(item(record, field).len());
    Some(format!("#{blanks}{marks} {}{}, place {place}\n", field.name, field.which(index)))
}

/// Bytes that make no whole record of a known kind.
fn raw_lines(bytes: &[u8], start: usize) -> String {
    let mut text = String::new();
    for (index, line) in bytes.chunks(RAW_BYTES_IN_A_LINE).enumerate() {
        let digits: String = line.iter().map(|byte| format!(" {byte:02x}")).collect();
        text += &format!("raw{digits}  # place {}\n", start + index * RAW_BYTES_IN_A_LINE);
    }
    text
}

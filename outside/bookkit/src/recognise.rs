//! What a file plainly is where it is not what is wanted: one line of words in place of hundreds of raw ones.

use reference::{split, split_input, Request, GREATEST_CAPITAL, KINDS};

/// What a command reads.
#[derive(Clone, Copy, PartialEq, Eq)]
pub enum Wanted {
    Book,
    Input,
    Text,
}

/// How files begin that people have beside their books.
const BEGINNINGS: [(&[u8], &str); 7] = [
    (b"%PDF-", "a PDF file"),
    (b"PK\x03\x04", "a zip file (today's spreadsheets and documents are such)"),
    (b"PK\x05\x06", "an empty zip file"),
    (b"\x1f\x8b", "a gzip file"),
    (b"\xd0\xcf\x11\xe0", "an old spreadsheet or document"),
    (b"\xff\xfe", "text in UTF-16"),
    (b"\xfe\xff", "text in UTF-16"),
];

/// So much of a file tells whether it is text.
const SEEN: usize = 4_096;

/// Says what the bytes are, if they plainly are something else. No good book and no good input is among them, for one of
/// the first three bytes of each does not stand in text: the 0 that capital begins with; a kind from 1 to 8; or, after kind
/// 9 or 10 (a tab, a newline) and any currency (32 is a blank), a side or an edition, 1 or 2. So the text of a book does
/// not begin with a record either.
pub fn something_else(bytes: &[u8], wanted: Wanted) -> Option<String> {
    let begins = BEGINNINGS.iter().find(|(beginning, _)| bytes.starts_with(beginning)).map(|(_, what)| *what);
    let found = begins.or_else(|| match wanted {
        Wanted::Book => sort_of_text(bytes).or_else(|| {
            is_input(bytes).then_some("an input of irreport, with its capital (bookkit show --input lists it)")
        }),
        Wanted::Input => sort_of_text(bytes).or_else(|| {
            let bare =
                "a book without its capital (bookkit show lists it; irreport wants capital in 8 bytes before it)";
            begins_with_a_record(bytes).then_some(bare)
        }),
        Wanted::Text => (begins_with_a_record(bytes) || is_input(bytes))
            .then_some("a book in bytes (bookkit show turns it into text)"),
    })?;
    let wanted = match wanted {
        Wanted::Book => "a book",
        Wanted::Input => "an input of irreport",
        Wanted::Text => "the text of a book",
    };
    Some(format!("this is {found}, not {wanted}"))
}

/// One good record is enough: a cut or damaged book is still no input.
fn begins_with_a_record(book: &[u8]) -> bool {
    let alone = |record: &&[u8]| Request::roomy(record, 1).answer().refused().map(|(number, _)| number);
    split(book).0.first().is_some_and(|record| matches!(alone(record), None | Some(15)))
}

fn is_input(bytes: &[u8]) -> bool {
    split_input(bytes).is_some_and(|(capital, book)| {
        (1..=GREATEST_CAPITAL).contains(&capital) && (book.is_empty() || begins_with_a_record(book))
    })
}

fn sort_of_text(bytes: &[u8]) -> Option<&'static str> {
    let seen = &bytes[..bytes.len().min(SEEN)];
    if !is_text(seen) {
        return None;
    }
    let text = String::from_utf8_lossy(seen);
    if is_text_of_a_book(&text) {
        Some("the text of a book (bookkit make turns it into bytes)")
    } else if is_table(&text) {
        Some("a table as text (CSV)")
    } else {
        Some("text")
    }
}

/// Text of any encoding that keeps ASCII: more ASCII than not, or else UTF-8, whose last letter may be cut.
fn is_text(seen: &[u8]) -> bool {
    let controls = seen.iter().filter(|byte| matches!(byte, 0..=8 | 11 | 14..=26 | 28..=31 | 127)).count();
    let ascii = seen.iter().filter(|byte| byte.is_ascii()).count();
    let utf8 = std::str::from_utf8(seen).map_or_else(|error| error.error_len().is_none(), |_| true);
    !seen.is_empty() && controls == 0 && (2 * ascii > seen.len() || utf8)
}

fn is_text_of_a_book(text: &str) -> bool {
    let statements = text.lines().map(|line| line.split('#').next().unwrap_or_default());
    let first = statements.flat_map(str::split_whitespace).next();
    first.is_some_and(|word| ["capital", "raw"].contains(&word) || KINDS.iter().any(|kind| kind.name == word))
}

/// The first lines have one separator equally often.
fn is_table(text: &str) -> bool {
    let lines: Vec<&str> = text.lines().filter(|line| !line.trim().is_empty()).take(3).collect();
    let separated = |separator: char| {
        let counts: Vec<usize> = lines.iter().map(|line| line.matches(separator).count()).collect();
        counts.len() > 1 && counts[0] > 0 && counts.iter().all(|count| *count == counts[0])
    };
    [',', ';', '\t'].into_iter().any(separated)
}

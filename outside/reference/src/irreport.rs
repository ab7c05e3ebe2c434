//! What `irreport` prints for an input (01, "The report program").

use crate::answer::{Answer, Request};
use crate::refusal::Fault;
use crate::report::{Return, Verdict};

pub const CAPITAL_BYTES: usize = 8;

/// The whole output for the whole input: T in eight bytes, then the book.
pub fn irreport(input: &[u8]) -> String {
    lines(&answer_input(input))
}

pub fn lines(answer: &Answer) -> String {
    match answer {
        Answer::Accepted(result) => accepted(result),
        Answer::Refused(refusal) => format!("R {} {}\n", refusal.number, refusal.place),
    }
}

/// The answer to an input. One above 65,536 bytes holds a book above 65,528, hence 17.
pub fn answer_input(input: &[u8]) -> Answer {
    let Some((capital, book)) = split_input(input) else {
        let because = format!("the input has {} bytes, below the {CAPITAL_BYTES} of capital", input.len());
        return Answer::Refused(Fault::of_record(16, because).at(0));
    };
    Request::roomy(book, capital).answer()
}

/// T and the book of an input; nothing if the input cannot hold T.
pub fn split_input(input: &[u8]) -> Option<(u64, &[u8])> {
    let (capital, book) = input.split_first_chunk::<CAPITAL_BYTES>()?;
    Some((u64::from_be_bytes(*capital), book))
}

fn accepted(result: &Return) -> String {
    let mut text = String::new();
    for (index, changes) in result.changes.iter().enumerate() {
        if result.positions.curves[index].is_some() {
            text += &format!("C {}{}\n", index + 1, spaced(changes));
        }
    }
    let verdict = match result.verdict {
        Verdict::Over => "OVER",
        Verdict::Within => "WITHIN",
        Verdict::Close => "CLOSE",
    };
    let measure = spaced(&[result.measure, result.worst, result.total_tolerance]);
    text + &format!("S{}\nM{measure}\nV {verdict}\n", spaced(&result.sums))
}

/// Each number after a space.
pub fn spaced(numbers: &[i64]) -> String {
    numbers.iter().map(|number| format!(" {number}")).collect()
}

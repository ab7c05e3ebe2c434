//! Seeded cases and the books of a month-end run through the C face, each held against the reference.

use crate::face::Face;
use crate::rooms::{Call, Outcome};
use crate::show;
use crate::tally::{is_in_many, Tally};
use books::Case;
use reference::{Answer, Exact};
use std::time::Instant;

/// Shrinking takes many calls; the first few differences tell the story. Further ones are counted.
const SHRUNK: u64 = 3;
const SHOWN: u64 = 20;

/// One report in so many is held against exact numbers; of the reports in many currencies another share.
struct Judged {
    once_in: u64,
    in_many_once_in: u64,
}

/// A fraction takes longer than everything else together, and those of one report in many currencies take seconds: one
/// of these comes in 10,000 cases.
const SAMPLE: Judged = Judged { once_in: 100, in_many_once_in: 800 };
const EVERY_ONE: Judged = Judged { once_in: 1, in_many_once_in: 1 };

/// Compares the cases of the seeds from the first on; with `only_first`, no further than the first difference.
pub fn compare(face: &mut Face, first_seed: u64, cases: u64, only_first: bool) -> Tally {
    let mut tally = Tally::default();
    for index in 0..cases {
        let seed = first_seed.wrapping_add(index);
        compare_case(face, &format!("seed {seed}"), &Call::of(books::case(seed), seed), &SAMPLE, &mut tally);
        if only_first && tally.differences > 0 {
            break;
        }
    }
    tally
}

/// Every one is held against exact numbers.
pub fn compare_month_end(face: &mut Face, books: Vec<(&str, Case)>) -> Tally {
    let mut tally = Tally::default();
    for (seed, (name, case)) in (1..).zip(books) {
        compare_case(face, name, &Call::of(case, seed), &EVERY_ONE, &mut tally);
    }
    tally
}

fn compare_case(face: &mut Face, name: &str, call: &Call, judged: &Judged, tally: &mut Tally) {
    let answer = call.request().answer();
    tally.count(&call.book, &answer);
    let differs = difference(face, call, &answer);
    let found = match &differs {
        Some(difference) => difference.clone(),
        None => match unsound(call, &answer, judged, tally) {
            Some(complaint) => format!("exact numbers contradict the {complaint}"),
            None => return,
        },
    };
    tally.differences += 1;
    if tally.differences <= SHOWN {
        println!("difference at {name}: {found}");
    }
    if tally.differences <= SHRUNK && differs.is_some() {
        show_smallest(face, call);
    }
}

fn difference(face: &mut Face, call: &Call, answer: &Answer) -> Option<String> {
    match face.call(call) {
        Ok(outcome) => outcome.difference(&Outcome::due(call, answer)),
        Err(died) => Some(died),
    }
}

/// Report and reference agree by now, so that what exact numbers say of the one they say of the other.
fn unsound(call: &Call, answer: &Answer, judged: &Judged, tally: &mut Tally) -> Option<String> {
    let result = answer.accepted()?;
    let (so_far, once_in) = match is_in_many(result) {
        true => (tally.in_many, judged.in_many_once_in),
        false => (tally.reported - tally.in_many, judged.once_in),
    };
    if so_far % once_in != 0 {
        return None;
    }
    tally.judged += 1;
    Exact::of(&result.positions).complaint(result, call.capital as i64)
}

fn show_smallest(face: &mut Face, call: &Call) {
    let begin = Instant::now();
    let small = books::shrink(&call.book, |book| {
        let call = call.with_book(book);
        begin.elapsed() < show::SHRINKING && difference(face, &call, &call.request().answer()).is_some()
    });
    let small = call.with_book(&small);
    let why = difference(face, &small, &small.request().answer()).unwrap_or_default();
    let rooms = format!("rooms of {} and {} cells", small.before.report.len(), small.before.ledger.len());
    println!("  smallest: {why}; {}, {rooms}", show::input(small.capital, &small.book));
}

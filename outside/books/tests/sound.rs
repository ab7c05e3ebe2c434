//! On a sample: the exact changes are within their tolerances, and the verdict is sound.

use books::{case, good_case, Case, Draw};
use reference::{split, Answer, Exact};

/// What is unsound about the case, if it is accepted; and whether it was.
fn judge(case: &Case) -> (bool, Option<String>) {
    match case.request().answer() {
        Answer::Accepted(result) => (true, Exact::of(&result.positions).complaint(&result, case.capital as i64)),
        Answer::Refused(_) => (false, None),
    }
}

#[test]
fn reports_of_a_sample_are_sound() {
    let mut judged = 0;
    for seed in 0..400 {
        let case = case(seed);
        if case.book.len() > 2_000 {
            continue;
        }
        let (accepted, complaint) = judge(&case);
        assert_eq!(complaint, None, "seed {seed}");
        judged += u32::from(accepted);
    }
    assert!(judged > 100, "{judged}");
}

fn good_cases() -> impl Iterator<Item = (u64, Case)> {
    (0..).map(|seed| (seed, good_case(&mut Draw::seeded(seed))))
}

fn curves(case: &Case) -> usize {
    split(&case.book).0.iter().filter(|record| [8, 10].contains(&record[0])).count()
}

#[test]
fn reports_of_long_books_are_sound() {
    let long = good_cases().filter(|(_, case)| case.book.len() > 20_000 && curves(case) <= 8);
    for (seed, case) in long.take(4) {
        assert_eq!(judge(&case), (true, None), "seed {seed}");
    }
}

/// The exact numbers of so many currencies take seconds: one book, and none of the longest, will do.
#[test]
fn the_report_of_a_book_in_all_currencies_is_sound() {
    let in_all = |case: &Case| case.request().answer().accepted().is_some_and(|result| result.positions.uses_all());
    let mut short = good_cases().filter(|(_, case)| case.book.len() < 9_000);
    let (seed, case) = short.find(|(_, case)| in_all(case)).expect("some book is in all of them");
    assert_eq!((curves(&case), judge(&case)), (32, (true, None)), "seed {seed}");
}

/// The judge is no yes-man: a report that is off by more than the tolerance, or a wrong verdict, is found.
#[test]
fn unsound_reports_are_found() {
    let curve = [&[8, 1][..], &[0; 76], &[1, 144, 0, 0, 0, 0]].concat();
    let flow = [1, 1, 1, 0, 241, 0, 0, 15, 66, 64];
    let book = [&curve[..], &flow].concat();
    let Answer::Accepted(result) = reference::Request::roomy(&book, 4_214_126).answer() else {
        panic!("the worked example")
    };
    let exact = Exact::of(&result.positions);
    assert_eq!(exact.complaint(&result, 4_214_126), None);
    let mut off = result.clone();
    off.changes[0][1] += 3;
    assert_eq!(exact.complaint(&off, 4_214_126), Some("change of currency 1 in scenario 2".to_string()));
    let mut off = result.clone();
    off.measure += 3;
    assert_eq!(exact.complaint(&off, 4_214_126), Some("measure".to_string()));
    assert_eq!(exact.complaint(&result, 4_300_000), Some("verdict Over".to_string()));
}

//! The shrinker: what it leaves still fails, and nothing of it can go.

use books::{good_case, shrink, Draw};
use reference::{split, Request};

fn some_long_book() -> Vec<u8> {
    let mut cases = (0..).map(|seed| good_case(&mut Draw::seeded(seed)).book);
    cases.find(|book| book.len() > 4_000).expect("some book is long")
}

#[test]
fn one_record_of_many_is_left() {
    let floating = [3, 5, 2, 0, 7, 7, 0, 0, 0, 9, 0, 0, 0, 1];
    let mut records: Vec<Vec<u8>> = split(&some_long_book()).0.into_iter().map(<[u8]>::to_vec).collect();
    records.insert(records.len() / 2, floating.to_vec());
    let fails = |book: &[u8]| split(book).0.iter().any(|record| record[0] == 3 && record[1] == 5 && record[5] == 7);
    assert_eq!(shrink(&records.concat(), fails), [3, 5, 0, 0, 0, 7, 0, 0, 0, 0, 0, 0, 0, 0]);
}

/// 15 for currency 4 takes one position of the shortest kind there is in the book, and nothing else.
#[test]
fn a_refusal_is_shrunk_to_its_reason() {
    let is_15 = |book: &[u8]| Request::roomy(book, 1).answer().refused() == Some((15, 4));
    let position = [1, 4, 1, 0, 9, 0, 0, 0, 0, 9];
    let book = [&some_long_book()[..], &position].concat();
    let (records, _) = split(&book);
    let without: Vec<u8> = records
        .into_iter()
        .filter(|record| ![[8, 4], [10, 4]].contains(&[record[0], record[1]]))
        .flatten()
        .copied()
        .collect();
    assert!(is_15(&without));
    let small = shrink(&without, is_15);
    assert!(is_15(&small) && split(&small).0.len() == 1, "{small:?}");
}

#[test]
fn bytes_go_where_records_cannot() {
    let book: Vec<u8> = (0..=255).cycle().take(3_000).collect();
    assert_eq!(shrink(&book, |book| book.contains(&200) && book.contains(&9)), [9, 200]);
    assert_eq!(shrink(&book, |_| true), [0u8; 0]);
}

/// 10 can go only after 30, which stands behind it.
#[test]
fn what_goes_late_lets_others_go() {
    let fails = |book: &[u8]| {
        let has = |byte| book.contains(&byte);
        has(20) && has(40) && (has(10) || !has(30))
    };
    assert_eq!(shrink(&[10, 20, 30, 40], fails), [20, 40]);
}

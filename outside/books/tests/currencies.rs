//! The generator reaches every currency, every number of them, and both ends of the range.

use books::{aimed_case, good_case, Case, Draw, Expected};
use reference::split;
use std::collections::{BTreeMap, BTreeSet};

/// The currencies of a book's curves and those of its positions.
#[derive(PartialEq, Eq)]
struct Currencies {
    curved: BTreeSet<u8>,
    used: BTreeSet<u8>,
}

fn currencies(case: &Case) -> Currencies {
    let (curves, positions): (Vec<&[u8]>, Vec<&[u8]>) =
        split(&case.book).0.into_iter().partition(|record| [8, 10].contains(&record[0]));
    let of = |records: Vec<&[u8]>| records.into_iter().map(|record| record[1]).collect();
    Currencies { curved: of(curves), used: of(positions) }
}

fn good_books(seeds: u64) -> Vec<Currencies> {
    (0..seeds).map(|seed| currencies(&good_case(&mut Draw::seeded(seed)))).collect()
}

fn all() -> BTreeSet<u8> {
    (1..=32).collect()
}

fn last_alone() -> BTreeSet<u8> {
    [32].into()
}

/// Most have few, a fair share has many: books of every number of currencies, from none to all.
#[test]
fn good_books_have_any_number_of_currencies() {
    let books = good_books(2_000);
    let mut numbers = BTreeMap::new();
    books.iter().for_each(|book| *numbers.entry(book.curved.len()).or_insert(0) += 1);
    assert!(numbers.keys().copied().eq(0..=32), "{numbers:?}");
    let above_eight: i32 = numbers.range(9..).map(|(_, times)| times).sum();
    assert!((250..500).contains(&above_eight), "{above_eight}");
}

/// Which of them is up to chance: those of most books do not begin at 1 or have one left out between.
#[test]
fn good_books_have_any_currencies() {
    let books = good_books(2_000);
    let with_the_last = books.iter().filter(|book| book.curved.contains(&32)).count();
    let in_a_row = |book: &&Currencies| book.curved.iter().copied().eq(1..=book.curved.len() as u8);
    let many: Vec<&Currencies> = books.iter().filter(|book| (9..32).contains(&book.curved.len())).collect();
    assert!(with_the_last > 200 && many.len() > 100, "{with_the_last} {}", many.len());
    assert_eq!(many.into_iter().filter(in_a_row).count(), 0);
}

#[test]
fn good_books_have_the_extremes() {
    let books = good_books(2_000);
    let times = |curved: BTreeSet<u8>, used: BTreeSet<u8>| {
        let wanted = Currencies { curved, used };
        books.iter().filter(|book| **book == wanted).count()
    };
    let extremes = [times(all(), all()), times(last_alone(), last_alone()), times(all(), BTreeSet::new())];
    assert!(extremes.iter().all(|times| *times > 20), "all used, the last alone, curves alone: {extremes:?}");
}

/// 15 at every currency; at the last, with a curve for every other one at times.
#[test]
fn every_currency_lacks_its_curve() {
    let mut places = BTreeMap::new();
    let mut only_the_last = 0;
    for seed in 0..2_000 {
        let case = aimed_case(&mut Draw::seeded(seed), 15, true);
        let Expected::Refused { number: 15, place } = case.expected else { panic!("seed {seed}") };
        let Currencies { curved, used } = currencies(&case);
        assert_eq!(used.difference(&curved).next(), Some(&(place as u8)), "seed {seed}");
        *places.entry(place).or_insert(0) += 1;
        only_the_last += i32::from(place == 32 && curved.len() == 31);
    }
    assert!(places.keys().copied().eq(1..=32), "{places:?}");
    assert!(places[&32] > 100 && only_the_last > 10, "{places:?}, {only_the_last}");
}

/// 33 and 0, and what lies far beyond them; just in, 32 often. In a curve of either kind and in every position.
#[test]
fn bad_currencies_lie_at_the_edges_and_far_beyond() {
    let mut seen = BTreeMap::new();
    let mut kinds = BTreeSet::new();
    for seed in 0..400 {
        let case = aimed_case(&mut Draw::seeded(seed), 3, true);
        let Expected::Refused { number: 3, place } = case.expected else { panic!("seed {seed}") };
        *seen.entry(case.book[place]).or_insert(0) += 1;
        kinds.insert(case.book[place - 1]);
    }
    assert!([0, 33, 64, 128, 255].iter().all(|bad| seen[bad] > 10), "{seen:?}");
    assert!(seen.keys().all(|bad| !(1..=32).contains(bad)) && kinds.into_iter().eq(1..=10), "{seen:?}");
    let just_in = (0..400).map(|seed| aimed_case(&mut Draw::seeded(seed), 3, false));
    let last = |case: &Case| split(&case.book).0.last().is_some_and(|record| record[1] == 32);
    assert!(just_in.filter(last).count() > 50);
}

//! The generator keeps what it promises: it reaches every number at its edges, every kind and every size.

use books::{aimed_case, case, good_case, month_end, Draw, Expected};
use reference::{
    bucket_index, listed, rate_changes, shocks, split, step, Answer, Code, Record, Step, LONGEST_BOOK, RATES,
};
use std::collections::{BTreeMap, BTreeSet};

#[test]
fn good_books_are_accepted() {
    for seed in 0..3_000 {
        let case = good_case(&mut Draw::seeded(seed));
        assert_eq!(case.request().answer().refused(), None, "seed {seed}");
    }
}

#[test]
fn good_books_have_every_kind_every_currency_and_the_greatest_length() {
    let mut seen = BTreeMap::new();
    let mut longest = 0;
    for seed in 0..1_000 {
        let book = good_case(&mut Draw::seeded(seed)).book;
        longest = longest.max(book.len());
        split(&book).0.iter().for_each(|record| *seen.entry((record[0], record[1])).or_insert(0) += 1);
    }
    assert_eq!((seen.len(), longest), (10 * 32, LONGEST_BOOK));
    let floor = |currency: u8| if currency <= 8 { 100 } else { 25 };
    assert!(seen.iter().all(|((_, currency), times)| *times > floor(*currency)), "{seen:?}");
}

fn whole(bytes: &[u8]) -> Record {
    let Step::Whole(record) = step(bytes, 0) else { panic!("{bytes:?}") };
    record
}

/// Spreads up to the last month of all, and spreads that only their days carry past the end of a bucket.
#[test]
fn good_books_have_spreads_at_their_edges() {
    let (mut last, mut carried) = (0, 0);
    for seed in 0..1_000 {
        let book = good_case(&mut Draw::seeded(seed)).book;
        for bytes in split(&book).0.into_iter().filter(|bytes| bytes[0] == 9) {
            let record = whole(bytes);
            let (reset, days, period) = (record.one("months"), record.one("days"), record.one("period"));
            let months = (1..=record.one("count")).map(|number| reset + number * period);
            last += u32::from(months.clone().max() == Some(600));
            carried += months.filter(|month| bucket_index(*month, days) != bucket_index(*month, 0)).count();
        }
    }
    assert!(last > 1_000 && carried > 1_000, "{last} up to month 600, {carried} past an end by days");
}

/// Curves by every code of both editions, some of them with a rate that their shocks bring to an end of the range.
#[test]
fn good_books_have_every_listed_code_and_rates_that_just_bear_their_shocks() {
    let (mut codes, mut at_an_end) = (BTreeMap::new(), 0);
    for seed in 0..1_000 {
        let book = good_case(&mut Draw::seeded(seed)).book;
        for record in split(&book).0.into_iter().filter(|bytes| bytes[0] == 10).map(whole) {
            *codes.entry((record.one("edition"), Code::of_number(record.one("code")))).or_insert(0) += 1;
            let [parallel, short, long] = shocks(&record).expect("a good curve");
            let ends = |(bucket, rate): (usize, &i64)| {
                let changes = rate_changes(parallel, short, long, bucket);
                changes.iter().any(|change| [RATES.start(), RATES.end()].contains(&&(rate + change)))
            };
            at_an_end += usize::from(record.all("rates").iter().enumerate().any(ends));
        }
    }
    let all = [1, 2].map(|edition| listed(edition).iter().map(move |listed| (edition, listed.code)));
    assert!(all.into_iter().flatten().all(|code| codes[&code] > 10), "{codes:?}");
    assert!(at_an_end > 100, "{at_an_end}");
}

/// Second curves of either kind behind a first of either kind.
#[test]
fn second_curves_come_in_every_mix_of_the_two_kinds() {
    let mut mixes = BTreeMap::new();
    for seed in 0..400 {
        let case = aimed_case(&mut Draw::seeded(seed), 12, true);
        let Expected::Refused { place, .. } = case.expected else { panic!("seed {seed}") };
        let records = split(&case.book[..place]).0;
        let first = records.iter().find(|record| [8, 10].contains(&record[0]) && record[1] == case.book[place + 1]);
        *mixes.entry((first.expect("a first curve")[0], case.book[place])).or_insert(0) += 1;
    }
    assert_eq!(mixes.keys().copied().collect::<Vec<_>>(), [(8, 8), (8, 10), (10, 8), (10, 10)]);
    assert!(mixes.values().all(|times| *times > 50), "{mixes:?}");
}

/// A curve is of kind 8. The two small books stand last.
#[test]
fn month_end_books_are_accepted_long_and_of_the_kinds_that_they_are_named_for() {
    let small = ["ten-records", "ten-positions-eight-curves"];
    for (name, case) in month_end() {
        assert_eq!(case.request().answer().refused(), None, "{name}");
        let records = split(&case.book).0;
        let mut kinds: Vec<u8> = records.iter().map(|record| record[0]).filter(|kind| *kind != 8).collect();
        let positions = kinds.len();
        kinds.sort_unstable();
        kinds.dedup();
        match name {
            "ten-records" => assert_eq!((records.len(), kinds.len()), (10, 8)),
            "ten-positions-eight-curves" => assert_eq!((records.len() - positions, positions), (8, 10)),
            "every-kind-eight-curves" => assert_eq!((records.len() - positions, kinds.len()), (8, 8)),
            _ => assert_eq!((records.len() - positions, kinds.len()), (1, 1), "{name}"),
        }
        assert_eq!(case.book.len() < 60_000, small.contains(&name), "{name}");
    }
}

/// What was measured on other days was measured on the same bytes.
#[test]
fn month_end_books_stay_as_they_were() {
    let fnv = |hash: u64, byte: u8| (hash ^ u64::from(byte)).wrapping_mul(0x0000_0100_0000_01b3);
    let bytes = month_end().into_iter().flat_map(|(_, case)| case.input());
    assert_eq!(bytes.fold(0xcbf2_9ce4_8422_2325, fnv), 0xf0f0_70c8_d746_0e0f);
}

/// The place and the number come from how the case was made, not from the reference.
#[test]
fn aimed_books_are_turned_down_with_their_number_at_their_place() {
    for number in 1..=20 {
        for seed in 0..400 {
            let case = aimed_case(&mut Draw::seeded(seed), number, true);
            let Expected::Refused { number, place } = case.expected else { panic!("number {number}, seed {seed}") };
            assert_eq!(case.request().answer().refused(), Some((number, place)), "number {number}, seed {seed}");
        }
    }
}

/// One cell too short, as short as they were over 8 currencies, and just long enough.
#[test]
fn rooms_lie_at_their_edges() {
    let rooms = |out| -> BTreeSet<(usize, usize)> {
        let cases = (0..400).map(|seed| aimed_case(&mut Draw::seeded(seed), 18, out));
        cases.map(|case| (case.report_room, case.ledger_room)).collect()
    };
    let short = [(201, 4_256), (202, 4_255), (201, 4_255), (58, 4_256), (202, 1_064), (58, 1_064)];
    assert!(rooms(true).is_superset(&short.into()), "{:?}", rooms(true));
    assert_eq!(rooms(false), [(202, 4_256)].into());
}

#[test]
fn just_inside_the_number_does_not_come_and_most_books_are_accepted() {
    for number in 1..=20 {
        let mut accepted = 0;
        for seed in 0..400 {
            let answer = aimed_case(&mut Draw::seeded(seed), number, false).request().answer();
            assert!(answer.refused().is_none_or(|(found, _)| found != number), "number {number}, seed {seed}");
            accepted += usize::from(answer.accepted().is_some());
        }
        // Around 16 and 18 the book itself is junk, but for the empty one.
        assert!(accepted > if [16, 18].contains(&number) { 10 } else { 200 }, "number {number}: {accepted}");
    }
}

#[test]
fn a_run_reaches_every_number_many_times_and_all_three_verdicts() {
    let mut reached = BTreeMap::new();
    for seed in 0..20_000 {
        let case = case(seed);
        let key = match case.request().answer() {
            Answer::Accepted(result) => (0, result.verdict as usize),
            Answer::Refused(refusal) => (refusal.number, 0),
        };
        *reached.entry(key).or_insert(0) += 1;
    }
    assert_eq!(reached.len(), 3 + 20, "{reached:?}");
    assert!(reached.values().all(|times| *times >= 150), "{reached:?}");
}

#[test]
fn a_seed_gives_the_same_case_again_and_another_seed_another() {
    assert_eq!((case(5).input(), case(5).expected), (case(5).input(), case(5).expected));
    assert_ne!(case(5).input(), case(6).input());
}

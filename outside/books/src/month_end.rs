//! The books of a month-end run, for measuring (02, request 4): accepted, of 60,000 bytes and more with every amount filled, each named for
//! what it holds; then two small ones.

use crate::case::{joined, Case, Expected};
use crate::draw::Draw;
use crate::position::{curve, record, POSITIONS};
use reference::{Kind, Record, BUCKETS, CORE_CAPS, GREATEST_GROSS, LAST_MONTH, LEDGER_CELLS, REPORT_CELLS, SCENARIOS};

const CAPITAL: u64 = 1_000_000;
const LEAST_BYTES: usize = 60_000;
const SEED: u64 = 4;

/// Names and books, always the same ones.
pub fn month_end() -> Vec<(&'static str, Case)> {
    let mut draw = Draw::seeded(SEED);
    let mut book = |currencies: i64, kinds: &[u8]| case(large(&mut draw, currencies, kinds));
    let mut books = vec![
        ("every-kind-eight-curves", book(8, &POSITIONS)),
        ("single-flows", book(1, &[1])),
        ("prepayable-loans", book(1, &[5])),
        ("deposits", book(1, &[4])),
        ("coupons", book(1, &[2])),
        ("term-deposits", book(1, &[6])),
        ("floating", book(1, &[3])),
        ("floating-spreads", book(1, &[9])),
        ("add-ons", book(1, &[7])),
    ];
    let two_more: Vec<u8> = POSITIONS.iter().copied().chain([1, 2]).collect();
    books.push(("ten-records", case(records(&mut draw, 2, &POSITIONS))));
    books.push(("ten-positions-eight-curves", case(records(&mut draw, 8, &two_more))));
    books
}

fn case(records: Vec<Record>) -> Case {
    let (report_room, ledger_room) = (REPORT_CELLS, LEDGER_CELLS);
    Case { book: joined(&records), capital: CAPITAL, report_room, ledger_room, expected: Expected::Accepted }
}

/// The kinds in turn, as often as it takes.
fn large(draw: &mut Draw, currencies: i64, kinds: &[u8]) -> Vec<Record> {
    let length = |kind: u8| 1 + Kind::numbered(kind).expect("a known kind").body_length();
    let mut bytes = currencies as usize * length(8);
    let mut all = Vec::new();
    for kind in kinds.iter().cycle() {
        if bytes >= LEAST_BYTES {
            break;
        }
        bytes += length(*kind);
        all.push(*kind);
    }
    records(draw, currencies, &all)
}

/// A curve for each currency, and a position for each kind in one of them; the limits are shared out evenly.
fn records(draw: &mut Draw, currencies: i64, kinds: &[u8]) -> Vec<Record> {
    let mut records: Vec<Record> = (1..=currencies).map(|currency| curve(draw, currency)).collect();
    let most = GREATEST_GROSS / kinds.len() as i64;
    let mut positions: Vec<Record> = kinds.iter().map(|kind| filled(draw, *kind, currencies, most)).collect();
    draw.shuffle(&mut positions);
    records.append(&mut positions);
    records
}

/// A position with something in every field, in any of the currencies, that comes to at most `most`.
fn filled(draw: &mut Draw, kind: u8, currencies: i64, most: i64) -> Record {
    let currency = draw.between(1, currencies);
    let side = draw.between(1, 2);
    let (months, days) = (draw.between(0, LAST_MONTH), draw.between(0, 30));
    let values = match kind {
        1 => vec![side, months, days, draw.between(1, most)],
        2 => [vec![side], coupons(draw, 0, most / 2), vec![draw.between(1, most / 2)]].concat(),
        3 => vec![side, months, days, draw.between(1, most / 2), draw.between(1, most / 2)],
        4 => deposit(draw, most),
        5 => [vec![share(draw)], amounts(draw, most / 2), amounts(draw, most / 2)].concat(),
        6 => [vec![share(draw)], amounts(draw, most)].concat(),
        7 => [vec![side], (0..SCENARIOS).map(|_| draw.between(-most, most)).collect()].concat(),
        9 => {
            let months = months.min(LAST_MONTH - 12);
            let position = vec![side, months, days, draw.between(1, most / 4), draw.between(1, most / 4)];
            [position, coupons(draw, months, most / 2)].concat()
        }
        _ => panic!("kind {kind} is no position"),
    };
    record(kind, &[&[currency][..], &values].concat())
}

fn share(draw: &mut Draw) -> i64 {
    draw.between(0, 10_000)
}

fn amounts(draw: &mut Draw, most: i64) -> Vec<i64> {
    (0..BUCKETS).map(|_| draw.between(1, most / BUCKETS as i64)).collect()
}

/// Period, count and coupon.
fn coupons(draw: &mut Draw, start: i64, most: i64) -> Vec<i64> {
    let period = draw.pick(&[1, 3, 6, 12]);
    let count = draw.between(1, (LAST_MONTH - start) / period);
    vec![period, count, draw.between(1, most / count)]
}

/// The core is thin past ten years, or it would be too long for its category.
fn deposit(draw: &mut Draw, most: i64) -> Vec<i64> {
    let category = draw.between(1, 3);
    let (cap, _) = CORE_CAPS[category as usize - 1];
    let total = draw.between(most / 2, most);
    let even = cap * total / 100 / BUCKETS as i64;
    let core = (0..BUCKETS).map(|bucket| if bucket < 16 { draw.between(even / 2, even) } else { even / 20 });
    [vec![category, total], core.collect()].concat()
}

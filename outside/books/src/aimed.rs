//! Cases aimed at one refusal number: just out, turned down with it, or just in, not turned down with it.

use crate::aimed_curves as curves;
use crate::aimed_limits as limits;
use crate::case::{joined, Case, Expected};
use crate::currencies::{self, LAST};
use crate::draw::Draw;
use crate::position::{bearable_rates, position, some_curve, POSITIONS};
use crate::valid;
use reference::{
    is_curve, periods_start, shocks, Item, Kind, Record, GREATEST_CAPITAL, KINDS, LAST_MONTH, LEDGER_CELLS,
    LONGEST_BOOK, REPORT_CELLS, STORED_CELLS,
};

/// The ledger of 8 currencies.
const STORED_LEDGER_CELLS: usize = 1_064;

pub fn case(draw: &mut Draw, number: u8, out: bool) -> Case {
    match number {
        1..=14 | 19 | 20 => aimed_record(draw, number, out),
        15 => missing_curve(draw, out),
        _ => outside_the_records(draw, number, out),
    }
}

/// A book whose last record, but for a tail that is never read, has the fault or just misses it.
fn aimed_record(draw: &mut Draw, number: u8, out: bool) -> Case {
    let currency = currencies::any(draw);
    let mut book = front(draw, number, currency);
    let (mut records, within) = aimed_records(draw, number, currency, out);
    let last = records.pop().expect("an aimed record");
    book.extend(records.concat());
    let place = book.len() + within;
    book.extend(last);
    if !out {
        return Case::of(draw, book, Expected::NotRefusedWith(number));
    }
    if number != 2 {
        book.extend((0..draw.amount(40)).map(|_| draw.byte()));
    }
    Case::of(draw, book, Expected::Refused { number, place })
}

/// Good records of other currencies, and a curve for the aimed one unless the aimed record is a curve itself.
fn front(draw: &mut Draw, number: u8, currency: i64) -> Vec<u8> {
    let others: Vec<i64> = currencies::all().into_iter().filter(|other| *other != currency).collect();
    let length = some_length(draw);
    let mut records = valid::some_records(draw, others, length);
    if ![12, 13, 19, 20].contains(&number) {
        records.push(some_curve(draw, currency));
        draw.shuffle(&mut records);
    }
    joined(&records)
}

/// Short in most cases; at times long enough for a curve in every currency.
fn some_length(draw: &mut Draw) -> usize {
    let most = if draw.once_in(8) { 4_000 } else { 400 };
    draw.between(0, most) as usize
}

/// Records of the aimed currency, of which the last is the aimed one, and where in that one the fault is told: at the
/// field, or at its first byte.
fn aimed_records(draw: &mut Draw, number: u8, currency: i64, out: bool) -> (Vec<Vec<u8>>, usize) {
    let whole = |record: Record| (vec![record], 0);
    let (records, within) = match number {
        1 if out => return (vec![vec![draw.pick(&[0, 11, 12, 128, 255])]], 0),
        2 if out => return (vec![cut_short(draw, currency)], 0),
        1 | 2 => whole(some_position(draw, currency)),
        9 => whole(limits::core_at_its_cap(draw, currency, out)),
        10 => whole(limits::core_average_at_its_cap(draw, currency, out)),
        12 if out => (vec![some_curve(draw, currency), curves::second(draw, currency)], 0),
        12 => whole(some_curve(draw, currency)),
        14 => (limits::gross_at_its_limit(draw, currency, out), 0),
        11 => told_at_a_field(limits::interest_at_the_last_principal(draw, currency, out)),
        13 if draw.coin() => told_at_a_field(curves::shocked_rate(draw, currency, out)),
        13 if out && draw.once_in(3) => told_at_a_field(curves::rate_as_read(draw, currency)),
        19 => whole(curves::edition(draw, currency, out)),
        20 => whole(curves::code(draw, currency, out)),
        _ => told_at_a_field(field_at_its_edge(draw, number, currency, out)),
    };
    (records.iter().map(Record::bytes).collect(), within)
}

/// A record with the field at fault, and which of the field's numbers it is, from 0.
pub type FieldAtFault = (Record, &'static str, usize);

fn told_at_a_field((record, field, index): FieldAtFault) -> (Vec<Record>, usize) {
    let within = record.kind.place_of(field, index);
    (vec![record], within)
}

fn some_position(draw: &mut Draw, currency: i64) -> Record {
    let kind = draw.pick(&POSITIONS);
    position(draw, kind, currency, 1_000_000)
}

/// At times with a bad currency as well: 2 comes first.
fn cut_short(draw: &mut Draw, currency: i64) -> Vec<u8> {
    let currency = draw.pick(&[currency, 0, LAST + 1]);
    let mut bytes =
        if draw.once_in(4) { some_curve(draw, currency).bytes() } else { some_position(draw, currency).bytes() };
    let length = draw.between(1, bytes.len() as i64 - 1);
    bytes.truncate(draw.pick(&[1, length as usize, bytes.len() - 1]));
    bytes
}

/// A record with one field at or just beyond the end of its range; everything else in it is good.
fn field_at_its_edge(draw: &mut Draw, number: u8, currency: i64, out: bool) -> FieldAtFault {
    let judged = |kind: &'static Kind| kind.fields.iter().map(move |field| (kind, field));
    let fields: Vec<_> = KINDS.iter().flat_map(judged).filter(|(_, field)| field.item.allowed().0 == number).collect();
    let (kind, field) = draw.pick(&fields);
    let plain =
        if is_curve(kind) { curves::flat(draw, kind, currency) } else { position(draw, kind.number, currency, 0) };
    let index = draw.index(field.times);
    let value = match field.item {
        Item::Period if out => draw.pick(&[0, 2, 4, 5, 7, 11, 13, 255]),
        Item::Period => plain.one("period"),
        Item::Currency if !out => currency,
        // Beyond 32, 64 and 128, where a shift by a currency or its byte with a sign may come round again.
        Item::Currency => draw.pick(&[0, LAST + 1, LAST + 1, LAST + 2, 2 * LAST, 2 * LAST + 1, 128, 129, 255]),
        // Just in, a rate has to bear the shocks as well, and a listed curve has no choice of them.
        Item::Rate if !out => {
            let (low, high) = bearable_rates(shocks(&plain).expect("a good curve"), index);
            draw.pick(&[low, high])
        }
        item => edge(draw, item, *item.allowed().1.start(), greatest(&plain, item), out),
    };
    // Good months that are too late for the periods after them are the count's fault.
    let at_fault = if out && field.item == Item::Months && value <= LAST_MONTH { "count" } else { field.name };
    (plain.with(field.name, index, value), at_fault, index)
}

/// The greatest good number of a field where the record's others stay as they are: the last month is at most 600.
fn greatest(record: &Record, item: Item) -> i64 {
    match (item, record.kind.number) {
        (Item::Count, _) => (LAST_MONTH - periods_start(record)) / record.one("period"),
        (Item::Months, 9) => LAST_MONTH - record.one("period") * record.one("count"),
        _ => *item.allowed().1.end(),
    }
}

/// An end of the range, or a number next to it or far beyond it that the field's bytes can still hold.
fn edge(draw: &mut Draw, item: Item, first: i64, last: i64, out: bool) -> i64 {
    if !out {
        return draw.pick(&[first, last]);
    }
    let (low, high) = item.bounds();
    let far = [first - 1, last + 1, last + 1, low, high];
    let beyond: Vec<i64> =
        far.into_iter().filter(|value| (low..first).contains(value) || (last + 1..=high).contains(value)).collect();
    draw.pick(&beyond)
}

/// The last one alone, or one to three of all.
fn lacking_currencies(draw: &mut Draw) -> Vec<i64> {
    if draw.once_in(4) {
        return vec![LAST];
    }
    let count = draw.between(1, 3) as usize;
    currencies::some_of(draw, currencies::all(), count)
}

/// Positions, of nil at times, in up to three currencies that have no curve; just in, the curves follow. At times every
/// other currency has its curve.
fn missing_curve(draw: &mut Draw, out: bool) -> Case {
    let lacking = lacking_currencies(draw);
    let others: Vec<i64> = currencies::all().into_iter().filter(|other| !lacking.contains(other)).collect();
    let length = some_length(draw);
    let mut records = match draw.once_in(8) {
        true => valid::in_currencies(draw, &others, 4_000 + length),
        false => valid::some_records(draw, others, length),
    };
    for currency in &lacking {
        let kind = draw.pick(&POSITIONS);
        let most = draw.pick(&[0, 1_000_000]);
        records.push(position(draw, kind, *currency, most));
        if !out {
            records.push(some_curve(draw, *currency));
        }
    }
    draw.shuffle(&mut records);
    let lowest = *lacking.iter().min().expect("one at least");
    let refused = Expected::Refused { number: 15, place: lowest as usize };
    let expected = if out { refused } else { Expected::Accepted };
    Case::of(draw, joined(&records), expected)
}

/// 16, 17 and 18. Just out, what comes later in the order is bad as well at times.
fn outside_the_records(draw: &mut Draw, number: u8, out: bool) -> Case {
    let junk: Vec<u8> = (0..draw.amount(200)).map(|_| draw.byte()).collect();
    let expected = if out { Expected::Refused { number, place: 0 } } else { Expected::NotRefusedWith(number) };
    let mut case = Case::of(draw, junk, expected);
    if number == 18 {
        (case.report_room, case.ledger_room) = if out { short_rooms(draw) } else { (REPORT_CELLS, LEDGER_CELLS) };
    }
    if number == 17 || number == 18 && out && draw.once_in(3) {
        let beyond = if out { draw.pick(&[1, 2, 8, 1_000]) } else { 0 };
        case.book = long_book(draw, LONGEST_BOOK + beyond);
    }
    if number == 16 || out && draw.once_in(3) {
        let bad = [0, GREATEST_CAPITAL + 1, u64::MAX >> 1, 1 << 63, u64::MAX];
        case.capital = if out { draw.pick(&bad) } else { draw.pick(&[1, GREATEST_CAPITAL]) };
    }
    case
}

/// Rooms of which at least one is too short, as one that was enough for 8 currencies is.
fn short_rooms(draw: &mut Draw) -> (usize, usize) {
    let report = draw.pick(&[0, 1, STORED_CELLS, REPORT_CELLS - 1]);
    let ledger = draw.pick(&[0, 1, STORED_LEDGER_CELLS, LEDGER_CELLS - 1]);
    let enough = (draw.pick(&[REPORT_CELLS, 300]), draw.pick(&[LEDGER_CELLS, 5_000]));
    draw.pick(&[(report, enough.1), (enough.0, ledger), (report, ledger)])
}

/// A good book of the greatest length; where more is asked for, with bytes of 1 after it.
fn long_book(draw: &mut Draw, length: usize) -> Vec<u8> {
    let mut book = joined(&valid::longest_records(draw));
    book.resize(length, 1);
    book
}

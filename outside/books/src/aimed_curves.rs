//! Curves of either kind at the limits that 12, 13, 19 and 20 set.

use crate::aimed::FieldAtFault;
use crate::draw::Draw;
use crate::position::{bearable_rates, listed_curve, record, some_curve};
use reference::{listed, shocks, Code, Kind, Record, BUCKETS, RATES};

const LISTED: u8 = 10;
const ABOVE_THE_RATES: i64 = 300_001;

/// All rates in the middle of their range: a curve of kind 8 without shocks, or one of kind 10 by any edition and code.
pub fn flat(draw: &mut Draw, kind: &Kind, currency: i64) -> Record {
    let rates = vec![100_000; BUCKETS];
    match kind.number {
        LISTED => with_rates(listed_curve(draw, currency), &rates),
        _ => record(kind.number, &[vec![currency], rates, vec![0; 3]].concat()),
    }
}

fn with_rates(curve: Record, rates: &[i64]) -> Record {
    rates.iter().enumerate().fold(curve, |curve, (bucket, rate)| curve.with("rates", bucket, *rate))
}

/// A curve that comes second, at times with a later fault as well: 12 comes first.
pub fn second(draw: &mut Draw, currency: i64) -> Record {
    let second = some_curve(draw, currency);
    match (draw.between(1, 4), second.kind.number) {
        (1, _) => with_a_bad_rate(draw, second),
        (2, LISTED) => with_a_bad_edition(draw, second),
        (3, LISTED) => with_a_bad_code(draw, second),
        _ => second,
    }
}

/// An edition that there is not: 19, at times with a bad code or a bad rate as well, which come later. Just in, any good
/// curve of kind 10.
pub fn edition(draw: &mut Draw, currency: i64, out: bool) -> Record {
    let good = listed_curve(draw, currency);
    if !out {
        return good;
    }
    let bad = if draw.once_in(3) { with_a_bad_code(draw, good) } else { good };
    let bad = if draw.once_in(3) { with_a_bad_rate(draw, bad) } else { bad };
    with_a_bad_edition(draw, bad)
}

/// A code that the edition does not list: 20, at times with a bad rate as well. Just in, any good curve of kind 10.
pub fn code(draw: &mut Draw, currency: i64, out: bool) -> Record {
    let good = listed_curve(draw, currency);
    if !out {
        return good;
    }
    let bad = if draw.once_in(3) { with_a_bad_rate(draw, good) } else { good };
    with_a_bad_code(draw, bad)
}

fn with_a_bad_rate(draw: &mut Draw, curve: Record) -> Record {
    curve.with("rates", draw.index(BUCKETS), ABOVE_THE_RATES)
}

/// The letters 1 and 2 are among them.
fn with_a_bad_edition(draw: &mut Draw, curve: Record) -> Record {
    curve.with("edition", 0, draw.pick(&[0, 3, 4, 49, 50, 128, 129, 130, 254, 255]))
}

/// Some slips leave the code as it was, and chance may hit another that is listed.
fn with_a_bad_code(draw: &mut Draw, curve: Record) -> Record {
    let good = Code::of_number(curve.one("code"));
    loop {
        let code = mistaken(draw, good);
        if listed(curve.one("edition")).iter().all(|listed| listed.code != code) {
            return curve.with("code", 0, code.number());
        }
    }
}

/// A code as fingers and programs get it wrong: in small letters, with letters swapped or next to the right one, with a
/// blank, a nil or a high bit, of a currency that is not listed, or any three bytes.
fn mistaken(draw: &mut Draw, Code(good): Code) -> Code {
    let mut code = good;
    let (one, other) = (draw.index(3), draw.index(3));
    match draw.between(1, 10) {
        1 => code = good.map(|letter| letter.to_ascii_lowercase()),
        2 => code[one] = good[one].to_ascii_lowercase(),
        3 => code.swap(one, other),
        4 => code[one] = draw.pick(&[good[one] - 1, good[one] + 1]),
        5 => code[one] = draw.pick(b" 0\0"),
        6 => code[one] |= 0x80,
        7 => code = draw.pick(&[[0; 3], [b' '; 3], [255; 3]]),
        8 => code = draw.pick(&[*b"NOK", *b"PLN", *b"XXX", *b"DKK", *b"AAA", *b"ZZZ"]),
        9 => code = [draw.byte(), draw.byte(), draw.byte()],
        _ => code[one] = draw.byte(),
    }
    Code(code)
}

/// Rates that their shocks bring to the ends of the range; just out, one of them goes a step further, and at times a
/// later one as well: the lowest bucket is told.
pub fn shocked_rate(draw: &mut Draw, currency: i64, out: bool) -> FieldAtFault {
    let curve = shocking_curve(draw, currency);
    let shocks = shocks(&curve).expect("a good curve");
    let ends = |bucket| bearable_rates(shocks, bucket);
    let mut rates: Vec<i64> = (0..BUCKETS).map(|bucket| draw.pick(&[ends(bucket).0, ends(bucket).1])).collect();
    let lowest = draw.index(BUCKETS);
    for bucket in [lowest, lowest + draw.index(BUCKETS - lowest)] {
        let beyond = draw.pick(&[ends(bucket).0 - 1, ends(bucket).1 + 1]);
        // A later one that no shock moves would be out as read, which is told first.
        if out && (bucket == lowest || RATES.contains(&beyond)) {
            rates[bucket] = beyond;
        }
    }
    (with_rates(curve, &rates), "rates", lowest)
}

/// A rate out of range as read, told at itself although a lower bucket is out of range once it is shocked.
pub fn rate_as_read(draw: &mut Draw, currency: i64) -> FieldAtFault {
    let curve = shocking_curve(draw, currency);
    let shocks = shocks(&curve).expect("a good curve");
    let highest = |bucket: &usize| bearable_rates(shocks, *bucket).1;
    let moved = (0..BUCKETS - 1).find(|bucket| highest(bucket) < *RATES.end()).expect("some shock");
    let later = moved + 1 + draw.index(BUCKETS - 1 - moved);
    let bad = draw.pick(&[RATES.start() - 1, ABOVE_THE_RATES]);
    (curve.with("rates", moved, highest(&moved) + 1).with("rates", later, bad), "rates", later)
}

/// A good curve of either kind, with a shock of one basis point at least.
fn shocking_curve(draw: &mut Draw, currency: i64) -> Record {
    if draw.coin() {
        return listed_curve(draw, currency);
    }
    let mut shocks = [0; 3].map(|_| draw.amount(1_000));
    shocks[draw.index(3)] = draw.between(1, 1_000);
    record(8, &[vec![currency], vec![0; BUCKETS], shocks.to_vec()].concat())
}

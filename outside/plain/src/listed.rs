//! The shocks that the Committee lists by currency: parallel, short and long, in basis points (02, request 5).

use crate::fields::Refusal;

type List = [([u8; 3], [i64; 3]); 21];

/// The standard of 2016 (SRP31.90, table 2).
static EDITION_1: List = [
    (*b"ARS", [400, 500, 300]),
    (*b"AUD", [300, 450, 200]),
    (*b"BRL", [400, 500, 300]),
    (*b"CAD", [200, 300, 150]),
    (*b"CHF", [100, 150, 100]),
    (*b"CNY", [250, 300, 150]),
    (*b"EUR", [200, 250, 100]),
    (*b"GBP", [250, 300, 150]),
    (*b"HKD", [200, 250, 100]),
    (*b"IDR", [400, 500, 300]),
    (*b"INR", [400, 500, 300]),
    (*b"JPY", [100, 100, 100]),
    (*b"KRW", [300, 400, 200]),
    (*b"MXN", [400, 500, 300]),
    (*b"RUB", [400, 500, 300]),
    (*b"SAR", [200, 300, 150]),
    (*b"SEK", [200, 300, 150]),
    (*b"SGD", [150, 200, 100]),
    (*b"TRY", [400, 500, 300]),
    (*b"USD", [200, 300, 150]),
    (*b"ZAR", [400, 500, 300]),
];

/// The recalibration of 2024 (BCBS d578), from recollection: not yet held against the published table.
static EDITION_2: List = [
    (*b"ARS", [400, 500, 300]),
    (*b"AUD", [350, 425, 300]),
    (*b"BRL", [400, 500, 300]),
    (*b"CAD", [225, 350, 200]),
    (*b"CHF", [175, 250, 200]),
    (*b"CNY", [225, 300, 150]),
    (*b"EUR", [225, 350, 200]),
    (*b"GBP", [275, 425, 250]),
    (*b"HKD", [225, 375, 200]),
    (*b"IDR", [400, 500, 300]),
    (*b"INR", [325, 475, 225]),
    (*b"JPY", [100, 100, 100]),
    (*b"KRW", [225, 350, 225]),
    (*b"MXN", [400, 500, 300]),
    (*b"RUB", [400, 500, 300]),
    (*b"SAR", [275, 375, 250]),
    (*b"SEK", [275, 425, 200]),
    (*b"SGD", [175, 250, 225]),
    (*b"TRY", [400, 500, 300]),
    (*b"USD", [200, 300, 225]),
    (*b"ZAR", [325, 500, 300]),
];

/// Edition and code stand in a row from this byte of the body on.
pub fn listed_shocks(body: &[u8], at: usize) -> Result<[i64; 3], Refusal> {
    let list = match body[at] {
        1 => &EDITION_1,
        2 => &EDITION_2,
        _ => return Err(Refusal::of_record(19)),
    };
    match list.iter().find(|(code, _)| *code == body[at + 1..at + 4]) {
        Some((_, shocks)) => Ok(*shocks),
        None => Err(Refusal::of_record(20)),
    }
}

//! Inputs at the edges: of length, of T, of the limit, and of how much there is to print.

use reference::{Kind, Record, Request, BUCKETS, CAPITAL_BYTES, CURRENCIES};
use reference::{GREATEST_CAPITAL, KINDS, LIMIT, LONGEST_BOOK};

pub fn input(capital: u64, book: &[u8]) -> Vec<u8> {
    [&capital.to_be_bytes()[..], book].concat()
}

pub fn edges() -> Vec<Vec<u8>> {
    [at_the_limit(), vec![more_than_a_pipe_holds()], lengths(), capitals()].concat()
}

/// 0 to 9 bytes; the longest input that is read and those above it.
fn lengths() -> Vec<Vec<u8>> {
    let short = (0..=CAPITAL_BYTES + 1).flat_map(|length| [vec![0; length], vec![1; length]]);
    let longest = CAPITAL_BYTES + LONGEST_BOOK;
    let lengths = [longest - 1, longest, longest + 1, longest + 2, longest + 8, 2 * longest, 1_000_000];
    let long = lengths
        .into_iter()
        .flat_map(|length| [1u64, 0].map(|capital| input(capital, &vec![1; length - CAPITAL_BYTES])));
    short.chain(long).collect()
}

/// T at its ends with an empty book.
fn capitals() -> Vec<Vec<u8>> {
    let capitals = [0, 1, GREATEST_CAPITAL, GREATEST_CAPITAL + 1, (1 << 63) - 1, 1 << 63, u64::MAX];
    capitals.map(|capital| input(capital, &[])).to_vec()
}

/// The measure of a book with every kind of record just above the limit, at it, and just below.
fn at_the_limit() -> Vec<Vec<u8>> {
    let book = every_kind();
    let answer = Request::roomy(&book, 1).answer();
    let measure = answer.accepted().expect("a good book").measure as u64;
    let least_capital = (100 * measure).div_ceil(LIMIT as u64);
    [least_capital - 1, least_capital, least_capital + 1].map(|capital| input(capital, &book)).to_vec()
}

fn every_kind() -> Vec<u8> {
    let of_each = |amount: i64| vec![amount; BUCKETS];
    let euro = i64::from(u32::from_be_bytes(*b"\0EUR"));
    let bodies = [
        vec![1, 1, 241, 0, 900_000],
        vec![32, 1, 6, 50, 700, 40_000],
        vec![1, 2, 3, 0, 50_000, 300],
        [vec![1, 1, 40_000], vec![1_000; 9], vec![0; 10]].concat(),
        [vec![32, 600], of_each(2_000), of_each(100)].concat(),
        [vec![1, 500], of_each(3_000)].concat(),
        vec![32, 1, 122, -40, 15, 35, 80, -25],
        [vec![1], of_each(25_000), vec![200, 250, 100]].concat(),
        vec![32, 2, 2, 15, 5_000, 20, 3, 8, 12],
        [vec![32, 1, euro], of_each(31_000)].concat(),
    ];
    joined(KINDS.iter().zip(bodies))
}

/// All currencies, with six digits in every rate and eight and a sign in every flow.
pub fn more_than_a_pipe_holds() -> Vec<u8> {
    let of_currency = |currency: i64| {
        let curve = [vec![currency], vec![200_000; BUCKETS], vec![1_000; 3]].concat();
        let deposits = [vec![currency, 0], vec![52_631_578; BUCKETS]].concat();
        [(&KINDS[7], curve), (&KINDS[5], deposits)]
    };
    input(1, &joined((1..=CURRENCIES as i64).flat_map(of_currency)))
}

fn joined(bodies: impl Iterator<Item = (&'static Kind, Vec<i64>)>) -> Vec<u8> {
    bodies.flat_map(|(kind, values)| Record::new(kind, values).bytes()).collect()
}

#[cfg(test)]
mod tests {
    use super::{at_the_limit, more_than_a_pipe_holds};
    use reference::irdetail;

    fn detail_has(input: &[u8], line: &str) -> bool {
        irdetail(input).lines().any(|printed| printed == line)
    }

    #[test]
    fn the_limit_is_met_exactly() {
        let headrooms = ["H -0.15", "H 0.00", "H 0.15"];
        assert!(at_the_limit().iter().zip(headrooms).all(|(input, line)| detail_has(input, line)));
    }

    #[test]
    fn every_kind_is_taken() {
        let taken = ["K 1 1 0 1 1 0 1 0 1 0 0", "K 32 0 1 0 0 1 0 1 0 1 1"];
        assert!(taken.iter().all(|line| detail_has(&at_the_limit()[0], line)));
    }

    /// A pipe holds 65,536 bytes.
    #[test]
    fn no_pipe_holds_the_longest_detail() {
        assert!(irdetail(&more_than_a_pipe_holds()).len() > 65_536);
    }
}

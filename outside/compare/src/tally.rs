//! What a run of comparisons came to, and whether it compared enough.

use reference::{Answer, Return, CURRENCIES, LONGEST_BOOK};
use std::ops::AddAssign;

/// The numbers of 01's table of refusals and those of 02.
const NUMBERS: usize = 20;
/// A book counts as long above this.
const LONG: usize = 60_000;
/// A book counts as one in many currencies above this: reports had no more before request 7 of 02.
const FEW: usize = 8;

#[derive(Clone, Default)]
pub struct Tally {
    pub cases: u64,
    pub reported: u64,
    pub long: u64,
    pub in_many: u64,
    /// Every currency has a curve and a position.
    pub in_all: u64,
    pub judged: u64,
    pub refused: [u64; NUMBERS],
    pub differences: u64,
}

/// What a run has to reach to count, from `shortest` cases on: each refusal number but the one that cannot come, a good
/// long book, and one in many currencies and in all, at least once in so many cases.
pub struct Floors {
    pub never: Option<usize>,
    pub shortest: u64,
    pub once_in: u64,
    /// One report at least is held against exact numbers.
    pub judged: bool,
}

/// In 20,000 cases each number comes 100 times, or the run fails.
pub const FACE: Floors = Floors { never: None, shortest: 10_000, once_in: 200, judged: true };
/// The two programs have no rooms to be too short: they never give 18.
pub const PROGRAM: Floors = Floors { never: Some(18), shortest: 500, once_in: 500, judged: false };

pub fn is_in_many(result: &Return) -> bool {
    result.positions.curved().count() > FEW
}

impl Tally {
    pub fn count(&mut self, book: &[u8], due: &Answer) {
        self.cases += 1;
        match due {
            Answer::Accepted(result) => {
                self.reported += 1;
                self.long += u64::from((LONG + 1..=LONGEST_BOOK).contains(&book.len()));
                self.in_many += u64::from(is_in_many(result));
                self.in_all += u64::from(result.positions.uses_all());
            }
            Answer::Refused(refusal) => self.refused[usize::from(refusal.number) - 1] += 1,
        }
    }

    /// The one line at the end.
    pub fn line(&self, what: &str) -> String {
        let Tally { cases, reported, long, in_many, in_all, judged, differences, .. } = self;
        let times = |(number, times): (usize, u64)| format!("{number}: {times}");
        let numbers: Vec<String> = (1..).zip(self.refused).map(times).collect();
        format!(
            "{what}: {cases} cases, {reported} reported ({long} of more than {LONG} bytes, {in_many} in more than \
             {FEW} currencies, {in_all} in all {CURRENCIES}, {judged} judged by exact numbers), turned down {}; \
             {differences} differences",
            numbers.join(", ")
        )
    }

    /// Why the run does not count as passed, if it does not.
    pub fn complaint(&self, floors: &Floors) -> Option<String> {
        if self.differences > 0 {
            return Some(format!("{} cases differ", self.differences));
        }
        if self.cases < floors.shortest {
            return None;
        }
        let floor = self.cases / floors.once_in;
        let numbers = (1..).zip(self.refused).filter(|(number, _)| Some(*number) != floors.never);
        let numbers = numbers.map(|(number, times)| (format!("refusal {number}"), times));
        match numbers.chain(self.good_books()).find(|(_, times)| *times < floor) {
            Some((what, times)) => Some(format!("{what} was reached {times} times, fewer than {floor}")),
            None if floors.judged && self.judged == 0 => Some("no report was judged by exact numbers".to_string()),
            None => None,
        }
    }

    fn good_books(&self) -> [(String, u64); 3] {
        [
            (format!("a good book of more than {LONG} bytes"), self.long),
            (format!("a good book in more than {FEW} currencies"), self.in_many),
            (format!("a good book in all {CURRENCIES} currencies"), self.in_all),
        ]
    }
}

impl AddAssign<&Tally> for Tally {
    fn add_assign(&mut self, other: &Tally) {
        self.cases += other.cases;
        self.reported += other.reported;
        self.long += other.long;
        self.in_many += other.in_many;
        self.in_all += other.in_all;
        self.judged += other.judged;
        self.differences += other.differences;
        self.refused.iter_mut().zip(other.refused).for_each(|(sum, times)| *sum += times);
    }
}

#[cfg(test)]
mod tests {
    use super::{Tally, FACE, NUMBERS, PROGRAM};
    use reference::Request;

    fn enough() -> Tally {
        let refused = [100; NUMBERS];
        Tally {
            cases: 20_000,
            reported: 18_000,
            long: 100,
            in_many: 100,
            in_all: 100,
            judged: 1,
            refused,
            differences: 0,
        }
    }

    #[test]
    fn enough_is_enough() {
        assert_eq!(enough().complaint(&FACE), None);
    }

    #[test]
    fn a_number_that_is_rare_fails_the_run() {
        for index in 0..NUMBERS {
            let mut tally = enough();
            tally.refused[index] = 99;
            let complaint = tally.complaint(&FACE).unwrap_or_default();
            assert!(complaint.starts_with(&format!("refusal {} was reached 99 times", index + 1)), "{complaint}");
        }
    }

    #[test]
    fn the_report_program_owes_every_number_but_18() {
        let lacking = |number: usize| {
            let mut tally = enough();
            tally.refused[number - 1] = 0;
            tally.complaint(&PROGRAM)
        };
        assert!((1..=20).all(|number| lacking(number).is_none() == (number == 18)));
    }

    #[test]
    fn good_books_that_are_rare_no_exact_number_or_a_difference_fails_the_run() {
        let complaint = |tally: Tally| tally.complaint(&FACE).unwrap_or_default();
        assert!(complaint(Tally { long: 99, ..enough() }).contains("60000 bytes was reached 99 times"));
        assert!(complaint(Tally { in_many: 99, ..enough() }).contains("more than 8 currencies was reached 99 times"));
        assert!(complaint(Tally { in_all: 99, ..enough() }).contains("all 32 currencies was reached 99 times"));
        assert!(complaint(Tally { judged: 0, ..enough() }).contains("exact numbers"));
        assert_eq!(complaint(Tally { differences: 1, ..enough() }), "1 cases differ");
    }

    /// A flat curve of kind 8 and a flow of nil of kind 1.
    fn records(curves: u8, positions: u8) -> Vec<u8> {
        let curve = |currency| [&[8, currency][..], &[0; 82]].concat();
        let flow = |currency| vec![1, currency, 1, 0, 0, 0, 0, 0, 0, 0];
        [(1..=curves).flat_map(curve).collect::<Vec<u8>>(), (1..=positions).flat_map(flow).collect()].concat()
    }

    #[test]
    fn books_count_by_their_currencies() {
        let counted = |curves, positions| {
            let book = records(curves, positions);
            let mut tally = Tally::default();
            tally.count(&book, &Request::roomy(&book, 1).answer());
            (tally.reported, tally.in_many, tally.in_all)
        };
        assert_eq!(
            [counted(8, 8), counted(9, 0), counted(32, 31), counted(32, 32), counted(31, 32)],
            [(1, 0, 0), (1, 1, 0), (1, 1, 0), (1, 1, 1), (0, 0, 0)]
        );
    }

    #[test]
    fn batches_add_up() {
        let mut all = enough();
        all += &enough();
        assert_eq!((all.cases, all.refused), (40_000, [200; NUMBERS]));
        assert_eq!((all.long, all.in_many, all.in_all, all.judged), (200, 200, 200, 2));
    }
}

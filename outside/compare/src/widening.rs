//! The step from a stored report of 58 numbers to one of 202, through the C face: reports of books in currencies 1 to
//! 8, as the reference makes them, and lists of any numbers. What comes back is held against the reference.

use crate::face::Face;
use crate::rooms::{at_front, Call, Outcome, Rooms};
use books::{Case, Draw};
use reference::{widen, Answer, Return, REPORT_CELLS, STORED_CELLS, STORED_CURRENCIES};

/// Further differences are counted.
const SHOWN: u64 = 20;
/// A run counts from so many seeds on, if each kind of call came at least once in so many seeds.
const SHORTEST: u64 = 1_000;
const ONCE_IN: u64 = 10;

/// One call: the stored numbers, the rooms as they are before it, of which the ledger has no cell, and at which end of
/// its pages each lies.
pub struct Widening {
    pub stored: Vec<i64>,
    pub before: Rooms,
    pub at_front: bool,
}

impl Widening {
    fn of(stored: Vec<i64>, room: usize, seed: u64) -> Widening {
        Widening { stored, before: Rooms::patterned(seed, room, 0), at_front: at_front(seed) }
    }

    fn due(&self) -> Outcome {
        let mut rooms = self.before.clone();
        let refused = widen(&self.stored, &mut rooms.report).err();
        Outcome::told(refused.map(|refusal| (refusal.number, refusal.place)), rooms)
    }
}

/// What a run came to.
#[derive(Default)]
pub struct Widened {
    seeds: u64,
    /// Reports of books; other numbers, written; turned down for the number of stored cells, for the room, for both.
    of_books: u64,
    of_any: u64,
    bad_length: u64,
    short_room: u64,
    both: u64,
    pub differences: u64,
}

/// For each seed its case, if it has a report over 8 currencies, and a list of any numbers.
pub fn compare(face: &mut Face, first_seed: u64, seeds: u64) -> Widened {
    let mut widened = Widened { seeds, ..Widened::default() };
    for seed in (0..seeds).map(|index| first_seed.wrapping_add(index)) {
        // Not the draws that the case is made by.
        let mut draw = Draw::seeded(!seed);
        let of_book = of_a_book(face, &mut draw, seed, &mut widened);
        let of_any = of_any_numbers(face, &mut draw, seed, &mut widened);
        for difference in [of_book, of_any].into_iter().flatten() {
            widened.differences += 1;
            if widened.differences <= SHOWN {
                println!("difference at seed {seed}: {difference}");
            }
        }
    }
    widened
}

/// The case's report over 8 currencies, widened, is its report: by the reference, and by the face on the same book.
fn of_a_book(face: &mut Face, draw: &mut Draw, seed: u64, widened: &mut Widened) -> Option<String> {
    let case = books::case(seed);
    let (stored, report) = reports(&case)?;
    widened.of_books += 1;
    let widening = Widening::of(stored, REPORT_CELLS + draw.pick(&[0, 0, 1, 40]), seed);
    let due = widening.due();
    if due.rooms.report[..REPORT_CELLS] != report {
        return Some("the reference's report over 8 currencies, widened, is not its report".to_string());
    }
    difference(face, &widening, &due).or_else(|| match face.call(&Call::of(case, seed)) {
        Ok(outcome) if outcome.rooms.report[..REPORT_CELLS] == report => None,
        Ok(_) => Some("the widened report is not that of the same book through the face".to_string()),
        Err(died) => Some(died),
    })
}

/// The reference's report of a case over 8 currencies, and that over all, if its book is accepted and has no others.
fn reports(case: &Case) -> Option<(Vec<i64>, Vec<i64>)> {
    let Answer::Accepted(result) = case.request().answer() else { return None };
    if result.positions.curved().any(|currency| currency >= STORED_CURRENCIES) {
        return None;
    }
    let report = result.report();
    Some((Return::over(STORED_CURRENCIES, result.positions, case.capital as i64).report(), report))
}

/// Right and wrong numbers of cells, in long rooms and in short ones.
fn of_any_numbers(face: &mut Face, draw: &mut Draw, seed: u64, widened: &mut Widened) -> Option<String> {
    let both_good = (true, true);
    let (good_length, good_room) = draw.pick(&[both_good, both_good, (true, false), (false, true), (false, false)]);
    let length = if good_length { STORED_CELLS } else { draw.pick(&[0, 1, 48, 57, 59, 116, REPORT_CELLS]) };
    let room = if good_room { REPORT_CELLS + draw.pick(&[0, 0, 1, 300]) } else { draw.pick(&[0, 1, 58, 201]) };
    *match (good_length, good_room) {
        (true, true) => &mut widened.of_any,
        (false, true) => &mut widened.bad_length,
        (true, false) => &mut widened.short_room,
        (false, false) => &mut widened.both,
    } += 1;
    let widening = Widening::of((0..length).map(|_| any_number(draw)).collect(), room, seed);
    difference(face, &widening, &widening.due())
}

/// The numbers are not looked at: the ends of their range are as good as any.
fn any_number(draw: &mut Draw) -> i64 {
    let any = i64::from_le_bytes(std::array::from_fn(|_| draw.byte()));
    draw.pick(&[any, any, any, i64::MIN, i64::MAX, 0])
}

fn difference(face: &mut Face, widening: &Widening, due: &Outcome) -> Option<String> {
    let cells = || format!("{} stored cells, room for {}", widening.stored.len(), widening.before.report.len());
    match face.widen(widening) {
        Ok(outcome) => outcome.difference(due).map(|found| format!("{}: {found}", cells())),
        Err(died) => Some(format!("{}: {died}", cells())),
    }
}

impl Widened {
    /// The one line at the end.
    pub fn line(&self, what: &str) -> String {
        let Widened { of_books, of_any, bad_length, short_room, both, differences, .. } = self;
        format!(
            "{what}: {of_books} stored reports of books and {of_any} lists of any {STORED_CELLS} numbers made into \
             {REPORT_CELLS}, turned down {bad_length} for another length, {short_room} for a short room, {both} for \
             both; {differences} differences"
        )
    }

    /// Why the run does not count as passed, if it does not.
    pub fn complaint(&self) -> Option<String> {
        if self.differences > 0 {
            return Some(format!("{} calls differ", self.differences));
        }
        let Widened { of_books, of_any, bad_length, short_room, both, .. } = self;
        let fewest = [of_books, of_any, bad_length, short_room, both].into_iter().min().expect("five");
        let floor = self.seeds / ONCE_IN;
        (self.seeds >= SHORTEST && *fewest < floor)
            .then(|| format!("a kind of call came {fewest} times, fewer than {floor}"))
    }
}

#[cfg(test)]
mod tests {
    use super::Widened;

    fn enough() -> Widened {
        Widened {
            seeds: 1_000,
            of_books: 100,
            of_any: 100,
            bad_length: 100,
            short_room: 100,
            both: 100,
            differences: 0,
        }
    }

    #[test]
    fn a_kind_of_call_that_is_rare_or_a_difference_fails_the_run() {
        assert_eq!(enough().complaint(), None);
        let rare = [
            Widened { of_books: 99, ..enough() },
            Widened { of_any: 99, ..enough() },
            Widened { bad_length: 99, ..enough() },
            Widened { short_room: 99, ..enough() },
            Widened { both: 99, ..enough() },
        ];
        for widened in rare {
            assert_eq!(widened.complaint(), Some("a kind of call came 99 times, fewer than 100".to_string()));
        }
        assert_eq!(Widened { seeds: 999, both: 0, ..enough() }.complaint(), None, "too short a run to tell");
        assert_eq!(Widened { differences: 1, ..enough() }.complaint(), Some("1 calls differ".to_string()));
    }
}

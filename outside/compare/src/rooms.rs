//! One call of the C face: what is lent, what comes back, and what has to come back.

use books::Case;
use reference::Request;

/// The three rooms of a call.
#[derive(Clone, PartialEq, Eq)]
pub struct Rooms {
    pub report: Vec<i64>,
    pub ledger: Vec<i64>,
    pub place: Vec<i64>,
}

/// A call: the case, the rooms as they are before it, and at which end of its pages each room lies.
#[derive(Clone)]
pub struct Call {
    pub book: Vec<u8>,
    pub capital: u64,
    pub before: Rooms,
    pub at_front: bool,
}

/// The answer's number, 0 for a report, and the rooms after the call.
#[derive(PartialEq, Eq)]
pub struct Outcome {
    pub number: u64,
    pub rooms: Rooms,
}

impl Call {
    /// The call of a case. The seed decides what is not the case's business: the pattern in the rooms, how many
    /// cells are lent for the place, and where the rooms lie.
    pub fn of(case: Case, seed: u64) -> Call {
        let before = Rooms::patterned(seed, case.report_room, case.ledger_room);
        Call { book: case.book, capital: case.capital, before, at_front: at_front(seed) }
    }

    pub fn with_book(&self, book: &[u8]) -> Call {
        Call { book: book.to_vec(), ..self.clone() }
    }

    pub fn request(&self) -> Request<'_> {
        Request {
            book: &self.book,
            capital: self.capital,
            report_room: self.before.report.len(),
            ledger_room: self.before.ledger.len(),
        }
    }
}

impl Rooms {
    pub fn patterned(seed: u64, report_cells: usize, ledger_cells: usize) -> Rooms {
        Rooms {
            report: pattern(seed, report_cells),
            ledger: pattern(!seed, ledger_cells),
            place: pattern(seed, [1, 2, 1, 3, 1, 2, 1, 0][seed as usize % 8]),
        }
    }
}

/// Whether each room lies at the front of its pages or ends at their end.
pub fn at_front(seed: u64) -> bool {
    seed / 8 % 4 == 0
}

/// Cells that no book would bring about by chance, different from cell to cell and from seed to seed.
fn pattern(seed: u64, cells: usize) -> Vec<i64> {
    let mixed = |cell: u64| (seed ^ 0x5bd1_e995).wrapping_mul(0x9e37_79b9_7f4a_7c15).wrapping_add(cell << 40 | 0xa5);
    (0..cells as u64).map(|cell| mixed(cell) as i64).collect()
}

impl Outcome {
    /// What has to come back, by the reference.
    pub fn due(call: &Call, answer: &reference::Answer) -> Outcome {
        let mut rooms = call.before.clone();
        answer.fill(&mut rooms.report, &mut rooms.ledger);
        Outcome::told(answer.refused(), rooms)
    }

    /// The rooms with the place told in them, and the number: 0 for both where there is no refusal.
    pub fn told(refused: Option<(u8, usize)>, mut rooms: Rooms) -> Outcome {
        let (number, place) = refused.unwrap_or((0, 0));
        if let Some(cell) = rooms.place.first_mut() {
            *cell = place as i64;
        }
        Outcome { number: u64::from(number), rooms }
    }

    /// The first difference to what was due, in words.
    pub fn difference(&self, due: &Outcome) -> Option<String> {
        if self.number != due.number {
            return Some(format!("the answer is {} and {} was due", self.number, due.number));
        }
        let (found, due) = (&self.rooms, &due.rooms);
        let in_place = || first_difference("place", &found.place, &due.place);
        let in_report = || first_difference("report", &found.report, &due.report);
        in_place().or_else(in_report).or_else(|| first_difference("ledger", &found.ledger, &due.ledger))
    }
}

fn first_difference(room: &str, found: &[i64], due: &[i64]) -> Option<String> {
    let cell = found.iter().zip(due).position(|(one, other)| one != other)?;
    Some(format!("{room} cell {cell} is {} and {} was due", found[cell], due[cell]))
}

#[cfg(test)]
mod tests {
    use super::{pattern, Call};
    use std::collections::BTreeSet;

    /// No case lends more cells.
    const LONGEST_ROOM: usize = 5_000;

    /// A cell that is written with what it should hold anyway would hide a difference.
    #[test]
    fn no_two_cells_of_a_pattern_are_alike_and_none_is_nil() {
        for seed in 0..100 {
            let cells = pattern(seed, LONGEST_ROOM);
            let different: BTreeSet<i64> = cells.iter().copied().collect();
            assert!(
                different.len() == LONGEST_ROOM && different.iter().all(|cell| cell.unsigned_abs() > 1 << 32),
                "{seed}"
            );
        }
    }

    #[test]
    fn no_room_is_longer() {
        let rooms = (0..10_000).map(books::case).map(|case| case.report_room.max(case.ledger_room));
        assert_eq!(rooms.max(), Some(LONGEST_ROOM));
    }

    #[test]
    fn seeds_lend_no_cell_one_or_more_for_the_place_at_either_end_of_a_page() {
        let calls: Vec<Call> = (0..64).map(|seed| Call::of(books::case(seed), seed)).collect();
        let lent: BTreeSet<usize> = calls.iter().map(|call| call.before.place.len()).collect();
        let at_front = calls.iter().filter(|call| call.at_front).count();
        assert_eq!((lent, at_front), ([0, 1, 2, 3].into(), 16));
    }
}

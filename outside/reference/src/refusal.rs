//! Why a book is turned down (01, "Turned down").

/// A fault found in a record, before it is known where the record begins.
#[derive(Debug)]
pub struct Fault {
    number: u8,
    /// Bytes of the record before the field at fault; 0 where the record as a whole is at fault.
    within: usize,
    because: String,
}

impl Fault {
    pub fn of_record(number: u8, because: String) -> Fault {
        Fault { number, within: 0, because }
    }

    pub fn within(self, within: usize) -> Fault {
        Fault { within, ..self }
    }

    /// The refusal, where the record begins at `start`.
    pub fn at(self, start: usize) -> Refusal {
        Refusal { number: self.number, place: start + self.within, because: self.because }
    }
}

/// A refusal: its number and place as 01 has them, and for people the finding in words.
#[derive(Clone, Debug)]
pub struct Refusal {
    pub number: u8,
    pub place: usize,
    pub because: String,
}

/// `Err` with the number and the finding, unless the condition holds. The fault is the whole record's, until a field's
/// place is told.
pub fn demand(holds: bool, number: u8, because: impl FnOnce() -> String) -> Result<(), Fault> {
    if holds {
        Ok(())
    } else {
        Err(Fault::of_record(number, because()))
    }
}

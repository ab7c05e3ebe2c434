//! The table of records (01, "Records"; 02, requests 1, 5 and 7), said once: reading, writing, checks and the text form
//! all follow it.

use crate::ladder::BUCKETS;

pub const CURRENCIES: usize = 32;
/// The six scenarios; the base is scenario 0 and comes on top.
pub const SCENARIOS: usize = 6;

/// What a field holds; it decides the field's width and the numbers that are allowed in it.
#[derive(Clone, Copy, Debug, PartialEq, Eq)]
pub enum Item {
    Currency,
    Side,
    Months,
    Days,
    Period,
    Count,
    Amount,
    Share,
    Category,
    OptionValue,
    Rate,
    Shock,
    Edition,
    Code,
}

impl Item {
    pub fn width(self) -> usize {
        match self {
            Item::Currency | Item::Side | Item::Days | Item::Period | Item::Category | Item::Edition => 1,
            Item::Months | Item::Count | Item::Share | Item::Shock => 2,
            Item::Code => 3,
            Item::Amount | Item::OptionValue | Item::Rate => 4,
        }
    }

    /// The smallest and the greatest number that the bytes can hold, allowed or not.
    pub fn bounds(self) -> (i64, i64) {
        let numbers = 1i64 << (8 * self.width());
        match self {
            Item::OptionValue | Item::Rate => (-numbers / 2, numbers / 2 - 1),
            _ => (0, numbers - 1),
        }
    }

    fn read(self, bytes: &[u8]) -> i64 {
        let unsigned = bytes.iter().fold(0i64, |number, byte| number << 8 | i64::from(*byte));
        let (low, high) = self.bounds();
        if unsigned > high {
            unsigned + 2 * low
        } else {
            unsigned
        }
    }

    fn write(self, value: i64, bytes: &mut Vec<u8>) {
        let (low, high) = self.bounds();
        assert!((low..=high).contains(&value), "{value} does not fit {self:?}");
        bytes.extend_from_slice(&value.to_be_bytes()[8 - self.width()..]);
    }
}

pub struct Field {
    pub name: &'static str,
    pub item: Item,
    /// 1, or one number for each bucket or scenario.
    pub times: usize,
}

impl Field {
    /// Says which of the field's numbers is meant, where it holds several.
    pub fn which(&self, index: usize) -> String {
        match self.times {
            1 => String::new(),
            _ => format!(" of {} {}", self.counted_by(), index + 1),
        }
    }

    /// What the numbers of a field that holds several are counted by.
    pub fn counted_by(&self) -> &'static str {
        if self.times == SCENARIOS {
            "scenario"
        } else {
            "bucket"
        }
    }
}

pub struct Kind {
    pub number: u8,
    pub name: &'static str,
    pub fields: &'static [Field],
}

const fn one(name: &'static str, item: Item) -> Field {
    Field { name, item, times: 1 }
}

const fn per_bucket(name: &'static str, item: Item) -> Field {
    Field { name, item, times: BUCKETS }
}

const CURRENCY: Field = one("currency", Item::Currency);
const SIDE: Field = one("side", Item::Side);
const MONTHS: Field = one("months", Item::Months);
const DAYS: Field = one("days", Item::Days);
const PRINCIPAL: Field = one("principal", Item::Amount);
const COUPON: Field = one("coupon", Item::Amount);
const PERIOD: Field = one("period", Item::Period);
const COUNT: Field = one("count", Item::Count);
const SHARE: Field = one("share", Item::Share);
const RATES: Field = per_bucket("rates", Item::Rate);

pub static KINDS: [Kind; 10] = [
    Kind { number: 1, name: "single-flow", fields: &[CURRENCY, SIDE, MONTHS, DAYS, one("amount", Item::Amount)] },
    Kind { number: 2, name: "fixed-coupons", fields: &[CURRENCY, SIDE, PERIOD, COUNT, COUPON, PRINCIPAL] },
    Kind { number: 3, name: "floating", fields: &[CURRENCY, SIDE, MONTHS, DAYS, PRINCIPAL, COUPON] },
    Kind {
        number: 4,
        name: "non-maturity-deposit",
        fields: &[
            CURRENCY,
            one("category", Item::Category),
            one("total", Item::Amount),
            per_bucket("core", Item::Amount),
        ],
    },
    Kind {
        number: 5,
        name: "prepayable-loan",
        fields: &[CURRENCY, SHARE, per_bucket("principals", Item::Amount), per_bucket("interests", Item::Amount)],
    },
    Kind { number: 6, name: "term-deposit", fields: &[CURRENCY, SHARE, per_bucket("amounts", Item::Amount)] },
    Kind {
        number: 7,
        name: "option-add-on",
        fields: &[CURRENCY, SIDE, Field { name: "values", item: Item::OptionValue, times: SCENARIOS }],
    },
    Kind {
        number: 8,
        name: "curve",
        fields: &[CURRENCY, RATES, one("parallel", Item::Shock), one("short", Item::Shock), one("long", Item::Shock)],
    },
    Kind {
        number: 9,
        name: "floating-spread",
        fields: &[CURRENCY, SIDE, MONTHS, DAYS, PRINCIPAL, COUPON, PERIOD, COUNT, one("spread", Item::Amount)],
    },
    Kind {
        number: 10,
        name: "listed-curve",
        fields: &[CURRENCY, one("edition", Item::Edition), one("code", Item::Code), RATES],
    },
];

impl Kind {
    pub fn numbered(number: u8) -> Option<&'static Kind> {
        KINDS.iter().find(|kind| kind.number == number)
    }

    pub fn body_length(&self) -> usize {
        self.fields.iter().map(|field| field.item.width() * field.times).sum()
    }

    /// Where a number of a field begins in a record of this kind: the kind's own byte is at 0.
    pub fn place_of(&self, name: &str, index: usize) -> usize {
        let mut place = 1;
        for field in self.fields {
            if field.name == name {
                return place + field.item.width() * index;
            }
            place += field.item.width() * field.times;
        }
        panic!("a {} has no {name}", self.name);
    }

    /// The field and which of its numbers begins at a place within a record of this kind, if one does.
    pub fn begins_at(&self, place: usize) -> Option<(&'static Field, usize)> {
        let mut numbers = self.fields.iter().flat_map(|field| (0..field.times).map(move |index| (field, index)));
        numbers.find(|(field, index)| self.place_of(field.name, *index) == place)
    }

    fn value_count(&self) -> usize {
        self.fields.iter().map(|field| field.times).sum()
    }
}

/// A whole record as it lies in the book: its fields are read, not yet judged.
#[derive(Clone)]
pub struct Record {
    pub kind: &'static Kind,
    values: Vec<i64>,
}

impl Record {
    /// A record from its values in the order of the layout; each has to fit its field's bytes.
    pub fn new(kind: &'static Kind, values: Vec<i64>) -> Record {
        assert_eq!(values.len(), kind.value_count(), "values of a {}", kind.name);
        Record { kind, values }
    }

    fn read(kind: &'static Kind, mut body: &[u8]) -> Record {
        let mut values = Vec::with_capacity(kind.value_count());
        for field in kind.fields {
            for _ in 0..field.times {
                let (bytes, rest) = body.split_at(field.item.width());
                values.push(field.item.read(bytes));
                body = rest;
            }
        }
        Record { kind, values }
    }

    pub fn bytes(&self) -> Vec<u8> {
        let mut bytes = vec![self.kind.number];
        for field in self.kind.fields {
            self.all(field.name).iter().for_each(|value| field.item.write(*value, &mut bytes));
        }
        bytes
    }

    /// Bytes in the book, the kind's included.
    pub fn length(&self) -> usize {
        1 + self.kind.body_length()
    }

    /// The values of a field; the kind must have it.
    pub fn all(&self, name: &str) -> &[i64] {
        let mut start = 0;
        for field in self.kind.fields {
            if field.name == name {
                return &self.values[start..start + field.times];
            }
            start += field.times;
        }
        panic!("a {} has no {name}", self.kind.name);
    }

    /// The value of a field that holds a single number.
    pub fn one(&self, name: &str) -> i64 {
        self.all(name)[0]
    }

    /// The same record with one number of one field changed.
    pub fn with(&self, name: &str, index: usize, value: i64) -> Record {
        let before: usize =
            self.kind.fields.iter().take_while(|field| field.name != name).map(|field| field.times).sum();
        let mut changed = self.clone();
        changed.values[before + index] = value;
        changed
    }

    /// The record's currency, counted from 0; only for a record whose currency has been checked.
    pub fn currency_index(&self) -> usize {
        self.one("currency") as usize - 1
    }
}

/// What begins at a place of the book.
pub enum Step {
    End,
    Whole(Record),
    UnknownKind(u8),
    CutShort { kind: &'static Kind, left: usize },
}

pub fn step(book: &[u8], place: usize) -> Step {
    let Some((number, rest)) = book[place..].split_first() else { return Step::End };
    let Some(kind) = Kind::numbered(*number) else { return Step::UnknownKind(*number) };
    match rest.get(..kind.body_length()) {
        Some(body) => Step::Whole(Record::read(kind, body)),
        None => Step::CutShort { kind, left: rest.len() },
    }
}

/// The whole records from the book's first byte on, and the bytes after the last of them.
pub fn split(book: &[u8]) -> (Vec<&[u8]>, &[u8]) {
    let mut records = Vec::new();
    let mut place = 0;
    while let Step::Whole(record) = step(book, place) {
        let next = place + record.length();
        records.push(&book[place..next]);
        place = next;
    }
    (records, &book[place..])
}

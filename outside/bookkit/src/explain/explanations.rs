//! The refusal numbers, each said once.

use super::Explanation;

const RECORD: &str = "the record's first byte";
const FIELD: &str = "the first byte of the field";
const NOUGHT: &str = "always 0";

/// The cause of any number that a field earns.
const SHIFT: &str = "A dropped or doubled byte further up shifts everything after it, and the first bad field may lie far \
                     behind it. Then the records before this one make no sense either, and the size of the file is not that \
                     at its source.";
const BYTE_ORDER: &str =
    "The export wrote the lowest byte first: then other numbers of the file are far too great as well.";
const UNITS: &str = "Money was exported in units in place of thousands.";

const fn number(
    number: u8,
    meaning: &'static str,
    place: &'static str,
    look_at: &'static str,
    causes: &'static [&'static str],
) -> Explanation {
    Explanation { number, meaning, place, look_at, causes }
}

pub static EXPLANATIONS: [Explanation; 20] = [
    number(
        1,
        "unknown kind: where a record should begin, the byte is not a kind from 1 to 10.",
        RECORD,
        "Look at the byte at the place. At place 0: does the file begin with capital? Then use bookkit show \
         --input. Later on: is the record before it of the length that its kind asks for, or did bytes get \
         lost?",
        &[SHIFT, "The export put a header, a line end or padding before or between records: a book has neither."],
    ),
    number(
        2,
        "body cut short: the book ends inside the last record.",
        RECORD,
        "Compare the length of the file with that at its source: most often its end got lost.",
        &["The transfer broke off: the file is shorter than at its source.", SHIFT],
    ),
    number(
        3,
        "bad currency: it has to be 1 to 32.",
        FIELD,
        "Look at the byte at the place, the second of its record.",
        &[SHIFT, "Currencies are numbered from 0 on, or by another list: a book numbers its own from 1 to 32."],
    ),
    number(
        4,
        "bad side: it has to be 1 or 2 (asset or liability; for an option add-on sold or bought).",
        FIELD,
        "Look at the byte at the place, the third of its record.",
        &[SHIFT, "Sides are exported as 0 and 1, or as letters."],
    ),
    number(
        5,
        "bad months, days, period or count: months 0 to 600, days 0 to 30, period 1, 3, 6 or 12, count from 1 \
         on, and the last month at most 600: period times count, for a floating-spread after its reset.",
        "the first byte of the field; of the count where the last month is too late",
        "Days from 31 on belong into months. Terms beyond 50 years cannot be reported. The spread of a \
         floating-spread falls a period after the reset for the first time.",
        &[
            "Terms are exported in days alone, or from another date than the reporting date.",
            "A position without an end was exported with a term far away.",
            BYTE_ORDER,
            SHIFT,
        ],
    ),
    number(
        6,
        "amount or option value too great: magnitudes go up to 1,000,000,000 (thousands of the reporting \
         currency).",
        FIELD,
        "Look for money given in units in place of thousands, or for a minus sign: amounts carry none, the \
         side says it.",
        &[UNITS, "An amount below nil was written: read without a sign it is above 2,000,000,000.", BYTE_ORDER, SHIFT],
    ),
    number(
        7,
        "share above 10,000: shares are hundredths of a per cent, 10,000 being all.",
        FIELD,
        "Look for a share on another scale.",
        &["Shares are exported in hundred-thousandths or millionths.", BYTE_ORDER, SHIFT],
    ),
    number(
        8,
        "bad category: a non-maturity deposit is of category 1, 2 or 3.",
        FIELD,
        "Look at the byte at the place, the third of its record.",
        &["Categories are numbered from 0 on, or by the bank's own list.", SHIFT],
    ),
    number(
        9,
        "core above its cap: at most 90, 70 or 50 per cent of the total for category 1, 2 or 3.",
        RECORD,
        "Add up the 19 core amounts and compare with the total. Equality passes.",
        &[
            "The total was exported without the core, or in thousands where the core is in units.",
            "The deposits carry another category's number.",
            "The bank's own model has a larger core than the supervisor allows: then the core has to be cut.",
        ],
    ),
    number(
        10,
        "core average above its cap: the core's average midpoint is at most 5, 4.5 or 4 years for category 1, \
         2 or 3.",
        RECORD,
        "Weigh the core amounts with the midpoints of their buckets; look for core in buckets too far out.",
        &[
            "Buckets are counted from 0 in the export, so that all core lies one bucket too far out.",
            "The deposits carry another category's number.",
            "The bank's own model runs longer than the supervisor allows: then the core has to be moved.",
        ],
    ),
    number(
        11,
        "interest without principal: a bucket has scheduled interest, but neither it nor a later one has \
         scheduled principal.",
        "the first byte of the interest, the lowest such bucket's",
        "Look at the buckets after the last principal of the loan: interest has to end with it.",
        &[
            "The last principals were left out.",
            "Principals and interests are exported with buckets that are counted differently.",
            SHIFT,
        ],
    ),
    number(
        12,
        "second curve: the currency has a curve from an earlier record, a curve or a listed-curve.",
        RECORD,
        "Look for two curves of one currency, or a curve with another currency's number.",
        &["Two exports with the same curve were put into one book.", "A curve carries another currency's number."],
    ),
    number(
        13,
        "rate, shock or shocked rate out of range: rates and shocked rates are -50,000 to 300,000 millionths, \
         shocks 0 to 1,000 basis points. No floor is applied. A listed-curve's shocks are those of its edition.",
        "the first byte of the rate or the shock; for a shocked rate, of the base rate in the lowest bucket that has \
         one out of range in some scenario",
        "If the rates and shocks themselves are in range, a shock takes a rate out of it.",
        &[
            "Rates are exported on another scale: 2 per cent is 20,000.",
            "Shocks are exported in millionths: 200 basis points is 200.",
            BYTE_ORDER,
            SHIFT,
        ],
    ),
    number(
        14,
        "too much in one currency: the magnitudes of its flows in one scenario over all records so far, or \
         those of its option values, or all scheduled amounts of one prepayable loan, are above \
         1,000,000,000.",
        RECORD,
        "Magnitudes are added before netting: an asset and a liability do not set each other off.",
        &[UNITS, "Records were exported twice.", BYTE_ORDER],
    ),
    number(
        15,
        "curve lacking: a currency is used by a position and has no curve in the whole book.",
        "the lowest such currency, which is no byte",
        "Add the currency's curve, or look for a position with a wrong currency. A position of nil uses its \
         currency too.",
        &[
            "The curves come from another system and were not put into the book.",
            "A position carries another currency's number.",
            "The end of the book got lost at a record's end, and a curve with it: compare the size of the file with its source.",
        ],
    ),
    number(
        16,
        "bad capital: Tier 1 capital has to be 1 to 1,000,000,000,000; an input below 8 bytes has no capital \
         at all.",
        NOUGHT,
        "Look at the first 8 bytes of the input: capital comes before the book, highest byte first, in \
         thousands.",
        &[
            "The book was exported without its capital: then its first record is read as capital.",
            BYTE_ORDER,
            "This is another file than was meant.",
        ],
    ),
    number(
        17,
        "book too long: a book has at most 65,528 bytes, an input of irreport 65,536.",
        NOUGHT,
        "Single flows of one currency, side and term can be added up into one record.",
        &["Positions are exported one by one.", "Several books were put into one file.", "This is another file than was meant."],
    ),
    number(
        18,
        "room too short: the caller's room for the report is below 202 numbers or that for the ledger below \
         4,256; or the stored report that was to be widened has not exactly 58 numbers.",
        NOUGHT,
        "This is about the calling program, not the book; irreport itself never gives it.",
        &["The calling program was built when there were 8 currencies."],
    ),
    number(
        19,
        "unknown edition: a listed-curve takes its shocks from edition 1, the standard of 2016, or edition 2, the \
         recalibration of 2024.",
        RECORD,
        "Look at the third byte of the record. It is the number 1 or 2, not the letter.",
        &["The edition is exported as a letter: 31 in hexadecimal is the letter 1.", SHIFT],
    ),
    number(
        20,
        "code not listed: the edition that a listed-curve names has no shocks for its currency code.",
        RECORD,
        "Look at the fourth to the sixth byte of the record: three capital letters, as EUR. docs/format.md has the \
         codes of each edition. The shocks of a currency that has none can be given in a curve.",
        &["The code is in small letters, or has a blank.", "The edition does not list this currency.", SHIFT],
    ),
];

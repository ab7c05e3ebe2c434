//! An independent implementation of documents 01 and 02, straightforward and slow, to compare the product with.
//! It shares no code and no table with the product: what comes from the series is worked out from the series, and the
//! listed shocks stand as the Committee prints them.
//!
//! `Request::answer` is the product's call on a book; `Answer::fill` says what the rooms then hold; `widen` is its call on a
//! stored report; `irreport` and `irdetail` are the two programs; `Exact` has the exact changes and the exact measure.

mod answer;
mod curve;
mod discount;
mod exact;
mod fields;
mod flows;
mod fraction;
mod irdetail;
mod irreport;
mod ladder;
mod layout;
mod natural;
mod refusal;
mod report;
mod rounding;
mod series;
mod shock_lists;
mod stored;
mod walk;

pub use answer::{Answer, Request, GREATEST_CAPITAL, LONGEST_BOOK};
pub use curve::{is_curve, rate_changes, shocks, Curve};
pub use discount::{computed_factor, exact_factor, exponent, meets_a_half};
pub use exact::Exact;
pub use fields::{periods_start, LAST_MONTH, RATES};
pub use flows::{flows, Flows, CORE_CAPS, GREATEST_GROSS};
pub use fraction::Fraction;
pub use irdetail::irdetail;
pub use irreport::{answer_input, irreport, split_input, CAPITAL_BYTES};
pub use ladder::{bucket_index, width, BUCKETS, MIDPOINTS, UPPER_ENDS};
pub use layout::{split, step, Field, Item, Kind, Record, Step, CURRENCIES, KINDS, SCENARIOS};
pub use refusal::Refusal;
pub use report::{Return, Verdict, LIMIT, REPORT_CELLS};
pub use shock_lists::{listed, listed_shocks, Code, Listed};
pub use stored::{widen, STORED_CELLS, STORED_CURRENCIES};
pub use walk::{cell, Positions, LEDGER_CELLS};

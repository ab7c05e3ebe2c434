//! The flows of one record in the base and in each scenario (01, "Records"; 02, requests 1 and 3).

use crate::fields::periods_start;
use crate::ladder::{bucket_index, width, BUCKETS, MIDPOINTS};
use crate::layout::{Record, SCENARIOS};
use crate::refusal::{demand, Fault};

pub type Ladder = [i64; BUCKETS];
/// Flows bucket by bucket, base first; assets plus, liabilities minus.
pub type Flows = [Ladder; SCENARIOS + 1];

/// The limit of 14.
pub const GREATEST_GROSS: i64 = 1_000_000_000;

/// For categories 1, 2 and 3: the cap on the core in per cent of the total, and the cap on its average midpoint
/// in ten-thousandths of a year.
pub const CORE_CAPS: [(i64, i64); 3] = [(90, 50_000), (70, 45_000), (50, 40_000)];

/// A rate is the share times one of these, base first, in hundred-thousandths; a loan's is by the year.
const LOAN_MULTIPLES: [i64; SCENARIOS + 1] = [10, 8, 12, 8, 12, 8, 12];
const TERM_DEPOSIT_MULTIPLES: [i64; SCENARIOS + 1] = [10, 12, 8, 8, 12, 12, 8];
const WHOLE_RATE: i64 = 100_000;
const MONTHS_OF_A_YEAR: i64 = 12;

/// What a record has to meet beyond its single fields, in the order 9, 10, 11, 14; the running limbs of 14
/// are the walk's.
pub fn check_record(record: &Record) -> Result<(), Fault> {
    match record.kind.number {
        4 => check_core(record),
        5 => check_schedule(record),
        _ => Ok(()),
    }
}

/// The flows of a record that passed its checks.
pub fn flows(record: &Record) -> Flows {
    match record.kind.number {
        1 => in_every_scenario(at_term(record, record.one("amount"))),
        2 => in_every_scenario(fixed_coupons(record)),
        3 => in_every_scenario(at_term(record, record.one("principal") + record.one("coupon"))),
        4 => in_every_scenario(non_maturity_deposit(record)),
        5 => LOAN_MULTIPLES.map(|multiple| prepayable_loan(record, rate(record, multiple))),
        6 => TERM_DEPOSIT_MULTIPLES.map(|multiple| term_deposit(record, rate(record, multiple))),
        9 => in_every_scenario(floating_spread(record)),
        _ => in_every_scenario([0; BUCKETS]),
    }
}

fn in_every_scenario(ladder: Ladder) -> Flows {
    [ladder; SCENARIOS + 1]
}

fn sign(record: &Record) -> i64 {
    if record.one("side") == 1 {
        1
    } else {
        -1
    }
}

fn rate(record: &Record, multiple: i64) -> i64 {
    (record.one("share") * multiple).min(WHOLE_RATE)
}

fn at_term(record: &Record, amount: i64) -> Ladder {
    let mut ladder = [0; BUCKETS];
    ladder[bucket_index(record.one("months"), record.one("days"))] = sign(record) * amount;
    ladder
}

fn fixed_coupons(record: &Record) -> Ladder {
    let mut ladder = [0; BUCKETS];
    add_regular(&mut ladder, record, "coupon", 0);
    let last = record.one("count") * record.one("period");
    ladder[bucket_index(last, 0)] += sign(record) * record.one("principal");
    ladder
}

fn floating_spread(record: &Record) -> Ladder {
    let mut ladder = at_term(record, record.one("principal") + record.one("coupon"));
    add_regular(&mut ladder, record, "spread", record.one("days"));
    ladder
}

/// The amount of a field at the end of each period, so many days later.
fn add_regular(ladder: &mut Ladder, record: &Record, field: &str, days: i64) {
    let start = periods_start(record);
    for number in 1..=record.one("count") {
        let months = start + number * record.one("period");
        ladder[bucket_index(months, days)] += sign(record) * record.one(field);
    }
}

/// 9 and 10.
fn check_core(record: &Record) -> Result<(), Fault> {
    let (cap, average_cap) = CORE_CAPS[record.one("category") as usize - 1];
    let total = record.one("total");
    let core: i64 = record.all("core").iter().sum();
    demand(100 * core <= cap * total, 9, || format!("core {core} is above {cap} per cent of the total {total}"))?;
    let weighted: i64 = record.all("core").iter().zip(MIDPOINTS).map(|(amount, midpoint)| amount * midpoint).sum();
    demand(weighted <= average_cap * core, 10, || {
        let years = |ten_thousandths: i64| format!("{}.{:04}", ten_thousandths / 10_000, ten_thousandths % 10_000);
        format!(
            "the core's average midpoint is above {} years (rounded down, it is {})",
            years(average_cap),
            years(weighted / core)
        )
    })
}

fn non_maturity_deposit(record: &Record) -> Ladder {
    let core = record.all("core");
    let mut ladder = std::array::from_fn(|bucket| -core[bucket]);
    ladder[0] -= record.one("total") - core.iter().sum::<i64>();
    ladder
}

/// 11, and 14's limb on the scheduled amounts of the record.
fn check_schedule(record: &Record) -> Result<(), Fault> {
    let (principals, interests) = (record.all("principals"), record.all("interests"));
    for (bucket, interest) in interests.iter().enumerate() {
        let principal_left = principals[bucket..].iter().any(|principal| *principal > 0);
        demand(*interest == 0 || principal_left, 11, || {
            format!("interest {interest} in bucket {} has no scheduled principal in it or after", bucket + 1)
        })
        .map_err(|fault| fault.within(record.kind.place_of("interests", bucket)))?;
    }
    let scheduled = principals.iter().chain(interests).sum::<i64>();
    demand(scheduled <= GREATEST_GROSS, 14, || {
        format!("scheduled amounts of the record come to {scheduled}, above {GREATEST_GROSS}")
    })
}

fn prepayable_loan(record: &Record, rate: i64) -> Ladder {
    let (principals, interests) = (record.all("principals"), record.all("interests"));
    let mut outstanding: i64 = principals.iter().sum();
    let mut scheduled_outstanding = outstanding;
    let mut ladder = [0; BUCKETS];
    for bucket in 0..BUCKETS {
        let paid = principals[bucket].min(outstanding);
        let asked = outstanding * rate * width(bucket) / (WHOLE_RATE * MONTHS_OF_A_YEAR);
        let prepaid = asked.min(outstanding - paid);
        let interest = match interests[bucket] {
            0 => 0,
            scheduled => scheduled * outstanding / scheduled_outstanding,
        };
        ladder[bucket] = paid + prepaid + interest;
        outstanding -= paid + prepaid;
        scheduled_outstanding -= principals[bucket];
    }
    ladder
}

fn term_deposit(record: &Record, rate: i64) -> Ladder {
    let mut ladder = [0; BUCKETS];
    for (bucket, amount) in record.all("amounts").iter().enumerate() {
        let moved = amount * rate / WHOLE_RATE;
        ladder[0] -= moved;
        ladder[bucket] -= amount - moved;
    }
    ladder
}

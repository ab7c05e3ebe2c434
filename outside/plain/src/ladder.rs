//! The time ladder (01, "Time ladder").

use crate::fields::LAST_MONTH;

pub const BUCKETS: usize = 19;

/// The months by which buckets 1 to 18 end.
pub const ENDS: [u32; BUCKETS - 1] = [0, 1, 3, 6, 9, 12, 18, 24, 36, 48, 60, 72, 84, 96, 108, 120, 180, 240];

/// In ten-thousandths of a year.
pub const MIDPOINTS: [i64; BUCKETS] = [
    28, 417, 1667, 3750, 6250, 8750, 12500, 17500, 25000, 35000, 45000, 55000, 65000, 75000, 85000, 95000, 125000,
    175000, 250000,
];

/// In months (02, request 3).
pub const WIDTHS: [u64; BUCKETS] = [0, 1, 2, 3, 3, 3, 6, 6, 12, 12, 12, 12, 12, 12, 12, 12, 60, 60, 120];

/// The bucket of each whole month, counted from 0; every month past 240 is in the last.
static OF_MONTH: [u8; LAST_MONTH as usize + 2] = of_months();

const fn of_months() -> [u8; LAST_MONTH as usize + 2] {
    let mut buckets = [0; LAST_MONTH as usize + 2];
    let mut month = 1;
    while month < buckets.len() {
        let before = buckets[month - 1];
        let passed = (before as usize) < ENDS.len() && ENDS[before as usize] < month as u32;
        buckets[month] = if passed { before + 1 } else { before };
        month += 1;
    }
    buckets
}

/// The bucket of a term, counted from 0. A day past a month is past every end up to that month, but for (0,1).
pub fn bucket(months: u32, days: u32) -> usize {
    if months == 0 && days <= 1 {
        return 0;
    }
    let month = if days == 0 { months } else { months + 1 };
    OF_MONTH[month as usize].into()
}

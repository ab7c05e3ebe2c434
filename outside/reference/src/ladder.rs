//! The time ladder (01, "Time ladder").

pub const BUCKETS: usize = 19;

/// Midpoints of the buckets, in ten-thousandths of a year.
pub const MIDPOINTS: [i64; BUCKETS] = [
    28, 417, 1667, 3750, 6250, 8750, 12500, 17500, 25000, 35000, 45000, 55000, 65000, 75000, 85000, 95000, 125000,
    175000, 250000,
];

/// Upper ends of buckets 1 to 18 as (months, days); an end belongs to its bucket.
pub const UPPER_ENDS: [(i64, i64); BUCKETS - 1] = [
    (0, 1),
    (1, 0),
    (3, 0),
    (6, 0),
    (9, 0),
    (12, 0),
    (18, 0),
    (24, 0),
    (36, 0),
    (48, 0),
    (60, 0),
    (72, 0),
    (84, 0),
    (96, 0),
    (108, 0),
    (120, 0),
    (180, 0),
    (240, 0),
];

/// In months, from the end before to the bucket's own; 02 sets the first and the last.
pub fn width(bucket: usize) -> i64 {
    match bucket {
        0 => 0,
        _ if bucket + 1 == BUCKETS => 120,
        _ => UPPER_ENDS[bucket].0 - UPPER_ENDS[bucket - 1].0,
    }
}

/// The bucket of a term, counted from 0: bucket 1 of the paper is 0 here.
pub fn bucket_index(months: i64, days: i64) -> usize {
    UPPER_ENDS.iter().filter(|end| (months, days) > **end).count()
}

#[cfg(test)]
mod tests {
    use super::{width, BUCKETS, MIDPOINTS, UPPER_ENDS};

    /// Buckets 2 to 18 lie between whole months; the first and the last midpoint are set by the paper.
    #[test]
    fn midpoints_lie_in_the_middle() {
        let middle = |pair: &[(i64, i64)]| (10_000 * (pair[0].0 + pair[1].0) + 12) / 24;
        let middles: Vec<i64> = UPPER_ENDS.windows(2).map(middle).collect();
        assert_eq!(MIDPOINTS[1..18], middles);
        assert_eq!((MIDPOINTS[0], MIDPOINTS[18]), (28, 250_000));
    }

    /// As 02, request 3, lists them.
    #[test]
    fn widths_are_those_listed() {
        let listed = [0, 1, 2, 3, 3, 3, 6, 6, 12, 12, 12, 12, 12, 12, 12, 12, 60, 60, 120];
        assert_eq!(std::array::from_fn::<_, BUCKETS, _>(width), listed);
    }
}

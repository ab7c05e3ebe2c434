//! A long run: batch after batch, each from a fresh seed.

use crate::face::Face;
use crate::tally::Tally;
use crate::through_face;
use std::time::{Duration, Instant, SystemTime, UNIX_EPOCH};

/// Cases between two lines of progress.
const BATCH: u64 = 10_000;

/// Until the time is up; the batch that is under way is finished.
pub fn compare(face: &mut Face, seconds: u64) -> Tally {
    let begin = Instant::now();
    let mut all = Tally::default();
    while begin.elapsed() < Duration::from_secs(seconds) {
        let seed = fresh_seed();
        println!("batch of {BATCH} from seed {seed}");
        all += &through_face::compare(face, seed, BATCH, false);
        println!("{}", all.line(&format!("{} s so far", begin.elapsed().as_secs())));
    }
    all
}

/// The clock's nanoseconds, spread over 64 bits: no two batches share cases.
fn fresh_seed() -> u64 {
    let since = SystemTime::now().duration_since(UNIX_EPOCH).unwrap_or_default();
    (since.as_nanos() as u64).wrapping_mul(0xd134_2543_de82_ef95)
}

//! The net flows by bucket as bars: what comes in goes up, what goes out goes down.

use super::scale::{Scale, WHOLE};
use super::shapes::{line, rectangle, text, upright_text, Anchor};
use super::Picture;
use crate::detail::Currency;
use crate::figure::grouped;
use crate::trade::{scenario, upper_end};
use reference::BUCKETS;

/// In tenths of a pixel.
const PLOT: i64 = 1_300;
const TOP: i64 = 200;

/// Where a bucket's part of the width begins.
pub fn begins(bucket: usize) -> i64 {
    WHOLE * bucket as i64 / BUCKETS as i64
}

pub fn middle(bucket: usize) -> i64 {
    (begins(bucket) + begins(bucket + 1)) / 2
}

/// The numbers of the buckets, and beneath them where each ends.
pub fn bucket_labels(top: i64) -> String {
    let label = |bucket: usize| {
        text("figure", (middle(bucket), top + 130), Anchor::Middle, &(bucket + 1).to_string())
            + &upright_text("small", (middle(bucket), top + 180), &upper_end(bucket))
    };
    (0..BUCKETS).map(label).collect()
}

/// Beneath a plot, in tenths of a pixel.
pub const LABELS: i64 = 580;

/// The base as bars; the worst scenario, where there is one, as lines across them.
pub fn ladder(currency: &Currency, worst: usize) -> Picture {
    let (base, shocked) = (&currency.flows[0], &currency.flows[worst]);
    let scale = Scale::over(base.iter().chain(shocked).copied().chain([0]), PLOT);
    let bars: String = (0..BUCKETS).map(|bucket| bar(bucket, base[bucket], &scale)).collect();
    let marks: String =
        (0..BUCKETS).filter(|_| worst > 0).map(|bucket| mark(bucket, shocked[bucket], &scale)).collect();
    let nought = TOP + scale.from_top(0);
    let shapes = format!(
        "{bars}{}{marks}{}{}",
        line("axis", (0, nought), (WHOLE, nought)),
        extremes(base),
        bucket_labels(TOP + PLOT + 200)
    );
    let said: Vec<String> =
        (0..BUCKETS).map(|bucket| format!("bucket {}: {}", bucket + 1, grouped(base[bucket]))).collect();
    Picture {
        title: format!("Net flows of currency {} by bucket", currency.number),
        description: format!("The base, in thousands: {}.", said.join("; ")),
        height: (TOP + PLOT + 200 + LABELS) / 10,
        shapes,
    }
}

pub fn how_to_read_ladder(worst: usize) -> String {
    let lines = if worst > 0 { format!("; lines across: scenario {}", scenario(worst)) } else { String::new() };
    format!(
        "Filled bars come in, open bars go out, in the base{lines}. Beneath: the bucket and where it ends. Thousands."
    )
}

fn bar(bucket: usize, flow: i64, scale: &Scale) -> String {
    let step = begins(bucket + 1) - begins(bucket);
    let (left, width) = (begins(bucket) + step * 15 / 100, step * 70 / 100);
    let (nought, end) = (TOP + scale.from_top(0), TOP + scale.from_top(flow));
    match flow >= 0 {
        true => rectangle("inflow", (left, end), width, nought - end),
        false => rectangle("outflow", (left, nought), width, end - nought),
    }
}

fn mark(bucket: usize, flow: i64, scale: &Scale) -> String {
    let (height, step) = (TOP + scale.from_top(flow), begins(bucket + 1) - begins(bucket));
    line("across", (begins(bucket) + step / 10, height), (begins(bucket + 1) - step / 10, height))
}

/// The two figures that give the height its scale; one of them is nil where all flows go one way.
fn extremes(base: &[i64; BUCKETS]) -> String {
    let said = |what: &str, extreme: Option<(usize, &i64)>| {
        extreme.map_or(String::new(), |(bucket, flow)| format!("{what} {}, bucket {}", grouped(*flow), bucket + 1))
    };
    let greatest = base.iter().enumerate().filter(|(_, flow)| **flow > 0).max_by_key(|(_, flow)| **flow);
    let least = base.iter().enumerate().filter(|(_, flow)| **flow < 0).min_by_key(|(_, flow)| **flow);
    text("figure", (0, 130), Anchor::Start, &said("greatest in:", greatest))
        + &text("figure", (0, TOP + PLOT + 160), Anchor::Start, &said("greatest out:", least))
}

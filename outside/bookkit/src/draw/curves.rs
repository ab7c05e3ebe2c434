//! The base curve of a currency and the six shocked ones, as lines over the buckets.

use super::ladder::{bucket_labels, middle, LABELS};
use super::scale::{Scale, WHOLE};
use super::shapes::{down, line, spot, text, Anchor};
use super::Picture;
use crate::detail::Currency;
use crate::figure::per_cent;
use crate::trade::scenario;
use reference::{BUCKETS, SCENARIOS};
use std::cmp::Reverse;

/// In tenths of a pixel.
const PLOT: i64 = 1_300;
const TOP: i64 = 260;

/// By scenario: a line is told from another by its strokes and its number, not by its colour alone.
const CLASSES: [&str; SCENARIOS + 1] = ["curve-0", "curve-1", "curve-2", "curve-3", "curve-4", "curve-5", "curve-6"];

pub fn curves(currency: &Currency) -> Picture {
    let scale = Scale::over(currency.rates.iter().flatten().copied(), PLOT);
    let scenarios = (0..=SCENARIOS).rev();
    let lines: String = scenarios.clone().map(|number| polyline(number, &currency.rates[number], &scale)).collect();
    let buckets = numbered_at(&currency.rates);
    let numbers: String =
        scenarios.map(|number| numbered(number, buckets[number], &currency.rates[number], &scale)).collect();
    let shapes = format!(
        "{}<svg x=\"0\" y=\"{}\" width=\"100%\" height=\"{}\" viewBox=\"0 0 {WHOLE} {PLOT}\" \
         preserveAspectRatio=\"none\" overflow=\"visible\">\n{lines}</svg>\n{numbers}{}{}",
        nought(&scale),
        down(TOP),
        down(PLOT),
        extremes(currency),
        bucket_labels(TOP + PLOT + 240)
    );
    Picture {
        title: format!("Curves of currency {}", currency.number),
        description: format!("The base, in per cent: {}.", said(&currency.rates[0])),
        height: (TOP + PLOT + 240 + LABELS) / 10,
        shapes,
    }
}

pub fn how_to_read_curves() -> String {
    let names: Vec<String> = (0..=SCENARIOS).map(scenario).collect();
    format!(
        "Per cent. Each line bears its scenario's number: {}. A thin line from edge to edge is nil; \
         where there is none, the height does not begin at nil.",
        names.join(", ")
    )
}

fn said(rates: &[i64; BUCKETS]) -> String {
    let said: Vec<String> =
        rates.iter().enumerate().map(|(bucket, rate)| format!("bucket {}: {}", bucket + 1, per_cent(*rate))).collect();
    said.join("; ")
}

fn polyline(number: usize, rates: &[i64; BUCKETS], scale: &Scale) -> String {
    let point = |bucket: usize| format!("{},{}", middle(bucket), scale.from_top(rates[bucket]));
    let points: Vec<String> = (0..BUCKETS).map(point).collect();
    format!("<polyline class=\"{}\" points=\"{}\"/>\n", CLASSES[number], points.join(" "))
}

/// By scenario, the bucket at which its line bears its number: where it runs farthest from the others, and no two at one.
fn numbered_at(rates: &[[i64; BUCKETS]; SCENARIOS + 1]) -> [usize; SCENARIOS + 1] {
    let mut chosen = [BUCKETS; SCENARIOS + 1];
    for number in 0..=SCENARIOS {
        let free = (0..BUCKETS).filter(|bucket| !chosen.contains(bucket));
        let farthest = free.max_by_key(|bucket| (apart(rates, number, *bucket), Reverse(*bucket)));
        chosen[number] = farthest.expect("there are more buckets than scenarios");
    }
    chosen
}

/// How far the nearest other line is.
fn apart(rates: &[[i64; BUCKETS]; SCENARIOS + 1], number: usize, bucket: usize) -> u64 {
    let others = (0..=SCENARIOS).filter(|other| *other != number);
    others.map(|other| rates[other][bucket].abs_diff(rates[number][bucket])).min().unwrap_or_default()
}

fn numbered(number: usize, bucket: usize, rates: &[i64; BUCKETS], scale: &Scale) -> String {
    let (left, height) = (middle(bucket), TOP + scale.from_top(rates[bucket]));
    spot("blank", (left, height), 7) + &text("figure strong", (left, height + 45), Anchor::Middle, &number.to_string())
}

fn nought(scale: &Scale) -> String {
    let height = TOP + scale.from_top(0);
    match scale.holds(0) {
        true => line("axis", (0, height), (WHOLE, height)),
        false => String::new(),
    }
}

/// The two rates that give the height its scale.
fn extremes(currency: &Currency) -> String {
    let all = || (0..=SCENARIOS).flat_map(|number| currency.rates[number].iter().map(move |rate| (*rate, number)));
    let said = |what: &str, (rate, number): (i64, usize)| format!("{what} {}, scenario {number}", per_cent(rate));
    let highest = all().max_by_key(|(rate, number)| (*rate, Reverse(*number))).map(|found| said("highest:", found));
    let lowest = all().min().map(|found| said("lowest:", found));
    text("figure", (0, 130), Anchor::Start, &highest.unwrap_or_default())
        + &text("figure", (0, TOP + PLOT + 200), Anchor::Start, &lowest.unwrap_or_default())
}

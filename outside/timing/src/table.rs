//! A line for each book: the least and the median of the runs, and the product's over the plain program's.

use crate::programs::{Book, Program, PLAIN, PRODUCT};
use std::path::Path;

/// A short book is assessed so often in a run that as many bytes are read as of a long one.
const BYTES_OF_A_RUN: usize = 60_000;

/// Of the runs of one program, in microseconds of an assessment.
struct Times {
    least: f64,
    median: f64,
}

pub fn print(runs: usize, inputs: &[&str]) -> Result<(), String> {
    println!("book bytes plain-least plain-median product-least product-median least-ratio median-ratio");
    for input in inputs {
        let name = Path::new(input).file_stem().unwrap_or_default().to_string_lossy();
        let book = Book::read(input)?;
        if book.assessed_by(&PLAIN) != book.assessed_by(&PRODUCT) {
            return Err(format!("{input}: the two programs do not answer alike"));
        }
        let [plain, product] = interleaved(&book, runs);
        let Times { least, median } = plain;
        let (own_least, own_median) = (product.least, product.median);
        let (least_ratio, median_ratio) = (own_least / least, own_median / median);
        println!(
            "{name} {} {least:.2} {median:.2} {own_least:.2} {own_median:.2} {least_ratio:.2} {median_ratio:.2}",
            book.bytes()
        );
    }
    Ok(())
}

/// The two take turns, and turns in going first.
fn interleaved(book: &Book, runs: usize) -> [Times; 2] {
    let times = (BYTES_OF_A_RUN / book.bytes().max(1)).max(1);
    let one = |program: &Program| book.timed(program, times).as_secs_f64() * 1e6 / times as f64;
    let (mut plain, mut product) = (Vec::new(), Vec::new());
    for run in 0..runs {
        if run % 2 == 0 {
            plain.push(one(&PLAIN));
            product.push(one(&PRODUCT));
        } else {
            product.push(one(&PRODUCT));
            plain.push(one(&PLAIN));
        }
    }
    [Times::of(plain), Times::of(product)]
}

impl Times {
    fn of(mut runs: Vec<f64>) -> Times {
        runs.sort_by(f64::total_cmp);
        Times { least: runs[0], median: runs[runs.len() / 2] }
    }
}

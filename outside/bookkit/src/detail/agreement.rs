//! The lines held against each other, as far as that is free. Nothing that is worked out here is shown.

use super::{Figures, Verdict, LIMIT_SHARE};
use reference::CURRENCIES;

/// What two lines disagree on, if any do.
pub fn disagreement(figures: &Figures) -> Option<&'static str> {
    let numbers: Vec<i64> = figures.currencies.iter().map(|currency| currency.number).collect();
    let ascending = numbers.windows(2).all(|pair| pair[0] < pair[1]);
    let known = numbers.iter().all(|number| (1..=CURRENCIES as i64).contains(number));
    let taken: i128 = figures.currencies.iter().flat_map(|currency| currency.taken).map(i128::from).sum();
    let over = figures.headroom < 0;
    let found = [
        (ascending && known, "its currencies are not 1 to 32 in rising order"),
        (reaches(figures), "M does not fit S"),
        (taken == i128::from(figures.records), "N is not what the K lines come to"),
        (over == (figures.share > LIMIT_SHARE), "P does not fit H"),
        (fits(figures.verdict, over), "V does not fit H"),
        (nothing_is_below_nil(figures), "a tolerance or a number of records is below nil"),
    ];
    found.iter().find(|(holds, _)| !holds).map(|(_, what)| *what)
}

/// The measure is the greatest sum, and the worst scenario the first that has it.
fn reaches(figures: &Figures) -> bool {
    let greatest = figures.sums.into_iter().fold(0, i64::max);
    let first = figures.sums.iter().position(|sum| *sum == greatest).map_or(0, |index| index + 1);
    figures.measure == greatest && figures.worst == if greatest == 0 { 0 } else { first }
}

fn fits(verdict: Verdict, over: bool) -> bool {
    match verdict {
        Verdict::Over => over,
        Verdict::Within => !over,
        Verdict::Close => true,
    }
}

fn nothing_is_below_nil(figures: &Figures) -> bool {
    let of_currencies =
        figures.currencies.iter().flat_map(|currency| currency.tolerances.iter().chain(&currency.taken));
    of_currencies.chain([&figures.tolerance, &figures.records]).all(|number| *number >= 0)
}

//! Every number that `irdetail` printed stands on the page, at its place. The digits are taken from its lines as text.

use crate::tables::{section, tables};
use crate::{assessed, example, run};
use bookkit::{report, Form};
use books::case;
use reference::{irdetail, irreport};

/// With a comma before every three digits before the point.
pub fn grouped(item: &str) -> String {
    let (sign, rest) = item.strip_prefix('-').map_or(("", item), |rest| ("-", rest));
    let (whole, part) = rest.split_at(rest.find('.').unwrap_or(rest.len()));
    let groups: Vec<&str> =
        whole.as_bytes().rchunks(3).rev().map(|group| std::str::from_utf8(group).expect("digits")).collect();
    format!("{sign}{}{part}", groups.join(","))
}

fn per_cent(item: &str) -> String {
    let (sign, digits) = item.strip_prefix('-').map_or(("", item), |rest| ("-", rest));
    let digits = format!("{digits:0>5}");
    let (whole, part) = digits.split_at(digits.len() - 4);
    format!("{sign}{whole}.{part}")
}

/// The items of the lines that begin so, after what they begin with.
pub fn items(printed: &str, begin: &str) -> Vec<Vec<String>> {
    let of = |line: &str| Some(line.strip_prefix(begin)?.strip_prefix(' ')?.split(' ').map(str::to_string).collect());
    printed.lines().filter_map(of).collect()
}

fn first(printed: &str, begin: &str) -> Vec<String> {
    items(printed, begin).into_iter().next().unwrap_or_default().iter().map(|item| grouped(item)).collect()
}

fn assert_all_shown(input: &[u8]) {
    let (printed, page) = (irdetail(input), report(&assessed(input), Form::Page));
    assert_verdict_shown(&printed, &page);
    assert_changes_shown(&printed, &page);
    assert_records_shown(&printed, &page);
    for number in items(&printed, "C").iter().map(|items| &items[0]) {
        assert_ladder_shown(&printed, &page, number);
        assert_extremes_shown(&printed, &page, number);
    }
}

fn assert_verdict_shown(printed: &str, page: &str) {
    let rows = &tables(page, "verdict")[0];
    let [measure, _, tolerance] = first(printed, "M").try_into().expect("three numbers");
    let due = [
        ("Measure", measure),
        ("Tolerance", tolerance),
        ("Limit", first(printed, "L")[0].clone()),
        ("Headroom", first(printed, "H")[0].clone()),
        ("Tier 1 capital", first(printed, "T")[0].clone()),
        ("Share", first(printed, "P")[0].clone()),
    ];
    let shown: Vec<(&str, String)> = rows.iter().map(|row| (row[0].as_str(), row[1].clone())).collect();
    assert_eq!(shown, due);
}

fn assert_changes_shown(printed: &str, page: &str) {
    let row =
        |head: String, figures: &[String]| [head].into_iter().chain(figures.iter().map(|item| grouped(item))).collect();
    let mut due: Vec<Vec<String>> = Vec::new();
    for (changes, tolerances) in items(printed, "C").iter().zip(items(printed, "U")) {
        due.push(row(changes[0].clone(), &changes[1..]));
        due.push(row(format!("{} ±", tolerances[0]), &tolerances[1..]));
    }
    due.push(row("sum".to_string(), &items(printed, "S")[0]));
    assert_eq!(tables(page, "changes")[0], due);
    let add_ons = items(printed, "A").into_iter().filter(|items| items[1..].iter().any(|item| item != "0"));
    let due: Vec<Vec<String>> = add_ons.map(|items| row(items[0].clone(), &items[1..])).collect();
    match due.is_empty() {
        true => assert!(!page.contains("id=\"add-ons\"")),
        false => assert_eq!(tables(page, "add-ons")[0], due),
    }
}

fn assert_records_shown(printed: &str, page: &str) {
    let all = first(printed, "N")[0].clone();
    assert_eq!(tables(page, "input")[0][3], ["Records taken".to_string(), all]);
    let due: Vec<Vec<String>> =
        items(printed, "K").iter().map(|row| row.iter().map(|item| grouped(item)).collect()).collect();
    match due.is_empty() {
        true => assert!(page.contains("No record was taken: the book is empty.")),
        false => assert_eq!(tables(page, "records")[0], due),
    }
}

fn assert_ladder_shown(printed: &str, page: &str, number: &str) {
    let shown = tables(page, &format!("currency-{number}"));
    let sets: [(&str, fn(&str) -> String); 2] = [("F", grouped), ("Z", per_cent)];
    for ((letter, written), table) in sets.iter().zip(&shown) {
        for scenario in 0..=6 {
            let line = items(printed, &format!("{letter} {number} {scenario}")).remove(0);
            let due: Vec<String> = line.iter().map(|item| written(item)).collect();
            let column: Vec<String> = table.iter().map(|row| row[2 + scenario].clone()).collect();
            assert_eq!(column, due, "{letter} {number} {scenario}");
        }
    }
    assert_eq!(shown.len(), 2);
}

/// The figures that give a picture its height: one of the base's flows, and one of all scenarios' rates.
fn assert_extremes_shown(printed: &str, page: &str, number: &str) {
    let section = section(page, &format!("currency-{number}"));
    let said = |words: String| section.contains(&format!(">{words}</text>"));
    let value = |item: &String| item.parse::<i64>().expect("a number");
    let base = items(printed, &format!("F {number} 0")).remove(0);
    let (greatest, least) = (base.iter().map(value).max(), base.iter().map(value).min());
    for (words, extreme) in
        [("greatest in:", greatest.filter(|flow| *flow > 0)), ("greatest out:", least.filter(|flow| *flow < 0))]
    {
        let at = |bucket: usize| said(format!("{words} {}, bucket {}", grouped(&base[bucket]), bucket + 1));
        let due = (0..base.len()).any(|bucket| Some(value(&base[bucket])) == extreme && at(bucket));
        assert!(due || (extreme.is_none() && !section.contains(words)), "{words} {extreme:?}");
    }
    let rates: Vec<Vec<String>> =
        (0..=6).map(|scenario| items(printed, &format!("Z {number} {scenario}")).remove(0)).collect();
    let all = || {
        rates
            .iter()
            .enumerate()
            .flat_map(|(scenario, rates)| rates.iter().map(move |rate| (value(rate), rate, scenario)))
    };
    let (highest, lowest) = (all().map(|(rate, _, _)| rate).max(), all().map(|(rate, _, _)| rate).min());
    for (words, extreme) in [("highest:", highest), ("lowest:", lowest)] {
        let at = |(_, rate, scenario): (i64, &String, usize)| {
            said(format!("{words} {}, scenario {scenario}", per_cent(rate)))
        };
        assert!(all().filter(|(rate, _, _)| Some(*rate) == extreme).any(at), "{words} {extreme:?}");
    }
}

#[test]
fn of_the_examples() {
    for name in ["small-bank", "worked", "abroad", "listed-curves"] {
        assert_all_shown(&example(&format!("{name}.input")));
    }
    assert_all_shown(&run("empty-book"));
    assert_all_shown(&run("thirty-two-currencies"));
}

#[test]
fn of_generated_books() {
    let accepted = (0..400).map(|seed| case(seed).input()).filter(|input| !irreport(input).starts_with('R'));
    let shown: Vec<()> = accepted.map(|input| assert_all_shown(&input)).collect();
    assert!(shown.len() > 50, "{}", shown.len());
}

/// Digits stay whatever the figure is.
#[test]
fn the_tests_own_figures() {
    assert_eq!(
        ["0", "-7", "999", "-1000", "5191432609000.00", "-0.05"].map(grouped),
        ["0", "-7", "999", "-1,000", "5,191,432,609,000.00", "-0.05"]
    );
    assert_eq!(
        ["0", "-1", "31000", "-6500", "300000"].map(per_cent),
        ["0.0000", "-0.0001", "3.1000", "-0.6500", "30.0000"]
    );
}

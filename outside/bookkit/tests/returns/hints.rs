//! Hints: each where it belongs and not a step beside it, and none of them changes anything.

use crate::tables::{section, seen};
use crate::{assessed, example, input, run};
use bookkit::{hints, report, Form};
use reference::irreport;

const CURVE: &str = "curve currency=1 rates=1-19:20000 parallel=200 short=250 long=100\n";

/// The hints for a text with this capital, after a good curve of currency 1.
fn hinted(capital: u64, rest: &str) -> Vec<String> {
    hints(&assessed(&input(&format!("capital {capital}\n{CURVE}{rest}"))))
}

fn flow(currency: u8, side: &str, months: u16, amount: u32) -> String {
    format!("single-flow currency={currency} side={side} months={months} days=0 amount={amount}\n")
}

fn assert_only(hints: &[String], words: &str) {
    assert!(hints.len() == 1 && hints[0].contains(words), "{words}: {hints:?}");
}

#[test]
fn a_book_without_oddities_has_no_hint() {
    assert_eq!(hinted(1_000, &flow(1, "asset", 12, 1_000)), [""; 0]);
    for name in ["small-bank.input", "worked.input", "abroad.input"] {
        assert_eq!(hints(&assessed(&example(name))), [""; 0], "{name}");
    }
}

#[test]
fn an_empty_book() {
    assert_only(&hints(&assessed(&run("empty-book"))), "The book is empty: 0 records were taken.");
    assert_eq!(hinted(1, &flow(1, "asset", 12, 1)), [""; 0]);
}

/// Ten times all base net flows together is not above it.
#[test]
fn capital_far_above_all_flows() {
    let flows = flow(1, "asset", 12, 700) + &flow(1, "liability", 60, 200) + &flow(2, "asset", 1, 100);
    let with_curve = flows + &CURVE.replace("currency=1", "currency=2");
    assert_eq!(hinted(10_000, &with_curve), [""; 0]);
    let found = hinted(10_001, &with_curve);
    assert_only(&found, "Tier 1 capital of 10,001 thousand is more than ten times");
    assert_only(&found, "the greatest of which is 700 thousand, in currency 1");
    let netted = flow(1, "asset", 12, 700) + &flow(1, "liability", 12, 700);
    assert_eq!(hinted(1_000_000_000_000, &netted), [""; 0], "there is nothing to hold it against");
}

#[test]
fn a_curve_without_a_position() {
    let second = CURVE.replace("currency=1", "currency=2");
    let listed = "listed-curve currency=3 edition=1 code=EUR rates=1-19:20000\n";
    let book = flow(1, "asset", 12, 1_000) + &second + listed;
    let found = hinted(1_000, &book);
    assert_eq!(found.len(), 2, "{found:?}");
    assert_only(&found[..1], "Currency 2 has a curve and no position; its records are: 1 curve.");
    assert_only(&found[1..], "Currency 3 has a curve and no position; its records are: 1 listed curve.");
    let positions = [flow(2, "asset", 12, 0), "option-add-on currency=3 side=sold values=nil\n".to_string()].concat();
    assert_eq!(hinted(1_000, &(book + &positions)), [""; 0], "a position of nil is one");
}

#[test]
fn rates_that_look_like_basis_points() {
    let of = |rates: &str| {
        let curve = format!("curve currency=2 rates={rates} parallel=200 short=250 long=100\n");
        hinted(1_000, &(flow(1, "asset", 12, 1_000) + &flow(2, "asset", 12, 1) + &curve))
    };
    assert_only(
        &of("1-19:1000"),
        "The base rates of currency 2 go from 1,000 to 1,000 millionths, which is 0.1000 to 0.1000 per cent",
    );
    assert_only(&of("1-9:-1000,10-19:200"), "from -1,000 to 200 millionths, which is -0.1000 to 0.0200 per cent");
    assert_only(&of("19:1"), "from 0 to 1 millionths");
    for rates in ["1-18:1000,19:1001", "1:-1001,2-19:200", "nil", "1-19:20000"] {
        assert_eq!(of(rates), [""; 0], "{rates}");
    }
}

#[test]
fn shocks_from_recollection() {
    let listed = |edition: u8| {
        let curve = format!("listed-curve currency=2 edition={edition} code=SGD rates=1-19:20000\n");
        hinted(1_000, &(flow(1, "asset", 12, 1_000) + &flow(2, "asset", 12, 1) + &curve))
    };
    assert_only(
        &listed(2),
        "Currency 2 has the shocks that edition 2 lists for SGD: edition 2 was entered from recollection",
    );
    assert_eq!(listed(1), [""; 0]);
}

/// As many as there are to be had: the verdict is that of `irreport`, and the report has them in a section of their own.
#[test]
fn hints_change_nothing() {
    let texts = [
        "capital 1000000000000\n".to_string(),
        format!("capital 1000000000000\n{CURVE}{}", flow(1, "asset", 240, 1)),
        format!("capital 1\n{CURVE}{}", CURVE.replace("currency=1", "currency=2")),
        format!(
            "capital 1\ncurve currency=1 rates=1-19:200 parallel=400 short=0 long=0\n{}",
            flow(1, "asset", 241, 1_000)
        ),
        "capital 9\nlisted-curve currency=1 edition=2 code=EUR rates=nil\n".to_string(),
    ];
    for text in texts {
        let input = input(&text);
        let assessed = assessed(&input);
        let verdict =
            irreport(&input).lines().last().map(|line| line.replace("V ", "").to_lowercase()).expect("a verdict");
        assert!(!hints(&assessed).is_empty() && assessed.refusal().is_none(), "{text}");
        let page = report(&assessed, Form::Page);
        assert!(page.contains(&format!("<h1>a.input: {verdict} the limit</h1>")), "{text}");
        for hint in hints(&assessed) {
            assert!(seen(section(&page, "hints")).contains(&hint) && seen(&page).matches(&hint).count() == 1, "{hint}");
        }
    }
}

#[test]
fn a_book_that_is_turned_down_has_none() {
    for name in ["12-second-curve", "16-capital", "15-no-curve"] {
        assert_eq!(hints(&assessed(&run(name))), [""; 0], "{name}");
        assert!(!report(&assessed(&run(name)), Form::Page).contains("id=\"hints\""), "{name}");
    }
}

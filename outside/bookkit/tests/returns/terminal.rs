//! The report for a terminal: within its width, with what the verdict rests on.

use crate::figures::{grouped, items};
use crate::{assessed, example, input, named, run};
use bookkit::{report, Form};
use books::case;
use reference::irdetail;

const WIDTH: usize = 100;

fn shown(input: &[u8]) -> String {
    report(&assessed(input), Form::Terminal)
}

#[test]
fn no_line_is_longer_than_the_terminal() {
    let examples =
        ["small-bank", "abroad", "listed-curves", "mistyped", "damaged"].map(|name| example(&format!("{name}.input")));
    let generated = (0..300).map(|seed| case(seed).input());
    for input in examples.into_iter().chain([run("thirty-two-currencies"), run("empty-book")]).chain(generated) {
        for line in shown(&input).lines() {
            assert!(line.chars().count() <= WIDTH && line == line.trim_end(), "{line}");
        }
    }
    let long = "x".repeat(300);
    let report = report(&named(&long, &example("small-bank.input")), Form::Terminal);
    assert_eq!(
        report.lines().filter(|line| line.chars().count() > WIDTH).collect::<Vec<_>>(),
        [format!("{long}: over the limit")]
    );
}

/// Flows and rates of the base and of the worst scenario stand side by side.
#[test]
fn the_figures_that_matter_are_there() {
    let input = example("small-bank.input");
    let (text, printed) = (shown(&input), irdetail(&input));
    let lines: Vec<Vec<&str>> = text.lines().map(|line| line.split_whitespace().collect()).collect();
    let has = |ending: &[&str]| lines.iter().any(|line| line.ends_with(ending));
    for sort in ["C", "U", "S", "A", "K"] {
        for items in items(&printed, sort) {
            let figures: Vec<String> = items.iter().skip(usize::from(sort != "S")).map(|item| grouped(item)).collect();
            assert!(has(&figures.iter().map(String::as_str).collect::<Vec<_>>()), "{sort} {items:?}");
        }
    }
    assert!(has(&["13", "6", "to", "7", "years", "30,510", "30,478", "2.6500", "4.6500"]));
    assert!(has(&["16", "9", "to", "10", "years", "-6,060", "-6,060", "0.4000", "1.9000"]));
    for figures in
        [["Measure", "3,446"], ["Tolerance", "4"], ["Limit", "3,000.00"], ["Headroom", "-446.00"], ["Share", "17.23"]]
    {
        assert!(lines.iter().any(|line| line.starts_with(&figures)), "{figures:?}");
    }
}

/// Units under units: the widest name has 14 letters, the widest value 8.
#[test]
fn figures_stand_to_the_right_and_words_to_the_left() {
    let row = |name: &str, value: &str, what: &str| format!("\n{name:14}  {value:>8}  {what}\n");
    let text = shown(&example("small-bank.input"));
    for (name, value, what) in [
        ("Measure", "3,446", "the greatest of the six sums of losses"),
        ("Limit", "3,000.00", "15 per cent of Tier 1 capital"),
        ("Tier 1 capital", "20,000", "as the input has it"),
    ] {
        assert!(text.contains(&row(name, value, what)), "{text}");
    }
}

#[test]
fn the_verdict_is_said_in_words() {
    let worked = |capital: u64| {
        let text = String::from_utf8(example("worked.txt")).expect("text");
        shown(&input(&text.replace("capital 4214126", &format!("capital {capital}"))))
    };
    let joined = |text: String| text.replace('\n', " ");
    let over = joined(worked(4_214_126));
    assert!(over.contains("Over the limit: the measure of 632,121 thousand is above the limit of 632,118.90 thousand, and stays so with its tolerance of 2 taken off."), "{over}");
    assert!(over.contains("The measure is 15.01 per cent of Tier 1 capital, where 15 is the limit; the headroom is -2.10 thousand. The loss is greatest in scenario 1, parallel up."), "{over}");
    assert!(joined(worked(4_214_127)).contains("Close to the limit: the measure of 632,121 thousand has a tolerance of 2, which reaches the limit of 632,119.05 thousand, so that neither over nor within can be said."));
    assert!(joined(worked(5_000_000)).contains("Within the limit: the measure of 632,121 thousand is not above the limit of 750,000.00 thousand, and stays so with its tolerance of 2 added."));
    assert!(joined(shown(&run("empty-book"))).contains("No scenario brings a loss."));
}

#[test]
fn size_digest_and_number_of_records_are_told() {
    let text = shown(&example("damaged.input"));
    let digest = bookkit::sha256(&example("damaged.input"));
    assert!(text.contains("\nSize     595 bytes\n") && text.contains(&format!("\nSHA-256  {digest}\n")), "{text}");
    assert!(!text.contains("Records taken"), "a book that is turned down has none");
    assert!(shown(&example("small-bank.input")).contains("\nRecords taken  13\n"));
}

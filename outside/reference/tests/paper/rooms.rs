//! What the rooms hold after a call.

use crate::hand::*;
use reference::{cell, Request};

/// The rooms after a call, filled with 7 and 9 before it.
fn rooms(records: &[Vec<u8>], capital: u64, report_room: usize, ledger_room: usize) -> (Vec<i64>, Vec<i64>) {
    let (mut report, mut ledger) = (vec![7; report_room], vec![9; ledger_room]);
    let book = records.concat();
    Request { book: &book, capital, report_room, ledger_room }.answer().fill(&mut report, &mut ledger);
    (report, ledger)
}

#[test]
fn an_accepted_book_fills_202_and_4256_cells() {
    let records = [curve(32, [0; 19], [400, 0, 0]), single_flow(32, 1, 241, 0, 1_000_000)];
    let (report, ledger) = rooms(&records, 4_214_126, 204, 4_262);
    let mut expected = [0; 204];
    expected[186..188].copy_from_slice(&[632_121, -1_718_282]);
    expected[192] = 632_121;
    expected[198..].copy_from_slice(&[632_121, 1, 2, 1, 7, 7]);
    assert_eq!(report, expected);
    assert_eq!(ledger[4_256..], [9; 6]);
    for (index, value) in ledger[..4_256].iter().enumerate() {
        let filled = index >= 4_123 && (index - 4_123) % 19 == 18;
        assert_eq!(*value, if filled { 1_000_000 } else { 0 }, "cell {index}");
    }
}

#[test]
fn a_refused_record_leaves_the_report_and_zeros_the_ledger() {
    let (edition_3, small_letters) = (listed_curve(2, 3, b"EUR", [0; 19]), listed_curve(2, 1, b"eur", [0; 19]));
    for bad in [vec![0], edition_3, small_letters] {
        let (report, ledger) = rooms(&[flat_curve(1, 0), single_flow(1, 1, 0, 0, 5), bad], 1, 203, 4_257);
        assert_eq!(report, [7; 203]);
        assert_eq!((&ledger[..4_256], ledger[4_256]), (&[0; 4_256][..], 9));
    }
    let (report, ledger) = rooms(&[single_flow(1, 1, 0, 0, 5)], 1, 202, 4_256);
    assert_eq!((report, ledger), (vec![7; 202], vec![0; 4_256]), "15 as well");
}

#[test]
fn numbers_16_to_18_touch_nothing() {
    let untouched = |report_room, ledger_room| (vec![7; report_room], vec![9; ledger_room]);
    assert_eq!(rooms(&[], 0, 202, 4_256), untouched(202, 4_256));
    assert_eq!(rooms(&[vec![1; 65_529]], 1, 202, 4_256), untouched(202, 4_256));
    for (report_room, ledger_room) in [(201, 4_256), (202, 4_255), (0, 0), (201, 5_000), (5_000, 4_255), (58, 1_064)] {
        assert_eq!(rooms(&[], 1, report_room, ledger_room), untouched(report_room, ledger_room));
    }
}

#[test]
fn the_ledger_lies_as_the_paper_says() {
    assert_eq!((cell(0, 0, 0), cell(0, 1, 0), cell(1, 0, 0), cell(31, 6, 18)), (0, 19, 133, 4_255));
}

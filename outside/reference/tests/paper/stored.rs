//! Stored reports of 58 numbers as such of 202 (02, request 7).

use crate::hand::*;
use reference::{widen, Return, REPORT_CELLS, STORED_CELLS};

/// 1 to 58, so that every number shows where it came from.
fn counted() -> Vec<i64> {
    (1..=58).collect()
}

/// The refusal, if there is one, and a room that was filled with 7 before.
fn widened(stored: &[i64], room: usize) -> (Option<(u8, usize)>, Vec<i64>) {
    let mut report = vec![7; room];
    let refused = widen(stored, &mut report).err();
    (refused.map(|refusal| (refusal.number, refusal.place)), report)
}

#[test]
fn the_first_48_then_144_zeros_then_the_last_ten() {
    let due = [(1..=48).collect(), vec![0; 144], (49..=58).collect()].concat();
    assert_eq!((STORED_CELLS, REPORT_CELLS, due.len()), (58, 202, 202));
    assert_eq!(widened(&counted(), 202), (None, due.clone()));
    assert_eq!(widened(&counted(), 205), (None, [due, vec![7; 3]].concat()), "no cell beyond them");
}

#[test]
fn any_numbers_are_moved_as_they_are() {
    let (_, report) = widened(&[i64::MIN; 58], 202);
    assert!(report[..48].iter().chain(&report[192..]).all(|number| *number == i64::MIN));
    assert!(report[48..192].iter().all(|number| *number == 0));
}

#[test]
fn another_length_or_a_short_room_is_18_and_nothing_is_touched() {
    for length in [0, 1, 57, 59, 202] {
        assert_eq!(widened(&vec![3; length], 203), (Some((18, 0)), vec![7; 203]), "{length} stored");
    }
    for room in [0, 57, 58, 201] {
        assert_eq!(widened(&counted(), room), (Some((18, 0)), vec![7; room]), "room for {room}");
    }
}

/// Currency 1 loses what that of the paper's example loses, currency 8 gains it: the report over 8 by hand.
#[test]
fn the_report_over_8_widened_is_the_report_over_32() {
    let steep = |currency| curve(currency, [0; 19], [400, 0, 0]);
    let flow = |currency, side| single_flow(currency, side, 241, 0, 1_000_000);
    let answer = answer(&[steep(1), steep(8), flow(1, 1), flow(8, 2)], 1_000);
    let result = answer.accepted().expect("a good book");
    let stored = Return::over(8, result.positions.clone(), 1_000).report();
    let mut due = [0; 58];
    due[..2].copy_from_slice(&[632_121, -1_718_282]);
    due[42..44].copy_from_slice(&[-632_121, 1_718_282]);
    due[48..50].copy_from_slice(&[632_121, 1_718_282]);
    due[54..].copy_from_slice(&[1_718_282, 2, 4, 1]);
    assert_eq!(stored, due);
    assert_eq!(widened(&stored, 202), (None, result.report()));
}

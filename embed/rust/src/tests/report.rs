//! Tests of the report of waiting: what is counted, over one sheet and several, 17, and the layout that C sees.

use super::{EXAMPLE, EXAMPLE_TEXT};
use crate::{run_reported, run_to_string, text_bound, Report, Row, LANES, LONGEST_SHEET};
use std::mem::{align_of, offset_of, size_of};

const REFUSED_17: &str = "0 refused 17\nend 0 0\n";

/// 2^63, from which on a number is too large to be lent.
const FULL: u64 = 1 << 63;

/// Three lanes: lane 1 waits for two releases, lane 0 twice for one each. A take of 0 records leaves its lane idle.
const ROUNDS: &[u8] = &[
    0x01, 3, 0, 0, 0, 0x40, //
    0x02, 2, 0, // lane 2 holds
    0x02, 1, 0, // lane 1 waits
    0x02, 0, 0, // lane 0 waits
    0x04, 2, 0, 0, // wakes lane 0
    0x03, 0, //
    0x04, 0, 0, 0, // wakes lane 1
    0x03, 1, //
    0x02, 0, 0, // lane 0 waits again
    0x04, 1, 0, 0, // wakes lane 0
    0x03, 0, //
    0x04, 0, 0, 0, // wakes none
];

/// 128 lanes: lanes 0, 5 and 127 wait and are woken; lanes 0 and 127 then wait to the end.
const EDGE_LANES: &[u8] = &[
    0x01, 128, 0, 0, 0, 0x40, //
    0x02, 5, 0, // lane 5 holds
    0x02, 0, 0, // lane 0 waits for two releases
    0x02, 127, 0, // lane 127 waits for one
    0x04, 5, 0, 0, // wakes lane 127
    0x03, 127, //
    0x04, 127, 0, 0, // wakes lane 0
    0x03, 0, //
    0x02, 5, 0, // lane 5 waits for one
    0x04, 0, 0, 0, // wakes lane 5
    0x03, 5, //
    0x02, 0, 0, // both wait
    0x02, 127, 0, //
];

fn row(times: u64, sum: u64, largest: u64, unended: u64) -> Row {
    Row { times, sum, largest, unended }
}

/// The report of no waiting but for these lanes' rows and the one for all.
fn report_of(lanes: &[(usize, Row)], all: Row) -> Report {
    let mut report = Report { all, ..Report::default() };
    for (lane, row) in lanes {
        report.lane[*lane] = *row;
    }
    report
}

/// The printed lines of a run over a report, on a book of its own.
fn printed(sheet: &[u8], report: &mut Report) -> String {
    let mut book = [0xEE; 64];
    let mut text = vec![0; text_bound(sheet.len()).unwrap()];
    let length = run_reported(sheet, &mut book, &mut text, report).unwrap();
    text.truncate(length);
    String::from_utf8(text).unwrap()
}

/// The report that the sheets leave, one after the other, of one with no waiting.
fn counted(sheets: &[&[u8]]) -> Report {
    let mut report = Report::default();
    for sheet in sheets {
        printed(sheet, &mut report);
    }
    report
}

/// A report with one number set: of the first lane, the last one or all, by times, sum, largest and unended.
fn report_with(place: usize, field: usize, number: u64) -> Report {
    let mut report = Report::default();
    let row = match place {
        0 => &mut report.lane[0],
        1 => &mut report.lane[LANES - 1],
        _ => &mut report.all,
    };
    *[&mut row.times, &mut row.sum, &mut row.largest, &mut row.unended][field] = number;
    report
}

#[test]
fn report_is_laid_out_as_the_library_has_it() {
    assert_eq!((size_of::<Report>(), align_of::<Report>()), (4_128, 8));
    assert_eq!((offset_of!(Report, lane), offset_of!(Report, all)), (0, 4_096));
    assert_eq!((size_of::<Row>(), align_of::<Row>()), (32, 8));
    assert_eq!((offset_of!(Row, times), offset_of!(Row, sum)), (0, 8));
    assert_eq!((offset_of!(Row, largest), offset_of!(Row, unended)), (16, 24));
}

#[test]
fn lanes_and_longest_sheet_are_the_headers() {
    let header = include_str!("../../../gudlemi.h");
    assert!(header.contains(&format!("#define GUDLEMI_LANES {LANES}\n")));
    assert!(header.contains(&format!("#define GUDLEMI_LONGEST_SHEET {LONGEST_SHEET}\n")));
}

#[test]
fn text_and_book_are_those_of_a_run_without_report() {
    let mut book = vec![0xEE; 100];
    let mut text = vec![0xEE; text_bound(EXAMPLE.len()).unwrap() + 9];
    let length = run_reported(EXAMPLE, &mut book, &mut text, &mut Report::default()).unwrap();
    assert_eq!(&text[..length], EXAMPLE_TEXT.as_bytes());
    assert!(text[length..].iter().all(|byte| *byte == 0xEE));
    let mut other = vec![0xEE; 100];
    run_to_string(EXAMPLE, &mut other);
    assert_eq!(book, other);
}

#[test]
fn waits_are_counted_for_each_lane_and_in_all() {
    let lanes = [(0, row(2, 2, 1, 0)), (1, row(1, 2, 2, 0))];
    assert_eq!(counted(&[ROUNDS]), report_of(&lanes, row(3, 4, 2, 0)));
}

#[test]
fn wait_ends_at_the_wake_and_not_at_the_receive() {
    let one = row(1, 1, 1, 0);
    assert_eq!(counted(&[&EXAMPLE[..18]]), report_of(&[(1, one)], one));
}

#[test]
fn wait_not_ended_is_counted_apart() {
    let one = row(0, 0, 0, 1);
    assert_eq!(counted(&[&EXAMPLE[..12]]), report_of(&[(1, one)], one));
    let lanes = [(0, row(1, 2, 2, 1)), (5, row(1, 1, 1, 0)), (127, row(1, 1, 1, 1))];
    assert_eq!(counted(&[EDGE_LANES]), report_of(&lanes, row(3, 4, 2, 2)));
}

#[test]
fn longest_wait_is_127_releases() {
    let mut sheet = vec![0x01, 128, 0, 0, 0, 0x40];
    (0..128).for_each(|lane| sheet.extend([0x02, lane, 0]));
    (0..126).for_each(|lane| sheet.extend([0x03, lane, 0x04, lane, 0, 0]));
    assert_eq!(counted(&[&sheet]).lane[127], row(0, 0, 0, 1), "after 126 releases");
    sheet.extend([0x03, 126, 0x04, 126, 0, 0]);
    let report = counted(&[&sheet]);
    assert_eq!(report.lane[127], row(1, 127, 127, 0), "after 127 releases");
    assert_eq!(report.all, row(127, 127 * 128 / 2, 127, 0));
}

#[test]
fn sheets_over_one_report_add_up() {
    let lanes = [(0, row(2, 2, 1, 0)), (1, row(2, 3, 2, 1))];
    let both = report_of(&lanes, row(4, 5, 2, 1));
    assert_eq!(counted(&[&EXAMPLE[..12], ROUNDS, EXAMPLE]), both);
    assert_eq!(counted(&[EXAMPLE, ROUNDS, &EXAMPLE[..12]]), both, "in whichever order");
}

#[test]
fn row_for_all_grows_from_its_own_values() {
    let mut report = report_of(&[(1, row(10, 20, 3, 40))], row(500, 600, 1, 800));
    printed(EDGE_LANES, &mut report);
    assert_eq!(report.all, row(503, 604, 2, 802));
    assert_eq!(report.lane[1], row(10, 20, 3, 40), "a lane that never waits");
}

#[test]
fn sheet_with_no_wait_leaves_the_report() {
    let mut report = report_of(&[(1, row(1, 2, 3, 4))], row(5, 6, 7, 8));
    let lent = report;
    assert_eq!(printed(&EXAMPLE[..9], &mut report), "0 open 2 64\n1 holds 0\nend 0 0\n");
    assert_eq!(printed(&[], &mut report), "end 0 0\n");
    assert_eq!(report, lent);
}

#[test]
fn run_ended_by_2_or_3_keeps_what_it_counted() {
    for end in [0x0D, 0x02] {
        let sheet = [&EXAMPLE[..18], &[end]].concat();
        assert_eq!(counted(&[&sheet]), counted(&[&EXAMPLE[..18]]), "kind {end}");
    }
}

#[test]
fn every_number_from_2_to_the_63_on_gets_17_and_stays() {
    for place in 0..3 {
        for field in 0..4 {
            for number in [FULL, u64::MAX] {
                let mut report = report_with(place, field, number);
                for sheet in [EDGE_LANES, EXAMPLE, &[]] {
                    assert_eq!(printed(sheet, &mut report), REFUSED_17, "{place} {field} {number}");
                }
                assert_eq!(report, report_with(place, field, number));
            }
        }
    }
}

#[test]
fn every_number_one_below_grows_and_is_then_full() {
    let grown = counted(&[EDGE_LANES]);
    let rows = [grown.lane[0], grown.lane[LANES - 1], grown.all];
    for (place, row) in rows.iter().enumerate() {
        for (field, more) in [row.times, row.sum, 0, row.unended].into_iter().enumerate() {
            let mut report = report_with(place, field, FULL - 1);
            let text = printed(EDGE_LANES, &mut report);
            assert!(text.starts_with("0 open 128 64\n"), "{place} {field}");
            let left = [report.lane[0], report.lane[LANES - 1], report.all][place];
            let number = [left.times, left.sum, left.largest, left.unended][field];
            assert_eq!(number, FULL - 1 + more, "{place} {field}");
            assert_eq!(printed(&[], &mut report) == REFUSED_17, more > 0, "{place} {field}");
        }
    }
}

#[test]
fn refused_17_leaves_the_book_and_the_text_past_it() {
    let mut report = report_with(1, 3, FULL);
    let mut book = [0xEE; 64];
    let mut text = vec![0xEE; text_bound(EXAMPLE.len()).unwrap()];
    let length = run_reported(EXAMPLE, &mut book, &mut text, &mut report).unwrap();
    assert_eq!(&text[..length], REFUSED_17.as_bytes());
    assert!(book.iter().chain(&text[length..]).all(|byte| *byte == 0xEE));
}

#[test]
fn text_too_short_leaves_the_report_and_comes_before_17() {
    let mut book = [0xEE; 64];
    let mut text = vec![0xEE; text_bound(EXAMPLE.len()).unwrap() - 1];
    for lent in [counted(&[ROUNDS]), report_with(0, 0, FULL)] {
        let mut report = lent;
        assert_eq!(run_reported(EXAMPLE, &mut book, &mut text, &mut report), None);
        assert_eq!(report, lent);
    }
    assert!(book.iter().chain(&text).all(|byte| *byte == 0xEE));
}

#[test]
fn longest_sheet_is_run_and_one_byte_more_gets_17() {
    let refused = [0x03, 1].repeat((LONGEST_SHEET - EXAMPLE.len()) / 2);
    let mut sheet = [EXAMPLE, &refused].concat();
    assert_eq!(sheet.len(), 65_536);
    let mut report = Report::default();
    assert!(printed(&sheet, &mut report).ends_with(" refused 13\nend 24 3\n"));
    assert_eq!(report, counted(&[EXAMPLE]));
    let mut book = [0xEE; 64];
    assert!(run_to_string(&sheet, &mut book).unwrap().ends_with("\nend 24 3\n"));

    sheet.push(0x03);
    book = [0xEE; 64];
    assert_eq!(printed(&sheet, &mut report), REFUSED_17);
    assert_eq!(report, counted(&[EXAMPLE]));
    assert_eq!(run_to_string(&sheet, &mut book).as_deref(), Some(REFUSED_17));
    assert_eq!(book, [0xEE; 64]);
}

#[test]
fn mean_is_a_whole_number_and_a_remainder_and_0_of_no_time() {
    let of = |times, sum| (row(times, sum, 0, 0).mean(), row(times, sum, 0, 0).remainder());
    assert_eq!(of(0, 0), (0, 0));
    assert_eq!(of(0, 7), (0, 0));
    assert_eq!(of(3, 11), (3, 2));
    assert_eq!(of(5, 4), (0, 4));
    assert_eq!(of(1, u64::MAX), (u64::MAX, 0));
    assert_eq!(of(u64::MAX, u64::MAX - 1), (0, u64::MAX - 1));
}

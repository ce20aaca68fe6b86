//! Tests of the wrapper: document 01's example, the edges of each buffer, and events found in a sheet; in `report` those
//! of the report of waiting, and in `line` those of single calls.

mod line;
mod report;

use super::{event_at, run, run_to_string, text_bound, EventAt};

/// Document 01, "One sheet, whole": two lanes, a wait and its wake.
const EXAMPLE: &[u8] = &[
    0x01, 2, 0, 0, 0, 0x40, // two lanes, capacity 64
    0x02, 0, 0, // lane 0 wants
    0x02, 1, 0, // lane 1 wants
    0x03, 1, // receives before its wake
    0x04, 0, 0, 2, // lane 0 takes two places
    0x03, 1, // lane 1 receives
    0x04, 1, 0, 1, // and takes one
    0x05, 1, 1, 1, 1, 1, 1, 1, 1, 1, // each writes
    0x05, 0, 2, 2, 2, 2, 2, 2, 2, 2, //
    0x05, 0, 3, 3, 3, 3, 3, 3, 3, 3, //
    0x05, 0, 4, 4, 4, 4, 4, 4, 4, 4, // lane 0 once too often
];

const EXAMPLE_TEXT: &str = "\
0 open 2 64
1 holds 0
2 waits
3 refused 14
4 region 0 2 wakes 1
5 holds 2
6 region 2 1 wakes none
7 wrote 16
8 wrote 0
9 wrote 8
10 refused 13
end 24 3
";

/// The lengths of a sheet's events one after the other, and what the walk ended at.
fn walk(sheet: &[u8]) -> (Vec<usize>, EventAt) {
    let mut lengths = Vec::new();
    let mut at = 0;
    loop {
        match event_at(sheet, at) {
            EventAt::Event { length } => {
                lengths.push(length);
                at += length;
            }
            last => return (lengths, last),
        }
    }
}

#[test]
fn example_prints_as_document_01_says() {
    let mut book = vec![0; 65_536];
    assert_eq!(run_to_string(EXAMPLE, &mut book).as_deref(), Some(EXAMPLE_TEXT));
    assert_eq!(book[..8], [2; 8]);
    assert_eq!(book[8..16], [3; 8]);
    assert_eq!(book[16..24], [1; 8]);
    assert!(book[24..].iter().all(|byte| *byte == 0));
}

#[test]
fn text_and_book_are_altered_only_where_the_run_writes() {
    let mut book = vec![0xEE; 100];
    let mut text = vec![0xEE; text_bound(EXAMPLE.len()).unwrap() + 9];
    let length = run(EXAMPLE, &mut book, &mut text).unwrap();
    assert_eq!(&text[..length], EXAMPLE_TEXT.as_bytes());
    assert!(text[length..].iter().all(|byte| *byte == 0xEE));
    assert_eq!(book[24..64], [0; 40], "the opening zeroes the capacity");
    assert_eq!(book[64..], [0xEE; 36], "and nothing past it");
}

#[test]
fn empty_sheet_prints_end_alone() {
    let mut book = vec![0xEE; 64];
    assert_eq!(run_to_string(&[], &mut book).as_deref(), Some("end 0 0\n"));
    assert_eq!(book, [0xEE; 64]);
}

#[test]
fn text_of_the_bound_is_taken_and_one_byte_less_alters_nothing() {
    let bound = text_bound(EXAMPLE.len()).unwrap();
    let mut book = vec![0xEE; 64];
    let mut text = vec![0xEE; bound];
    assert_eq!(run(EXAMPLE, &mut book, &mut text[..bound - 1]), None);
    assert!(book.iter().chain(&text).all(|byte| *byte == 0xEE));
    assert_eq!(run(EXAMPLE, &mut book, &mut text), Some(EXAMPLE_TEXT.len()));
}

#[test]
fn empty_text_is_too_short_for_every_sheet() {
    let mut book = [0xEE; 64];
    assert_eq!(run(EXAMPLE, &mut book, &mut []), None);
    assert_eq!(run(&[], &mut book, &mut []), None);
    assert_eq!(book, [0xEE; 64]);
}

#[test]
fn empty_book_refuses_the_opening_with_7() {
    let text = run_to_string(&EXAMPLE[..9], &mut []);
    assert_eq!(text.as_deref(), Some("0 refused 7\n1 refused 4\nend 0 0\n"));
}

#[test]
fn empty_book_refuses_129_lanes_with_6() {
    let text = run_to_string(&[1, 129, 0, 0, 0, 64], &mut []);
    assert_eq!(text.as_deref(), Some("0 refused 6\nend 0 0\n"));
}

#[test]
fn book_below_the_capacity_refuses_the_opening_with_7_and_stays() {
    let mut book = [0xEE; 63];
    let text = run_to_string(&EXAMPLE[..9], &mut book);
    assert_eq!(text.as_deref(), Some("0 refused 7\n1 refused 4\nend 0 0\n"));
    assert_eq!(book, [0xEE; 63]);
    let text = run_to_string(&EXAMPLE[..9], &mut [0xEE; 64]);
    assert_eq!(text.as_deref(), Some("0 open 2 64\n1 holds 0\nend 0 0\n"));
}

#[test]
fn all_three_slices_can_be_empty() {
    assert_eq!(run(&[], &mut [], &mut []), None);
    assert_eq!(event_at(&[], 0), EventAt::End);
}

#[test]
fn bound_is_56_for_each_byte_and_112_while_it_has_64_bits() {
    assert_eq!(text_bound(0), Some(112));
    assert_eq!(text_bound(65_536), Some(56 * 65_536 + 112));
    assert_eq!(text_bound(329_406_144_173_384_848), Some(18_446_744_073_709_551_600));
    assert_eq!(text_bound(329_406_144_173_384_849), None);
    assert_eq!(text_bound(usize::MAX), None);
}

#[test]
fn events_of_the_example_have_their_lengths() {
    assert_eq!(walk(EXAMPLE), (vec![6, 3, 3, 2, 4, 2, 4, 10, 10, 10, 10], EventAt::End));
}

#[test]
fn each_kind_has_its_length_and_every_cut_of_it_is_3() {
    let lengths = [6, 3, 2, 4, 10, 2, 14, 6, 2, 4, 40, 6];
    for (kind, length) in (1..).zip(lengths) {
        let mut sheet = vec![0; length];
        sheet[0] = kind;
        assert_eq!(event_at(&sheet, 0), EventAt::Event { length }, "kind {kind}");
        for cut in 1..length {
            assert_eq!(event_at(&sheet[..cut], 0), EventAt::Refused(3), "kind {kind} cut to {cut}");
        }
    }
}

#[test]
fn every_unlisted_kind_is_2_with_and_without_bytes_after_it() {
    for kind in (0..=255).filter(|kind| !(1..=12).contains(kind)) {
        assert_eq!(event_at(&[kind], 0), EventAt::Refused(2), "kind {kind}");
        assert_eq!(event_at(&[kind; 41], 0), EventAt::Refused(2), "kind {kind}");
    }
}

#[test]
fn unlisted_kind_ends_the_walk_and_the_run() {
    let sheet = [0x01, 1, 0, 0, 0, 8, 0x0D, 0x02, 0, 0];
    assert_eq!(walk(&sheet), (vec![6], EventAt::Refused(2)));
    let text = run_to_string(&sheet, &mut [0; 8]);
    assert_eq!(text.as_deref(), Some("0 open 1 8\n1 refused 2\nend 0 0\n"));
}

#[test]
fn cut_body_ends_the_walk_and_the_run() {
    let sheet = [0x01, 1, 0, 0, 0, 8, 0x04, 0, 0];
    assert_eq!(walk(&sheet), (vec![6], EventAt::Refused(3)));
    let text = run_to_string(&sheet, &mut [0; 8]);
    assert_eq!(text.as_deref(), Some("0 open 1 8\n1 refused 3\nend 0 0\n"));
}

#[test]
fn index_at_the_end_and_past_it_is_the_end() {
    for at in [EXAMPLE.len(), EXAMPLE.len() + 1, usize::MAX] {
        assert_eq!(event_at(EXAMPLE, at), EventAt::End);
    }
}

#[test]
fn threads_run_one_sheet_on_books_of_their_own() {
    std::thread::scope(|scope| {
        for _ in 0..4 {
            scope.spawn(|| {
                let mut book = [0; 64];
                for _ in 0..200 {
                    assert_eq!(run_to_string(EXAMPLE, &mut book).as_deref(), Some(EXAMPLE_TEXT));
                }
            });
        }
    });
}

#[test]
fn version_is_the_headers() {
    let header = include_str!("../../gudlemi.h");
    let line = format!("#define GUDLEMI_VERSION {}\n", crate::version());
    assert!(header.contains(&line));
}

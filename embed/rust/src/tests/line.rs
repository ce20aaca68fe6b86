//! Tests of single calls: document 01's example call by call, every answer and refusal, the edges of each buffer, and
//! lines that are saved and gone on from.

use super::{EXAMPLE, EXAMPLE_TEXT};
use crate::line::{answer_text, is_sound, lane, number, position, unopened, TEXT_LENGTH};
use crate::{answer_length, call_bytes, layout, state_length, Answer, Block, Line, Phase};
use crate::{event_at, EventAt, Purpose, View, Whence, ANSWER_LENGTH, ANSWER_TOO_SHORT, LAYOUT};
use crate::{STATE_LENGTH, STATE_TOO_SHORT};
use Purpose::{SharedRead, SharedWrite, WholeBook};

/// Where the entries and the flags of the lanes start in a state.
const ENTRIES: usize = 64;
const FLAGS: usize = 1_088;

/// The view of document 01's edges: places 0, 1, 2, 3 lie at 12, 20, 36, 52.
fn gapped() -> View {
    View::new(4, 5, &[(1, 2), (4, 1)]).unwrap()
}

/// An open line of three lanes over a book of 64 bytes.
fn opened() -> (Line, Vec<u8>) {
    let mut line = Line::unopened();
    let mut book = vec![0xEE; 64];
    assert_eq!(line.open(&mut book, 3, 64), Answer::Open { lanes: 3, capacity: 64 });
    (line, book)
}

/// The same with lane 0 holding for this purpose and lane 2 waiting to write.
fn one_holds(purpose: Purpose) -> (Line, Vec<u8>) {
    let (mut line, mut book) = opened();
    assert_eq!(line.want(&mut book, 0, purpose), Answer::Holds { pointer: 0 });
    assert_eq!(line.want(&mut book, 2, SharedWrite), Answer::Waits);
    (line, book)
}

/// The calls of document 01's example, as (kind, body).
fn example_calls() -> Vec<(u8, &'static [u8])> {
    let mut calls = Vec::new();
    let mut at = 0;
    while let EventAt::Event { length } = event_at(EXAMPLE, at) {
        calls.push((EXAMPLE[at], &EXAMPLE[at + 1..at + length]));
        at += length;
    }
    calls
}

/// Calls of every kind, each of which is accepted by the line that those before it leave: (kind, body).
fn calls_of_every_kind() -> Vec<(u8, Vec<u8>)> {
    let mut view = vec![0, 0, 0, 4, 0, 5, 2, 0, 1, 0, 2, 0, 4, 0, 1];
    view.resize(39, 0);
    vec![
        (0x01, vec![3, 0, 0, 0, 128]),
        (0x0B, view),
        (0x0C, vec![0, 0, 0, 0, 1]),
        (0x02, vec![0, 0]),
        (0x02, vec![2, 2]),
        (0x04, vec![0, 0, 2]),
        (0x05, vec![0, 1, 1, 1, 1, 1, 1, 1, 1]),
        (0x03, vec![2]),
        (0x02, vec![1, 1]),
        (0x07, vec![2, 0, 0, 0, 0, 9, 9, 9, 9, 9, 9, 9, 9]),
        (0x08, vec![2, 0, 0, 0, 1]),
        (0x09, vec![2]),
        (0x03, vec![1]),
        (0x04, vec![1, 0, 2]),
        (0x06, vec![1]),
        (0x05, vec![0, 2, 2, 2, 2, 2, 2, 2, 2]),
        (0x06, vec![1]),
        (0x0A, vec![1, 0, 1]),
        (0x0A, vec![0, 0, 0]),
        (0x0A, vec![2, 0, 1]),
        (0x05, vec![2, 3, 3, 3, 3, 3, 3, 3, 3]),
        (0x05, vec![1, 4, 4, 4, 4, 4, 4, 4, 4]),
        (0x0C, vec![2, 0xFF, 0xFF, 0xFF, 0xFF]),
    ]
}

/// Makes a call that must be refused with this number, and holds the line and the book to what they were.
fn assert_refused(
    expected: u8,
    lent: &(Line, Vec<u8>),
    make: impl FnOnce(&mut Line, &mut [u8]) -> Answer,
) {
    let (mut line, mut book) = lent.clone();
    assert_eq!(make(&mut line, &mut book), Answer::Refused(expected));
    assert_eq!(line, lent.0, "the line after refusal {expected}");
    assert_eq!(book, lent.1, "the book after refusal {expected}");
}

/// The state with one byte altered.
fn with(line: &Line, at: usize, byte: u8) -> [u8; STATE_LENGTH] {
    let mut state = *line.as_bytes();
    state[at] = byte;
    state
}

#[test]
fn lengths_and_layout_are_the_librarys_and_the_headers() {
    assert_eq!((state_length(), answer_length(), layout()), (STATE_LENGTH, ANSWER_LENGTH, LAYOUT));
    let header = include_str!("../../../gudlemi.h");
    let lines = [
        format!("#define GUDLEMI_STATE_LENGTH {STATE_LENGTH}\n"),
        format!("#define GUDLEMI_ANSWER_LENGTH {ANSWER_LENGTH}\n"),
        format!("#define GUDLEMI_LAYOUT {LAYOUT}\n"),
        format!("#define GUDLEMI_TEXT_LENGTH {TEXT_LENGTH}\n"),
        format!("#define GUDLEMI_STATE_TOO_SHORT {STATE_TOO_SHORT}\n"),
        format!("#define GUDLEMI_ANSWER_TOO_SHORT {ANSWER_TOO_SHORT}\n"),
    ];
    for line in lines {
        assert!(header.contains(&line), "{line}");
    }
}

#[test]
fn example_is_answered_call_by_call_as_document_01_says() {
    let mut book = [0xEE; 64];
    let mut line = Line::unopened();
    assert_eq!(line.open(&mut book, 2, 64), Answer::Open { lanes: 2, capacity: 64 });
    assert_eq!(line.want(&mut book, 0, SharedWrite), Answer::Holds { pointer: 0 });
    assert_eq!(line.want(&mut book, 1, SharedWrite), Answer::Waits);
    assert_eq!(line.receive(&mut book, 1), Answer::Refused(14));
    let region = Answer::Region { start: 0, count: 2, wakes: Some(1) };
    assert_eq!(line.take(&mut book, 0, 2), region);
    assert_eq!(line.receive(&mut book, 1), Answer::Holds { pointer: 2 });
    let region = Answer::Region { start: 2, count: 1, wakes: None };
    assert_eq!(line.take(&mut book, 1, 1), region);
    assert_eq!(line.write(&mut book, 1, [1; 8]), Answer::Wrote { position: 16 });
    assert_eq!(line.write(&mut book, 0, [2; 8]), Answer::Wrote { position: 0 });
    assert_eq!(line.write(&mut book, 0, [3; 8]), Answer::Wrote { position: 8 });
    assert_eq!(line.write(&mut book, 0, [4; 8]), Answer::Refused(13));
    assert_eq!((line.size(), line.pointer()), (24, 3));
    assert_eq!(book[..24], *[[2; 8], [3; 8], [1; 8]].concat());
    assert_eq!(book[24..], [0; 40]);
}

#[test]
fn example_prints_the_same_lines_call_by_call() {
    let (mut line, mut book) = (Line::unopened(), [0xEE; 64]);
    let mut text = String::new();
    for (number, (kind, body)) in (0..).zip(example_calls()) {
        text.push_str(&line.call(&mut book, kind, body).line(number));
    }
    text.push_str(&format!("end {} {}\n", line.size(), line.pointer()));
    assert_eq!(text, EXAMPLE_TEXT);
}

#[test]
fn calls_answer_each_word() {
    let (mut line, mut book) = (Line::unopened(), vec![0xEE; 128]);
    let mut words = String::new();
    for (kind, body) in calls_of_every_kind() {
        words.push_str(&format!("{}\n", line.call(&mut book, kind, &body)));
    }
    let expected = "open 3 128\nview\nseek 1\nholds 1\nwaits\nregion 1 2 wakes 2\nwrote 20\nholds 3\nwaits\nwrote 12\n\
        record 0101010101010101\nfreed wakes 1\nholds 3\nregion 3 2 wakes none\nnone\nwrote 36\nnone\ngathered\ngathered\n\
        ordered 5 2\nwrote 92\nwrote 76\nseek 6\n";
    assert_eq!(words, expected);
}

#[test]
fn whole_book_is_put_looked_at_and_freed() {
    let (mut line, mut book) = one_holds(WholeBook);
    assert_eq!(line.put(&mut book, 0, 3, *b"a record"), Answer::Wrote { position: 24 });
    assert_eq!(line.look(&mut book, 0, 3), Answer::Record(*b"a record"));
    assert_eq!(line.look(&mut book, 0, 4), Answer::None);
    assert_eq!(line.free(&mut book, 0), Answer::Freed { wakes: Some(2) });
    assert_eq!(book[24..32], *b"a record");
}

#[test]
fn read_view_enter_and_seek_answer_as_the_papers_say() {
    let (mut line, mut book) = opened();
    assert_eq!(line.enter(&mut book, 2, 1), Answer::Gathered);
    assert_eq!(line.enter(&mut book, 0, 2), Answer::Gathered);
    assert_eq!(line.enter(&mut book, 1, 0), Answer::Ordered { before: 0, total: 3 });
    for (lane, position) in [(2, 16), (0, 0), (0, 8)] {
        assert_eq!(line.write(&mut book, lane, [lane; 8]), Answer::Wrote { position });
    }
    assert_eq!(line.seek(&mut book, Whence::Pointer, -1), Answer::Seek { pointer: 2 });
    assert_eq!(line.want(&mut book, 1, SharedRead), Answer::Holds { pointer: 2 });
    let region = Answer::Region { start: 2, count: 2, wakes: None };
    assert_eq!(line.take(&mut book, 1, 2), region);
    assert_eq!(line.read(&mut book, 1), Answer::Record([2; 8]));
    assert_eq!(line.read(&mut book, 1), Answer::None);
    assert_eq!(line.set_view(&mut book, &gapped()), Answer::View);
    assert_eq!(line.seek(&mut book, Whence::End, 1), Answer::Seek { pointer: 3 });
    assert_eq!(line.seek(&mut book, Whence::Start, 65_536), Answer::Seek { pointer: 65_536 });
}

#[test]
fn every_call_to_a_line_that_is_not_sound_gets_1() {
    let mut raised = with(&opened().0, FLAGS, 1);
    let lent = (Line::from_bytes(&raised).unwrap(), vec![0xEE; 64]);
    assert!(!lent.0.is_sound(64));
    for (kind, body) in calls_of_every_kind() {
        assert_refused(1, &lent, |line, book| line.call(book, kind, &body));
    }
    assert_refused(1, &lent, |line, book| line.call(book, 0x0D, &[]));
    raised[0] = 0;
    let mut answer = [0xEE; ANSWER_LENGTH];
    let state = raised;
    assert_eq!(call_bytes(&mut raised, &mut [0xEE; 64], 0x06, &[0], &mut answer), 1);
    assert_eq!((raised, answer), (state, Answer::Refused(1).to_bytes()), "bytes that are no line");
}

#[test]
fn kinds_not_listed_get_2_and_cut_bodies_3_whether_open_or_not() {
    for lent in [(Line::unopened(), vec![0xEE; 64]), opened()] {
        for kind in (0..=255).filter(|kind| !(1..=12).contains(kind)) {
            assert_refused(2, &lent, |line, book| line.call(book, kind, &[0; 40]));
            assert_refused(2, &lent, |line, book| line.call(book, kind, &[]));
        }
        for (kind, length) in (1..).zip([5, 2, 1, 3, 9, 1, 13, 5, 1, 3, 39, 5]) {
            for cut in 0..length {
                assert_refused(3, &lent, |line, book| line.call(book, kind, &vec![0; cut]));
            }
        }
    }
}

#[test]
fn bytes_past_the_fields_are_not_looked_at() {
    let (mut long, mut plain) = (Line::unopened(), Line::unopened());
    let (mut book, mut other) = ([0xEE; 128], [0xEE; 128]);
    for (kind, mut body) in calls_of_every_kind() {
        let answer = plain.call(&mut other, kind, &body);
        body.extend([0xFF; 3]);
        assert_eq!(long.call(&mut book, kind, &body), answer);
        assert_eq!((&long, book), (&plain, other));
    }
}

#[test]
fn openings_are_refused_with_4_to_7() {
    let unopened = (Line::unopened(), vec![0xEE; 64]);
    for (kind, body) in calls_of_every_kind().into_iter().filter(|(kind, _)| *kind != 1) {
        assert_refused(4, &unopened, |line, book| line.call(book, kind, &body));
    }
    assert_refused(5, &opened(), |line, book| line.open(book, 3, 64));
    assert_refused(5, &opened(), |line, book| line.open(book, 0, 0));
    for lanes in [0, 129, 255] {
        assert_refused(6, &unopened, |line, book| line.open(book, lanes, 0));
    }
    for capacity in [0, 7, 65, 65_537, u32::MAX] {
        assert_refused(7, &unopened, |line, book| line.open(book, 128, capacity));
    }
    let empty = (Line::unopened(), Vec::new());
    assert_refused(7, &empty, |line, book| line.open(book, 1, 8));
    let large = (Line::unopened(), vec![0xEE; 65_537]);
    assert_refused(7, &large, |line, book| line.open(book, 1, 65_537));
}

#[test]
fn lanes_that_are_not_there_get_8_and_numbers_above_2_get_9() {
    for lane in [3, 128, 255] {
        for kind in 0x02..=0x0A {
            let body = [[lane; 1].as_slice(), &[0xFF; 12]].concat();
            assert_refused(8, &opened(), |line, book| line.call(book, kind, &body));
        }
    }
    for above in [3, 255] {
        assert_refused(9, &opened(), |line, book| line.call(book, 0x02, &[0, above]));
        assert_refused(9, &opened(), |line, book| line.call(book, 0x0C, &[above, 0, 0, 0, 0]));
    }
}

#[test]
fn views_that_break_a_rule_get_10() {
    let mut unused = gapped();
    unused.block[7].length = 1;
    let mut none = gapped();
    none.blocks = 0;
    let mut nine = gapped();
    nine.blocks = 9;
    let view =
        |displacement, extent, blocks: &[_]| View::new(displacement, extent, blocks).unwrap();
    let views = [unused, none, nine, view(65, 1, &[(0, 1)]), view(0, 0, &[(0, 1)])];
    let others = [view(0, 1_025, &[(0, 1)]), view(0, 2, &[(0, 3)]), view(0, 2, &[(0, 0)])];
    let overlapping = [view(0, 4, &[(0, 2), (1, 2)])];
    for view in views.iter().chain(&others).chain(&overlapping) {
        assert_refused(10, &opened(), |line, book| line.set_view(book, view));
    }
    assert_eq!(View::new(0, 9, &[(0, 1); 9]), None, "nine blocks");
}

#[test]
fn lanes_in_another_phase_get_11_to_14() {
    let held = one_holds(SharedRead);
    assert_refused(11, &held, |line, book| line.set_view(book, &View::PLAIN));
    assert_refused(11, &held, |line, book| line.seek(book, Whence::Start, 0));
    assert_refused(11, &held, |line, book| line.enter(book, 1, 0));
    let mut gathered = opened();
    assert_eq!(gathered.0.enter(&mut gathered.1, 0, 1), Answer::Gathered);
    assert_refused(12, &gathered, |line, book| line.want(book, 1, SharedWrite));
    assert_refused(13, &gathered, |line, book| line.enter(book, 0, 1));
    for lane in [0, 2] {
        assert_refused(13, &held, |line, book| line.want(book, lane, SharedWrite));
        assert_refused(13, &held, |line, book| line.write(book, lane, [0; 8]));
        assert_refused(13, &held, |line, book| line.read(book, lane));
        assert_refused(13, &held, |line, book| line.put(book, lane, 0, [0; 8]));
        assert_refused(13, &held, |line, book| line.look(book, lane, 0));
        assert_refused(13, &held, |line, book| line.free(book, lane));
    }
    assert_refused(13, &held, |line, book| line.receive(book, 0));
    assert_refused(13, &one_holds(WholeBook), |line, book| line.take(book, 0, 0));
    assert_refused(14, &held, |line, book| line.receive(book, 2));
}

#[test]
fn pointers_out_of_range_get_15_and_records_that_do_not_fit_16() {
    for (whence, offset) in [(Whence::Start, -1), (Whence::Pointer, 65_537), (Whence::End, -1)] {
        assert_refused(15, &opened(), |line, book| line.seek(book, whence, offset));
    }
    let mut reader = opened();
    assert_eq!(reader.0.seek(&mut reader.1, Whence::Start, 2), Answer::Seek { pointer: 2 });
    assert_eq!(reader.0.want(&mut reader.1, 0, SharedRead), Answer::Holds { pointer: 2 });
    assert_refused(15, &reader, |line, book| line.take(book, 0, 65_535));
    assert_refused(16, &one_holds(SharedWrite), |line, book| line.take(book, 0, 9));
    assert_refused(16, &one_holds(WholeBook), |line, book| line.put(book, 0, 8, [0; 8]));
    assert_refused(16, &one_holds(WholeBook), |line, book| line.put(book, 0, u32::MAX, [0; 8]));
    let mut gathered = opened();
    assert_eq!(gathered.0.enter(&mut gathered.1, 0, 5), Answer::Gathered);
    assert_refused(16, &gathered, |line, book| line.enter(book, 1, 4));
}

#[test]
fn short_buffers_alter_nothing() {
    let call = [0x02, 1, 0];
    for (state_length, answer_length, expected) in [
        (0, 16, STATE_TOO_SHORT),
        (1, 16, STATE_TOO_SHORT),
        (1_215, 16, STATE_TOO_SHORT),
        (1_215, 15, STATE_TOO_SHORT),
        (0, 0, STATE_TOO_SHORT),
        (1_216, 0, ANSWER_TOO_SHORT),
        (1_216, 1, ANSWER_TOO_SHORT),
        (1_216, 15, ANSWER_TOO_SHORT),
    ] {
        let (line, lent) = opened();
        let mut state = line.as_bytes()[..state_length].to_vec();
        let (mut book, mut answer) = (lent.clone(), vec![0xEE; answer_length]);
        let status = call_bytes(&mut state, &mut book, call[0], &call[1..], &mut answer);
        assert_eq!(status, expected, "{state_length} {answer_length}");
        assert_eq!((state.as_slice(), book), (&line.as_bytes()[..state_length], lent));
        assert_eq!(answer, vec![0xEE; answer_length]);
    }
    for length in [0, 1, 1_215] {
        let mut state = vec![0xEE; length];
        assert_eq!(unopened(&mut state), STATE_TOO_SHORT);
        assert_eq!(state, vec![0xEE; length]);
    }
}

#[test]
fn bytes_past_the_lengths_stay() {
    let mut state = vec![0xEE; STATE_LENGTH + 9];
    let (mut book, mut answer) = ([0xEE; 70], [0xEE; ANSWER_LENGTH + 9]);
    assert_eq!(unopened(&mut state), 0);
    assert_eq!(state[STATE_LENGTH..], [0xEE; 9]);
    for (status, kind, body) in [(0, 0x01, [1, 0, 0, 0, 64]), (3, 0x07, [0; 5])] {
        answer.fill(0xEE);
        assert_eq!(call_bytes(&mut state, &mut book, kind, &body, &mut answer), status);
        assert_eq!(
            (&state[STATE_LENGTH..], &answer[ANSWER_LENGTH..]),
            ([0xEE; 9].as_slice(), [0xEE; 9].as_slice())
        );
    }
    assert_eq!(answer[..ANSWER_LENGTH], Answer::Refused(3).to_bytes());
    assert_eq!((&book[..64], &book[64..]), ([0; 64].as_slice(), [0xEE; 6].as_slice()));
    assert_eq!(is_sound(&state, 70), 1, "with bytes past it");
    assert_eq!(Line::from_bytes(&state), None, "not just as many bytes");
    assert!(Line::from_bytes(&state[..STATE_LENGTH]).is_some());
}

#[test]
fn unopened_line_has_the_mark_the_layout_and_the_plain_view() {
    let mut expected = [0; STATE_LENGTH];
    expected[..8].copy_from_slice(b"GUDL\0\0\0\x01");
    expected[26] = 1; // extent
    expected[27] = 1; // blocks
    expected[31] = 1; // the length of the first
    let line = Line::unopened();
    assert_eq!(*line.as_bytes(), expected);
    assert_eq!(line.view(), View::PLAIN);
    assert_eq!((line.lanes(), line.capacity(), line.size(), line.pointer()), (0, 0, 0, 0));
    assert_eq!((line.lane(0), line.lane(255)), (None, None));
    assert_eq!((line.position(0), line.position(u32::MAX)), (0, 8 * 4_294_967_295));
    assert!(line.is_sound(0));
    assert_eq!(Line::default(), line);
}

/// An altered state is no line for any function.
fn assert_no_line(state: &[u8; STATE_LENGTH], what: &str) {
    let (mut after, mut book, mut answer) = (*state, [0xEE; 64], [0; ANSWER_LENGTH]);
    assert_eq!(Line::from_bytes(state), None, "{what}");
    assert_eq!((0..=255).find_map(|index| number(state, index)), None, "{what}");
    assert_eq!((0..=255).find_map(|at| lane(state, at)), None, "{what}");
    assert_eq!(position(state, 0), None, "{what}");
    assert_eq!(is_sound(state, 64), 0, "{what}");
    assert_eq!(call_bytes(&mut after, &mut book, 0x03, &[0], &mut answer), 1, "{what}");
    assert_eq!((after, book), (*state, [0xEE; 64]), "{what}");
}

#[test]
fn other_marks_layouts_and_reserved_bytes_are_no_line() {
    for line in [Line::unopened(), opened().0] {
        for at in (0..8).chain(60..64) {
            for byte in [line.as_bytes()[at] ^ 1, line.as_bytes()[at] ^ 0x80] {
                assert_no_line(&with(&line, at, byte), &format!("byte {at}"));
            }
        }
    }
}

#[test]
fn entries_with_numbers_that_their_phase_does_not_have_are_no_line() {
    let entries: [[u8; 8]; 22] = [
        [7, 0, 0, 0, 0, 0, 0, 0],
        [255, 0, 0, 0, 0, 0, 0, 0],
        [0, 1, 0, 0, 0, 0, 0, 0],
        [0, 0, 0, 1, 0, 0, 0, 0],
        [0, 0, 0, 0, 0, 0, 0, 1],
        [1, 3, 0, 0, 0, 0, 0, 0],
        [1, 0, 1, 0, 0, 0, 0, 0],
        [1, 0, 0, 0, 0, 0, 0, 1],
        [2, 3, 0, 0, 0, 0, 0, 0],
        [2, 0, 0, 1, 0, 0, 0, 0],
        [3, 255, 0, 0, 0, 0, 0, 0],
        [3, 0, 1, 0, 0, 0, 0, 0],
        [4, 1, 0, 1, 0, 0, 0, 0],
        [4, 2, 0, 1, 0, 0, 0, 0],
        [4, 3, 0, 1, 0, 0, 0, 0],
        [5, 0, 0, 1, 0, 0, 0, 0],
        [5, 2, 0, 1, 0, 0, 0, 0],
        [5, 3, 0, 1, 0, 0, 0, 0],
        [6, 1, 0, 1, 0, 0, 0, 0],
        [6, 0, 0, 1, 0, 0, 0, 1],
        [6, 0, 0, 1, 1, 0, 0, 0],
        [6, 3, 0, 1, 0, 0, 0, 0],
    ];
    for entry in entries {
        for lane in [0, 2, 127] {
            let mut state = *opened().0.as_bytes();
            state[ENTRIES + 8 * lane..][..8].copy_from_slice(&entry);
            assert_no_line(&state, &format!("{entry:?} for lane {lane}"));
        }
    }
}

#[test]
fn lines_that_break_a_rule_are_not_sound() {
    let (line, book) = one_holds(SharedWrite);
    assert!(line.is_sound(64));
    for (at, byte) in [
        (8, 2),             // lane 2 waits, and is not below N
        (8, 129),           // too many lanes
        (11, 1),            // a capacity above the book
        (16, 65),           // a size above the capacity
        (20, 1),            // another pointer than the holder's
        (24, 65),           // a displacement above the capacity
        (26, 0),            // no extent
        (27, 0),            // no blocks
        (27, 2),            // a block with no record
        (ENTRIES, 1),       // nobody has the turn
        (ENTRIES + 16, 2),  // two have it
        (FLAGS, 0),         // a holder without its flag
        (FLAGS, 3),         // a flag that is neither 0 nor 1
        (FLAGS + 1, 1),     // an idle lane with a flag
        (FLAGS + 1, 2),     //
        (FLAGS + 127, 1),   // a flag past N
        (FLAGS + 127, 254), //
    ] {
        let altered = Line::from_bytes(&with(&line, at, byte)).expect("a line");
        assert!(!altered.is_sound(64), "byte {at} as {byte}");
        let lent = (altered, book.clone());
        assert_refused(1, &lent, |line, book| line.take(book, 0, 0));
    }
}

#[test]
fn other_lengths_are_no_line() {
    let state = [opened().0.as_bytes().as_slice(), &[0]].concat();
    for length in [0, 1, 1_215, 1_217] {
        assert_eq!(Line::from_bytes(&state[..length]), None, "{length} bytes");
    }
    assert_eq!((number(&state[..1_215], 0), position(&state[..1_215], 0)), (None, None));
    assert_eq!((lane(&state[..1_215], 0), is_sound(&state[..1_215], 64)), (None, 0));
    assert_eq!(Line::from_bytes(&state[..1_216]), Some(opened().0));
}

#[test]
fn line_kept_with_a_shorter_book_is_not_sound() {
    let (line, book) = opened();
    assert!(line.is_sound(64) && line.is_sound(65) && !line.is_sound(63) && !line.is_sound(0));
    let shorter = (line.clone(), book[..63].to_vec());
    assert_refused(1, &shorter, |line, book| line.want(book, 0, SharedWrite));
    let longer = &mut [0xEE; 90];
    assert_eq!(line.clone().want(longer, 0, SharedWrite), Answer::Holds { pointer: 0 });
}

#[test]
fn line_that_is_saved_and_gone_on_from_is_the_line_that_was_not() {
    let calls = calls_of_every_kind();
    for saved_at in 0..=calls.len() {
        let (mut line, mut book) = (Line::unopened(), vec![0xEE; 128]);
        let (mut other, mut other_book) = (Line::unopened(), vec![0xEE; 128]);
        for (at, (kind, body)) in calls.iter().enumerate() {
            if at == saved_at {
                let file = [other.as_bytes().as_slice(), &other_book].concat();
                other = Line::from_bytes(&file[..STATE_LENGTH]).unwrap();
                other_book = file[STATE_LENGTH..].to_vec();
                assert!(other.is_sound(other_book.len()));
            }
            let answer = line.call(&mut book, *kind, body);
            assert!(!matches!(answer, Answer::Refused(_)), "call {at}");
            assert_eq!(other.call(&mut other_book, *kind, body), answer);
            assert_eq!(other.as_bytes(), line.as_bytes(), "after call {at}");
            assert_eq!(other_book, book, "after call {at}");
        }
    }
}

#[test]
fn threads_make_calls_on_lines_of_their_own() {
    std::thread::scope(|scope| {
        for lanes in 3..7 {
            scope.spawn(move || {
                for _ in 0..50 {
                    let (mut line, mut book) = (Line::unopened(), [0xEE; 64]);
                    let open = Answer::Open { lanes, capacity: 64 };
                    assert_eq!(line.open(&mut book, lanes, 64), open);
                    assert_eq!(line.want(&mut book, lanes - 1, SharedWrite).line(7), "7 holds 0\n");
                    assert_eq!(line.take(&mut book, lanes - 1, 1).wakes(), None);
                    assert_eq!(line.write(&mut book, lanes - 1, [lanes; 8]).line(9), "9 wrote 0\n");
                    assert_eq!((book[..8].to_vec(), line.lanes()), (vec![lanes; 8], lanes));
                }
            });
        }
    });
}

/// Every word, with values at the ends of their ranges, and what is printed after the number; the first has the longest line.
fn printed_answers() -> [(Answer, &'static str); 19] {
    let (wakes, none) = (Some(127), None);
    let longest = Answer::Region { start: u32::MAX, count: u16::MAX, wakes: Some(255) };
    [
        (longest, "region 4294967295 65535 wakes 255"),
        (Answer::Refused(1), "refused 1"),
        (Answer::Refused(16), "refused 16"),
        (Answer::Open { lanes: 128, capacity: 65_536 }, "open 128 65536"),
        (Answer::Holds { pointer: 65_536 }, "holds 65536"),
        (Answer::Waits, "waits"),
        (Answer::Region { start: 65_535, count: 1, wakes }, "region 65535 1 wakes 127"),
        (Answer::Region { start: 0, count: 65_535, wakes: none }, "region 0 65535 wakes none"),
        (Answer::Region { start: 0, count: 0, wakes: Some(0) }, "region 0 0 wakes 0"),
        (Answer::Wrote { position: 65_528 }, "wrote 65528"),
        (Answer::Record([0, 0, 0, 0, 0, 0, 0, 0]), "record 0000000000000000"),
        (Answer::Record([0xFE, 1, 2, 3, 4, 5, 6, 0xAF]), "record fe010203040506af"),
        (Answer::None, "none"),
        (Answer::Freed { wakes }, "freed wakes 127"),
        (Answer::Freed { wakes: none }, "freed wakes none"),
        (Answer::Gathered, "gathered"),
        (Answer::Ordered { before: 65_536, total: 8_192 }, "ordered 65536 8192"),
        (Answer::View, "view"),
        (Answer::Seek { pointer: 65_536 }, "seek 65536"),
    ]
}

#[test]
fn every_answer_has_its_printed_line_and_its_bytes() {
    for (answer, words) in printed_answers() {
        assert_eq!(answer.to_string(), words);
        for number in [0, 10, u64::MAX] {
            assert_eq!(answer.line(number), format!("{number} {words}\n"));
        }
        assert_eq!(Answer::from_bytes(&answer.to_bytes()), Some(answer));
    }
    assert_eq!(format!("[{:>8}]", Answer::Waits), "[   waits]");
}

#[test]
fn every_refusal_has_its_printed_line() {
    for number in 1..=16 {
        assert_eq!(Answer::Refused(number).line(3), format!("3 refused {number}\n"));
    }
}

#[test]
fn answers_in_bytes_are_those_that_the_library_leaves() {
    let (mut state, mut book) = ([0; STATE_LENGTH], [0; 128]);
    let mut line = Line::unopened();
    let mut other = book;
    unopened(&mut state);
    for (kind, body) in calls_of_every_kind() {
        let mut answer = [0xEE; ANSWER_LENGTH];
        assert_eq!(call_bytes(&mut state, &mut book, kind, &body, &mut answer), 0);
        assert_eq!(line.call(&mut other, kind, &body).to_bytes(), answer);
        assert_eq!(state, *line.as_bytes());
    }
}

#[test]
fn other_bytes_are_no_answer_and_print_nothing() {
    let wakes = Answer::Region { start: 1, count: 2, wakes: Some(3) }.to_bytes();
    for (at, byte) in [(0, 13), (0, 255), (1, 5), (2, 0), (2, 2), (4, 1), (12, 1)] {
        let mut bytes = wakes;
        bytes[at] = byte;
        let mut text = [0xEE; TEXT_LENGTH];
        assert_eq!(Answer::from_bytes(&bytes), None, "byte {at} as {byte}");
        assert_eq!(answer_text(&bytes, 0, &mut text), 0, "byte {at} as {byte}");
        assert_eq!(text, [0xEE; TEXT_LENGTH]);
    }
    for length in [0, 1, 15, 17] {
        assert_eq!(Answer::from_bytes(&[&wakes[..], &[0]].concat()[..length]), None);
    }
    assert_eq!(answer_text(&wakes[..15], 0, &mut [0; TEXT_LENGTH]), 0);
    assert_eq!(answer_text(&[], 0, &mut []), 0, "which is looked for first");
}

#[test]
fn text_below_its_length_is_too_short_and_stays() {
    let answer = [&Answer::Waits.to_bytes()[..], &[0xEE; 3]].concat();
    for length in [0, 1, TEXT_LENGTH - 1] {
        let mut text = vec![0xEE; length];
        assert_eq!(answer_text(&answer, 7, &mut text), usize::MAX, "{length}");
        assert_eq!(text, vec![0xEE; length]);
    }
    let mut text = [0xEE; TEXT_LENGTH + 9];
    assert_eq!(answer_text(&answer, 7, &mut text), 8, "bytes past the answer");
    assert_eq!(&text[..8], b"7 waits\n");
    assert!(text[8..].iter().all(|byte| *byte == 0xEE));
}

#[test]
fn lanes_have_their_phases() {
    let (mut line, mut book) = one_holds(SharedRead);
    let pointer = 0;
    assert_eq!(line.lane(0), Some(Phase::Holding { purpose: SharedRead, pointer }));
    assert_eq!(line.lane(1), Some(Phase::Idle));
    assert_eq!(line.lane(2), Some(Phase::Waiting { purpose: SharedWrite }));
    assert_eq!((line.lane(3), line.lane(128), line.lane(255)), (None, None, None));
    assert_eq!(line.want(&mut book, 1, WholeBook), Answer::Waits);
    assert_eq!(line.lane(1), Some(Phase::Waiting { purpose: WholeBook }));
    assert_eq!(line.take(&mut book, 0, 515).wakes(), Some(1));
    assert_eq!(line.lane(0), Some(Phase::Reading { left: 515, next: 0 }));
    assert_eq!(line.lane(1), Some(Phase::Woken { purpose: WholeBook, pointer: 515 }));
    assert_eq!(line.read(&mut book, 0), Answer::None);
    assert_eq!(line.lane(0), Some(Phase::Reading { left: 514, next: 1 }));
    let (mut line, mut book) = one_holds(SharedWrite);
    assert_eq!(line.take(&mut book, 0, 2).wakes(), Some(2));
    assert_eq!(line.write(&mut book, 0, [1; 8]), Answer::Wrote { position: 0 });
    assert_eq!(line.lane(0), Some(Phase::Writing { left: 1, next: 1 }));
    let (mut line, mut book) = opened();
    assert_eq!(line.enter(&mut book, 1, 7), Answer::Gathered);
    assert_eq!(line.lane(1), Some(Phase::Gathered { count: 7 }));
}

#[test]
fn line_that_says_it_has_255_lanes_has_no_entry_past_the_128th() {
    let line = Line::from_bytes(&with(&opened().0, 8, 255)).expect("a line");
    assert_eq!((line.lanes(), line.lane(127)), (255, Some(Phase::Idle)));
    assert_eq!((line.lane(128), line.lane(254)), (None, None));
    assert!(format!("{line:?}").starts_with("Line { lanes: 255, "));
}

#[test]
fn numbers_and_positions_are_those_of_the_line() {
    let (mut line, mut book) = opened();
    assert_eq!(line.set_view(&mut book, &gapped()), Answer::View);
    assert_eq!(line.seek(&mut book, Whence::Start, 1), Answer::Seek { pointer: 1 });
    assert_eq!(line.want(&mut book, 0, WholeBook), Answer::Holds { pointer: 1 });
    assert_eq!(line.put(&mut book, 0, 0, [1; 8]), Answer::Wrote { position: 12 });
    assert_eq!((line.lanes(), line.capacity(), line.size(), line.pointer()), (3, 64, 20, 1));
    assert_eq!(line.view(), gapped());
    assert_eq!(line.view().block[1], Block { start: 4, length: 1 });
    assert_eq!([0, 1, 2, 3].map(|place| line.position(place)), [12, 20, 36, 52]);
    let last = 4 + 8 * (u64::from(u32::MAX / 3) * 5 + 1);
    assert_eq!(line.position(u32::MAX), last, "the first of its tile, past the capacity");
    let numbers: Vec<_> = (0..=7).map(|index| number(line.as_bytes(), index)).collect();
    let expected = [Some(3), Some(64), Some(20), Some(1), Some(4), Some(5), Some(2), None];
    assert_eq!(numbers, expected);
    assert_eq!(number(line.as_bytes(), 255), None);
}

#[test]
fn debug_shows_the_numbers_and_the_lanes_that_are_not_idle() {
    let text = format!("{:?}", one_holds(WholeBook).0);
    assert!(text.starts_with("Line { lanes: 3, capacity: 64, size: 0, pointer: 0, view: View {"));
    let lanes = "not_idle: {0: Holding { purpose: WholeBook, pointer: 0 }, 2: Waiting { purpose: SharedWrite }} }";
    assert!(text.ends_with(lanes), "{text}");
    assert!(format!("{:?}", Line::unopened()).ends_with("not_idle: {} }"));
}

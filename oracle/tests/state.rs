//! The state of a line and an answer as bytes, by the C header, and one call over them.

use oracle_lib::answer::Answer;
use oracle_lib::answer_bytes::{answer_bytes, read_answer, ANSWER_BYTES};
use oracle_lib::event::Event;
use oracle_lib::line::{Line, Machine, Phase, Purpose, Search, View};
use oracle_lib::make::{any_built, case, sheet, sort_of, Sort};
use oracle_lib::random::Random;
use oracle_lib::refuse::refuse_1_line_not_sound;
use oracle_lib::rules::{broken, READING_RULES};
use oracle_lib::sheet::{print_sheet, run};
use oracle_lib::single::{call, print_singly};
use oracle_lib::state::*;

/// The unopened state by the header's table: mark, layout, and the plain view.
fn unopened_by_hand() -> Vec<u8> {
    let mut bytes = vec![0; 1_216];
    bytes[..8].copy_from_slice(&[0x47, 0x55, 0x44, 0x4C, 0, 0, 0, 1]);
    bytes[26] = 1; // extent
    bytes[27] = 1; // blocks
    bytes[31] = 1; // length of the first block
    bytes
}

fn view(displacement: u32, extent: u16, blocks: &[(u16, u16)]) -> View {
    let mut list = [(0, 0); 8];
    list[..blocks.len()].copy_from_slice(blocks);
    View { displacement, extent, blocks: blocks.len() as u8, list }
}

/// A line with a lane in every phase, numbers that fill their fields, and flags of all sorts.
/// It is not sound.
fn line_of_all_phases() -> Line {
    let mut line = Line { lanes: 9, capacity: 0x0102_0304, ..Line::unopened() };
    (line.size, line.pointer) = (0x1112_1314, 0x2122_2324);
    line.view = view(0x3132_3334, 0x4142, &[(0x5152, 0x5354), (0x6162, 0x6364)]);
    let (read, whole) = (Purpose::SharedRead, Purpose::WholeBook);
    line.phases[1] = Phase::Waiting { purpose: whole };
    line.phases[2] = Phase::Woken { purpose: read, value: 0x0A0B_0C0D };
    line.phases[3] = Phase::Holding { purpose: whole, value: u32::MAX };
    line.phases[4] = Phase::Busy { writing: true, next: 0x7172_7374, left: 0x8182 };
    line.phases[5] = Phase::Busy { writing: false, next: 1, left: 65_535 };
    line.phases[6] = Phase::Gathered { count: 0x9192 };
    line.phases[127] = Phase::Waiting { purpose: Purpose::SharedWrite };
    (line.flags[0], line.flags[1], line.flags[127]) = (2, 1, 255);
    line
}

// ---- the header's figures ----

#[test]
fn lengths_and_offsets() {
    assert_eq!((STATE_BYTES, ANSWER_BYTES, LAYOUT, MARK), (1_216, 16, 1, *b"GUDL"));
    assert_eq!((AT_MARK, AT_LAYOUT, AT_LANES, AT_CAPACITY), (0, 4, 8, 9));
    assert_eq!((AT_SIZE, AT_POINTER, AT_DISPLACEMENT, AT_EXTENT), (13, 17, 21, 25));
    assert_eq!((AT_BLOCKS, AT_LIST, AT_RESERVED, AT_ENTRIES), (27, 28, 60, 64));
    assert_eq!((AT_FLAGS, AT_FLAGS + 128, AT_ENTRIES + 1_024), (1_088, 1_216, 1_088));
}

#[test]
fn the_unopened_state() {
    assert_eq!(written(&Line::unopened())[..], unopened_by_hand()[..]);
    assert_eq!(read(&unopened_by_hand()), Some(Line::unopened()));
}

#[test]
fn a_line_of_all_phases_byte_by_byte() {
    let mut bytes = unopened_by_hand();
    let head = [9, 1, 2, 3, 4, 0x11, 0x12, 0x13, 0x14, 0x21, 0x22, 0x23, 0x24];
    bytes[8..21].copy_from_slice(&head);
    bytes[21..28].copy_from_slice(&[0x31, 0x32, 0x33, 0x34, 0x41, 0x42, 2]);
    bytes[28..36].copy_from_slice(&[0x51, 0x52, 0x53, 0x54, 0x61, 0x62, 0x63, 0x64]);
    let entries = [
        [1, 2, 0, 0, 0, 0, 0, 0],
        [2, 1, 0, 0, 0x0A, 0x0B, 0x0C, 0x0D],
        [3, 2, 0, 0, 255, 255, 255, 255],
        [4, 0, 0x81, 0x82, 0x71, 0x72, 0x73, 0x74],
        [5, 1, 255, 255, 0, 0, 0, 1],
        [6, 0, 0x91, 0x92, 0, 0, 0, 0],
    ];
    bytes[72..120].copy_from_slice(&entries.concat());
    bytes[1_080] = 1;
    (bytes[1_088], bytes[1_089], bytes[1_215]) = (2, 1, 255);
    assert_eq!(written(&line_of_all_phases())[..], bytes[..]);
    assert_eq!(read(&bytes), Some(line_of_all_phases()));
}

// ---- round trips ----

/// Built lines and those that cases start from, sound or not.
fn made_up_lines() -> Vec<Line> {
    let mut lines = vec![Line::unopened(), line_of_all_phases()];
    lines.extend((0..200).map(|k| any_built(&mut Random::for_sheet(11, k))));
    lines.extend((0..600).filter_map(|k| read(&case(11, k).state)));
    lines
}

#[test]
fn lines_read_back_the_same() {
    for line in made_up_lines() {
        assert_eq!(read(&written(&line)), Some(line));
    }
}

/// Damaged bytes are no line, or they are written back the same.
#[test]
fn bytes_write_back_the_same() {
    let (mut lines, mut none) = (0, 0);
    for state in (0..2_000).map(|k| case(12, k).state).filter(|state| state.len() >= STATE_BYTES) {
        match read(&state) {
            Some(line) => assert_eq!(written(&line)[..], state[..STATE_BYTES]),
            None => none += 1,
        }
        lines += 1;
    }
    assert!(none > 200 && lines - none > 1_000, "{none} of {lines}");
}

/// Every change of one byte gives bytes that are no line, or another line.
#[test]
fn no_two_byte_strings_are_one_line() {
    let gathered = (0..).map(|k| any_built(&mut Random::for_sheet(13, k)));
    let is_in = |phase: &Phase| matches!(phase, Phase::Gathered { .. });
    let gathered = gathered.into_iter().find(|line| line.phases.iter().any(is_in)).unwrap();
    for line in [Line::unopened(), line_of_all_phases(), gathered] {
        let mut bytes = written(&line);
        for at in 0..STATE_BYTES {
            for change in 1..=255 {
                bytes[at] ^= change;
                if let Some(other) = read(&bytes) {
                    assert!(other != line && written(&other) == bytes, "byte {at}");
                }
                bytes[at] ^= change;
            }
        }
    }
}

#[test]
fn fewer_bytes_are_no_line_and_more_are_not_looked_at() {
    let mut bytes = written(&line_of_all_phases()).to_vec();
    for length in [0, 1, 8, 64, 1_088, 1_215] {
        assert_eq!(read(&bytes[..length]), None);
    }
    bytes.extend([1, 2, 3]);
    assert_eq!(read(&bytes), Some(line_of_all_phases()));
}

/// Every entry that the header names is a phase, and no other of these.
#[test]
fn entries_have_the_numbers_of_their_phase() {
    for phase in 0..=255u8 {
        for purpose in 0..=255u8 {
            for (records, place) in [(0, 0), (1, 0), (0, 1), (1, 1)] {
                let entry = [phase, purpose, 0, records, 0, 0, 0, place];
                let good = match phase {
                    0 => (purpose, records, place) == (0, 0, 0),
                    1 => purpose <= 2 && (records, place) == (0, 0),
                    2 | 3 => purpose <= 2 && records == 0,
                    4 => purpose == 0,
                    5 => purpose == 1,
                    6 => purpose == 0 && place == 0,
                    _ => false,
                };
                assert_eq!(read_entry(&entry).is_some(), good, "{entry:?}");
            }
        }
    }
}

// ---- sound lines ----

/// The sound test and the list of broken rules, which were written apart, say the same.
#[test]
fn two_sound_tests_agree() {
    let (mut sound, mut unsound) = (0, 0);
    for case in (0..3_000).map(|k| case(14, k)).filter(|case| case.state.len() >= STATE_BYTES) {
        for less in 0..2 {
            let book = (case.book_length as usize).saturating_sub(less);
            let rules = broken(&case.state, book);
            let line = read(&case.state);
            let is_line = !rules.iter().any(|rule| READING_RULES.contains(rule));
            assert_eq!(line.is_some(), is_line, "{rules:?}");
            let is_sound = line.is_some_and(|line| !refuse_1_line_not_sound(&line, book));
            assert_eq!(is_sound, rules.is_empty(), "{rules:?}");
            *(if is_sound { &mut sound } else { &mut unsound }) += 1;
        }
    }
    assert!(sound > 1_000 && unsound > 1_000, "{sound} {unsound}");
}

/// Three lanes, 10 places of which 8 fit, the pointer at 9.
fn three_lanes() -> Line {
    Line { lanes: 3, capacity: 64, size: 64, pointer: 9, ..Line::unopened() }
}

fn busy(writing: bool, next: u32, left: u32) -> Phase {
    Phase::Busy { writing, next, left }
}

#[test]
fn regions_at_their_edges() {
    let sound = |phases: [Phase; 3]| {
        let mut line = three_lanes();
        line.phases[..3].copy_from_slice(&phases);
        let is_sound = !refuse_1_line_not_sound(&line, 64);
        assert_eq!(is_sound, broken(&written(&line), 64).is_empty());
        is_sound
    };
    let idle = Phase::Idle;
    assert!(sound([busy(true, 0, 3), busy(false, 3, 4), busy(true, 7, 1)]));
    assert!(!sound([busy(true, 0, 4), busy(false, 3, 4), idle]));
    assert!(!sound([busy(false, 2, 5), idle, busy(false, 3, 1)]));
    assert!(sound([busy(true, 0, 8), busy(false, 8, 1), idle]));
    assert!(!sound([busy(true, 0, 9), idle, idle]));
    assert!(!sound([busy(false, 8, 2), idle, idle]));
    assert!(!sound([busy(false, 8, 0), idle, idle]));
    assert!(!sound([busy(false, u32::MAX, 2), idle, idle]));
    assert!(!sound([busy(false, 9, 65_535), idle, idle]));
    let gathered = |count| Phase::Gathered { count };
    assert!(sound([gathered(0), gathered(0), idle]));
    assert!(!sound([gathered(0), gathered(0), gathered(0)]));
    assert!(!sound([gathered(0), gathered(0), busy(false, 0, 1)]));
    assert!(!sound([gathered(1), idle, idle]));
    assert!(!sound([gathered(65_535), gathered(1), idle]));
}

#[test]
fn the_book_must_hold_the_capacity() {
    let line = three_lanes();
    for (length, is_sound) in [(63, false), (64, true), (65, true), (usize::MAX, true)] {
        assert_eq!(!refuse_1_line_not_sound(&line, length), is_sound);
    }
}

// ---- answers ----

#[test]
fn answers_byte_by_byte() {
    let wrote = Answer::Wrote { position: 0x0102_0304_0506_0708 };
    let region = |wakes| Answer::Region { start: 65_536, count: 258, wakes };
    let said: [(Answer, [u8; 16]); 15] = [
        (Answer::Refused { number: 16 }, [0, 16, 0, 0, 0, 0, 0, 0, 0, 0, 0, 0, 0, 0, 0, 0]),
        (
            Answer::Open { lanes: 128, capacity: 65_536 },
            [1, 1, 0, 0, 0, 0, 0, 0, 0, 0, 0, 128, 0, 1, 0, 0],
        ),
        (Answer::Holds { pointer: 258 }, [2, 2, 0, 0, 0, 0, 0, 0, 0, 0, 1, 2, 0, 0, 0, 0]),
        (Answer::Waits, [3, 2, 0, 0, 0, 0, 0, 0, 0, 0, 0, 0, 0, 0, 0, 0]),
        (region(Some(0)), [4, 4, 1, 0, 0, 0, 0, 0, 0, 1, 0, 0, 0, 0, 1, 2]),
        (region(None), [4, 4, 0, 0, 0, 0, 0, 0, 0, 1, 0, 0, 0, 0, 1, 2]),
        (wrote, [5, 5, 0, 0, 1, 2, 3, 4, 5, 6, 7, 8, 0, 0, 0, 0]),
        (
            Answer::Record { record: [9, 8, 7, 6, 5, 4, 3, 2] },
            [6, 6, 0, 0, 9, 8, 7, 6, 5, 4, 3, 2, 0, 0, 0, 0],
        ),
        (Answer::None, [7, 6, 0, 0, 0, 0, 0, 0, 0, 0, 0, 0, 0, 0, 0, 0]),
        (Answer::Freed { wakes: Some(127) }, [8, 9, 1, 127, 0, 0, 0, 0, 0, 0, 0, 0, 0, 0, 0, 0]),
        (Answer::Freed { wakes: None }, [8, 9, 0, 0, 0, 0, 0, 0, 0, 0, 0, 0, 0, 0, 0, 0]),
        (Answer::Gathered, [9, 10, 0, 0, 0, 0, 0, 0, 0, 0, 0, 0, 0, 0, 0, 0]),
        (
            Answer::Ordered { before: 3, total: 8_192 },
            [10, 10, 0, 0, 0, 0, 0, 0, 0, 0, 0, 3, 0, 0, 32, 0],
        ),
        (Answer::View, [11, 11, 0, 0, 0, 0, 0, 0, 0, 0, 0, 0, 0, 0, 0, 0]),
        (Answer::Seek { pointer: 65_536 }, [12, 12, 0, 0, 0, 0, 0, 0, 0, 1, 0, 0, 0, 0, 0, 0]),
    ];
    for (answer, bytes) in said {
        assert_eq!(answer_bytes(&answer), bytes);
        assert_eq!(read_answer(&bytes), Some(answer));
    }
}

/// Answers of made-up sheets read back the same; a changed byte is no answer, or another.
#[test]
fn no_two_byte_strings_are_one_answer() {
    for k in (0..96).filter(|&k| sort_of(k) == Sort::Walk) {
        let answers = run(&mut Machine::new(Search::AfterReleaser), &sheet(15, k));
        for answer in answers.into_iter().take(40) {
            let mut bytes = answer_bytes(&answer);
            assert_eq!(read_answer(&bytes), Some(answer));
            for at in 0..ANSWER_BYTES {
                bytes[at] ^= 1 << (at % 8);
                if let Some(other) = read_answer(&bytes) {
                    assert!(other != answer && answer_bytes(&other) == bytes);
                }
                bytes[at] ^= 1 << (at % 8);
            }
        }
    }
    assert_eq!(read_answer(&[0; 15]), None);
}

// ---- one call ----

/// Status, state, book and answer after a call.
type Left = (u8, Vec<u8>, Vec<u8>, Vec<u8>);

fn made(state: &[u8], book: &[u8], bytes: &[u8], answer_length: usize) -> Left {
    let (mut state, mut book) = (state.to_vec(), book.to_vec());
    let mut answer = vec![0xEE; answer_length];
    let status = call(&mut state, &mut book, bytes[0], &bytes[1..], &mut answer);
    (status, state, book, answer)
}

#[test]
fn too_short_buffers_alter_nothing() {
    let open = Event::Open { lanes: 2, capacity: 8 }.to_bytes();
    let state = unopened_by_hand();
    let book = vec![7; 8];
    for length in [0, 1, 1_215] {
        let left = (254, state[..length].to_vec(), book.clone(), vec![0xEE; 0]);
        assert_eq!(made(&state[..length], &book, &open, 0), left);
        let left = (254, state[..length].to_vec(), book.clone(), vec![0xEE; 16]);
        assert_eq!(made(&state[..length], &book, &open, 16), left);
    }
    for length in [0, 1, 15] {
        let left = (255, state.clone(), book.clone(), vec![0xEE; length]);
        assert_eq!(made(&state, &book, &open, length), left);
        let damaged = vec![0; 1_216];
        let left = (255, damaged.clone(), book.clone(), vec![0xEE; length]);
        assert_eq!(made(&damaged, &book, &[0xFF], length), left);
    }
    assert_eq!(made(&state, &book, &open, 16).0, 0);
}

#[test]
fn bytes_past_the_buffers_stay() {
    let state = [unopened_by_hand(), vec![5; 9]].concat();
    let open = [&Event::Open { lanes: 2, capacity: 8 }.to_bytes()[..], &[1, 2, 3]].concat();
    let (status, left, book, answer) = made(&state, &[7; 11], &open, 20);
    assert_eq!((status, &left[1_216..]), (0, &[5; 9][..]));
    assert_eq!(book, [0, 0, 0, 0, 0, 0, 0, 0, 7, 7, 7]);
    assert_eq!(answer, [1, 1, 0, 0, 0, 0, 0, 0, 0, 0, 0, 2, 0, 0, 0, 8, 0xEE, 0xEE, 0xEE, 0xEE]);
    assert_eq!(read(&left), Some(Line { lanes: 2, capacity: 8, ..Line::unopened() }));
}

/// 1 comes before 2 and 3, and those before 4.
#[test]
fn the_order_of_1_2_3_and_4() {
    let (good, mut bad) = (unopened_by_hand(), unopened_by_hand());
    bad[63] = 1;
    for (bytes, number) in [(&[0x0D][..], 2), (&[0x00, 1, 2], 2), (&[0x02, 0], 3), (&[0x03, 0], 4)]
    {
        for (state, number) in [(&good, number), (&bad, 1)] {
            let mut answer = vec![0; 16];
            answer[1] = number;
            assert_eq!(
                made(state, &[9; 64], bytes, 16),
                (number, state.clone(), vec![9; 64], answer)
            );
        }
    }
}

/// Over made-up cases: a call that is not accepted leaves state and book; an accepted one leaves
/// a sound line, and no call alters bytes past the ends.
#[test]
fn refused_calls_alter_nothing() {
    for case in (0..600).map(|k| case(16, k)) {
        let (mut state, mut book) =
            (case.state.clone(), vec![case.fill; case.book_length as usize]);
        for (kind, body) in &case.calls {
            let bytes = [&[*kind][..], body].concat();
            let (status, next, next_book, answer) =
                made(&state, &book, &bytes, case.answer_length as usize);
            if status != 0 {
                assert!(next == state && next_book == book);
            } else {
                assert_eq!(broken(&next, book.len()), [""; 0]);
                assert_eq!(next[STATE_BYTES..], state[STATE_BYTES..]);
                let capacity = read(&next).unwrap().capacity as usize;
                assert_eq!(next_book[capacity..], book[capacity..]);
            }
            assert!(answer[answer.len().min(ANSWER_BYTES)..].iter().all(|byte| *byte == 0xEE));
            (state, book) = (next, next_book);
        }
    }
}

/// A sheet made by single calls prints what the run prints.
#[test]
fn singly_prints_what_a_run_prints() {
    for k in (0..192).filter(|&k| k < 48 || !matches!(sort_of(k), Sort::Full | Sort::LongWalk)) {
        let sheet = sheet(17, k);
        assert_eq!(print_singly(&sheet), print_sheet(&sheet, Search::AfterReleaser), "{k}");
    }
}

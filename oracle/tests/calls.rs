//! Made-up cases of single calls: what they hit, the mistakes that they show, and the programs
//! that make, run and compare them.

use oracle_lib::answer::WORDS;
use oracle_lib::answer_bytes::{answer_bytes, ANSWER_BYTES};
use oracle_lib::cases::{bytes_of_hex, fnv_1a, hex, Case};
use oracle_lib::cover_calls::{case_texts, statuses, CallCover};
use oracle_lib::event::{body_length, read_call, Event};
use oracle_lib::line::{Line, Machine, Search};
use oracle_lib::make::{case, case_names};
use oracle_lib::refuse::call_refusals;
use oracle_lib::rules::{broken, READING_RULES, SOUND_RULES};
use oracle_lib::single::call;
use oracle_lib::state::*;
use std::fs;
use std::io::Write;
use std::panic::{catch_unwind, AssertUnwindSafe};
use std::path::PathBuf;
use std::process::{Command, Output, Stdio};
use std::sync::OnceLock;

// ---- what the cases hit ----

fn covered(seed: u64, cases: u64) -> CallCover {
    let mut cover = CallCover::default();
    for k in 0..cases {
        let case = case(seed, k);
        cover.count(k, &case, &case.printed(k, call)).unwrap();
    }
    cover
}

/// In 1,000 cases nothing is left unhit, and each sort of case and broken rule comes in 3 or more.
#[test]
fn a_thousand_cases_hit_everything() {
    for seed in [1, 2, 3] {
        let cover = covered(seed, 1_000);
        assert_eq!(cover.faults(), [""; 0], "seed {seed}");
        for (name, hits) in cover.sorts.iter().chain(&cover.alone) {
            assert!(hits.sheets >= 3, "seed {seed}: {name} in {} cases", hits.sheets);
        }
    }
}

#[test]
fn what_never_comes_is_a_fault() {
    let faults = CallCover::default().faults();
    let told = |what: String| faults.contains(&format!("{what} was never hit"));
    assert!(case_names().iter().all(|name| told(format!("case `{name}`"))));
    assert!(statuses().iter().all(|status| told(format!("status {status}"))));
    assert!(WORDS.iter().all(|word| told(format!("answer `{word}`"))));
    let mut rules = READING_RULES.iter().chain(&SOUND_RULES);
    assert!(rules.all(|rule| told(format!("broken rule `{rule}`, alone,"))));
    assert_eq!(statuses().len(), 19);
}

#[test]
fn a_line_that_cannot_be_is_told() {
    let (state, calls) = (written(&Line::unopened()).to_vec(), vec![(0x03, vec![0])]);
    let case = Case { state, book_length: 8, fill: 0, answer_length: 16, calls };
    let count =
        |line: &str| CallCover::default().count(0, &case, &format!("case 0\n{line}\ns\nb\n"));
    assert!(count("4 00040000000000000000000000000000").is_ok());
    assert!(count("254 eeeeeeeeeeeeeeeeeeeeeeeeeeeeeeee").is_ok());
    assert!(count("0 02020000000000000000000000000000").is_ok());
    for line in [
        "5 00040000000000000000000000000000",
        "4 0004000000000000000000000000000000",
        "4 000400000000000000000000000000",
        "0 03020000000000000000000000000000",
        "254 eeeeeeeeeeeeeeeeeeeeeeeeeeeeee00",
        "4 -",
        "4",
    ] {
        assert!(count(line).is_err(), "{line}");
    }
}

#[test]
fn cases_read_back_the_same() {
    let cases: Vec<Case> = (0..120).map(|k| case(21, k)).collect();
    let stream: Vec<u8> = cases.iter().flat_map(|case| case.to_bytes().unwrap()).collect();
    let mut rest = &stream[..];
    for case in &cases {
        assert_eq!(Case::read(&mut rest).unwrap().as_ref(), Some(case));
    }
    assert!(Case::read(&mut rest).unwrap().is_none());
    let last = cases.last().unwrap().to_bytes().unwrap();
    for kept in 1..last.len() {
        assert!(Case::read(&mut &last[..kept]).is_err());
    }
}

#[test]
fn digests_and_digits() {
    assert_eq!(fnv_1a(b""), 0xcbf2_9ce4_8422_2325);
    assert_eq!(fnv_1a(b"a"), 0xaf63_dc4c_8601_ec8c);
    assert_eq!(fnv_1a(b"foobar"), 0x8594_4171_f739_67e8);
    assert_eq!((hex(&[]), hex(&[0, 0xAF])), ("-".to_string(), "00af".to_string()));
    assert_eq!((bytes_of_hex("-"), bytes_of_hex("00af")), (Some(vec![]), Some(vec![0, 0xAF])));
    assert_eq!((bytes_of_hex("00AF"), bytes_of_hex("0"), bytes_of_hex("")), (None, None, None));
}

// ---- planted mistakes ----

type Planted = Box<dyn Fn(&mut [u8], &mut [u8], u8, &[u8], &mut [u8]) -> u8>;

/// Whether each of the first 400 cases of seed 1 shows a mistake.
fn shown(planted: &Planted) -> impl Iterator<Item = bool> + '_ {
    static RIGHT: OnceLock<Vec<(Case, String)>> = OnceLock::new();
    let right = RIGHT.get_or_init(|| {
        let cases = (0..400).map(|k| case(1, k));
        cases.map(|case| (case.clone(), case.printed(0, call))).collect()
    });
    right.iter().map(move |(case, printed)| case.printed(0, planted) != *printed)
}

fn assert_shown(name: &str, planted: Planted) {
    assert!(shown(&planted).any(|shows| shows), "no case shows: {name}");
}

/// A change of bytes in place.
type Change = fn(&mut [u8]);

/// A library that has the bytes elsewhere: the change is its own opposite, made before and after.
fn elsewhere(change: Change) -> Planted {
    Box::new(move |state, book, kind, body, answer| {
        if state.len() < STATE_BYTES {
            return call(state, book, kind, body, answer);
        }
        change(&mut state[..STATE_BYTES]);
        let status = call(state, book, kind, body, answer);
        change(&mut state[..STATE_BYTES]);
        status
    })
}

fn entries(bytes: &mut [u8], change: Change) {
    bytes[AT_ENTRIES..AT_FLAGS].chunks_mut(ENTRY_BYTES).for_each(change);
}

#[test]
fn wrong_offsets_show() {
    let list: [(&str, Change); 9] = [
        ("size and pointer swapped", |bytes| (0..4).for_each(|i| bytes.swap(13 + i, 17 + i))),
        ("capacity and size swapped", |bytes| (0..4).for_each(|i| bytes.swap(9 + i, 13 + i))),
        ("pointer and displacement", |bytes| (0..4).for_each(|i| bytes.swap(17 + i, 21 + i))),
        ("the pointer's bytes turned", |bytes| bytes[17..21].reverse()),
        ("the extent's bytes turned", |bytes| bytes[25..27].reverse()),
        ("start and length swapped", |bytes| {
            (28..60).step_by(4).for_each(|at| bytes[at..at + 4].rotate_left(2))
        }),
        ("the flags from the last lane down", |bytes| bytes[1_088..1_216].reverse()),
        ("the entries from the last lane down", |bytes| {
            (0..512).for_each(|i| bytes.swap(64 + i, 64 + 1_016 - i / 8 * 8 + i % 8))
        }),
        ("the reserved bytes before the blocks", |bytes| {
            (0..4).for_each(|i| bytes.swap(56 + i, 60 + i))
        }),
    ];
    for (name, change) in list {
        assert_shown(name, elsewhere(change));
    }
    assert_shown("phase and purpose swapped", elsewhere(|b| entries(b, |e| e.swap(0, 1))));
    assert_shown("records' bytes turned", elsewhere(|b| entries(b, |e| e[2..4].reverse())));
    assert_shown("place's bytes turned", elsewhere(|b| entries(b, |e| e[4..8].reverse())));
}

/// A library that takes these bytes for what they should be.
fn not_looked_at(at: usize, good: &'static [u8]) -> Planted {
    Box::new(move |state, book, kind, body, answer| {
        let end = at + good.len();
        if state.len() < STATE_BYTES {
            return call(state, book, kind, body, answer);
        }
        let before = state[at..end].to_vec();
        state[at..end].copy_from_slice(good);
        let status = call(state, book, kind, body, answer);
        if status != 0 {
            state[at..end].copy_from_slice(&before);
        }
        status
    })
}

#[test]
fn bytes_that_are_not_looked_at_show() {
    assert_shown("the mark", not_looked_at(0, b"GUDL"));
    assert_shown("the layout", not_looked_at(4, &[0, 0, 0, 1]));
    assert_shown("the layout's high bytes", not_looked_at(4, &[0, 0, 0]));
    assert_shown("the layout's last byte", not_looked_at(7, &[1]));
    assert_shown("the reserved bytes", not_looked_at(60, &[0, 0, 0, 0]));
    assert_shown("the first reserved byte", not_looked_at(60, &[0]));
    assert_shown("the last reserved byte", not_looked_at(63, &[0]));
    assert_shown("the flags past lane 64", not_looked_at(1_152, &[0; 64]));
}

/// The steps and refusals without the test for a sound line. What they cannot do is status 99.
fn soundness_not_tested(
    state: &mut [u8],
    book: &mut [u8],
    kind: u8,
    body: &[u8],
    answer: &mut [u8],
) -> u8 {
    let (Some(line), Ok(event)) = (read(state), read_call(kind, body)) else {
        return call(state, book, kind, body, answer);
    };
    let to_end = matches!(event, Event::Seek { whence: 2, .. });
    if answer.len() < ANSWER_BYTES || to_end {
        return call(state, book, kind, body, answer); // a walk to the end may not end
    }
    let done = catch_unwind(AssertUnwindSafe(|| {
        let mut machine = Machine { line, book, search: Search::AfterReleaser };
        let reasons = call_refusals(&machine.line, machine.book.len(), &event);
        match reasons.first() {
            Some(&number) => (number, None),
            None => (0, Some((machine.accept(&event), machine.line))),
        }
    }));
    let Ok((status, left)) = done else { return 99 };
    answer[..ANSWER_BYTES].fill(0);
    answer[1] = status;
    if let Some((said, line)) = left {
        answer[..ANSWER_BYTES].copy_from_slice(&answer_bytes(&said));
        state[..STATE_BYTES].copy_from_slice(&written(&line));
    }
    status
}

#[test]
fn soundness_not_tested_shows() {
    let planted: Planted = Box::new(soundness_not_tested);
    assert!(shown(&planted).filter(|shows| *shows).count() >= 50);
}

/// A library that lets one rule pass says anything but 1 where this one alone is broken.
#[test]
fn every_rule_left_out_shows() {
    for rule in READING_RULES.into_iter().chain(SOUND_RULES) {
        let planted: Planted = Box::new(move |state, book, kind, body, answer| {
            let status = call(state, book, kind, body, answer);
            if status == 1 && broken(state, book.len()) == [rule] {
                return 13;
            }
            status
        });
        assert_shown(rule, planted);
    }
}

/// What is done to state, book and answer after a call, by kind and body and status.
type After = fn(&mut [u8], &mut [u8], (u8, &[u8]), &mut [u8], u8);

/// A mistake made after the right call.
fn afterwards(change: After) -> Planted {
    Box::new(move |state, book, kind, body, answer| {
        let status = call(state, book, kind, body, answer);
        change(state, book, (kind, body), answer, status);
        status
    })
}

#[test]
fn state_and_book_altered_on_refusal_show() {
    let raised = afterwards(|state, _, (kind, body), _, status| {
        if (8..=13).contains(&status) && kind == 0x02 && body[0] < 128 {
            state[AT_FLAGS + usize::from(body[0])] = 1;
        }
    });
    assert_shown("a refused want raises its flag", raised);
    let stored = afterwards(|state, _, _, _, status| {
        if status == 1 && read(state).is_none() {
            state[..STATE_BYTES].copy_from_slice(&written(&Line::unopened()));
        }
    });
    assert_shown("an unopened line is stored where there is none", stored);
    let moved = afterwards(|state, _, (kind, _), _, status| {
        if status == 16 && kind == 0x04 {
            state[AT_POINTER + 3] ^= 1;
        }
    });
    assert_shown("a refused take moves the pointer", moved);
    let zeroed = afterwards(|_, book, (kind, _), _, status| {
        if kind == 0x01 && status == 5 {
            book.fill(0);
        }
    });
    assert_shown("a refused opening zeroes the book", zeroed);
    let past = afterwards(|_, book, (kind, _), _, status| {
        if kind == 0x01 && status == 0 {
            book.fill(0);
        }
    });
    assert_shown("an opening zeroes the book past the capacity", past);
    let past = afterwards(|state, _, _, _, status| {
        if status == 0 {
            state[STATE_BYTES..].fill(0);
        }
    });
    assert_shown("bytes past the state are zeroed", past);
}

#[test]
fn wrong_answer_bytes_show() {
    let list: [(&str, After); 5] = [
        ("the woken lane in another byte", |_, _, _, answer, status| {
            if status == 0 {
                answer.swap(2, 3);
            }
        }),
        ("lane 0 woken as if none was", |_, _, _, answer, status| {
            if status == 0 && answer[3] == 0 {
                answer[2] = 0;
            }
        }),
        ("the kind that was called", |_, _, (kind, _), answer, status| {
            if status == 0 {
                answer[1] = kind;
            }
        }),
        ("the first value's bytes turned", |_, _, _, answer, status| {
            if status == 0 {
                answer[4..12].reverse();
            }
        }),
        ("the second value's bytes turned", |_, _, _, answer, status| {
            if status == 0 {
                answer[12..16].reverse();
            }
        }),
    ];
    for (name, change) in list {
        assert_shown(name, afterwards(change));
    }
}

#[test]
fn answer_bytes_left_or_overwritten_show() {
    let list: [(&str, After); 4] = [
        ("no second value written", |_, _, _, answer, status| {
            if status == 0 && answer[12..16] == [0; 4] {
                answer[12..16].fill(0xEE);
            }
        }),
        ("no refusal written", |_, _, _, answer, status| {
            if (1..=16).contains(&status) {
                answer[..ANSWER_BYTES].fill(0xEE);
            }
        }),
        ("bytes past the answer zeroed", |_, _, _, answer, status| {
            if status < 254 {
                answer[ANSWER_BYTES..].fill(0);
            }
        }),
        ("a short answer buffer written", |_, _, _, answer, status| {
            if status == 255 {
                answer.fill(0);
            }
        }),
    ];
    for (name, change) in list {
        assert_shown(name, afterwards(change));
    }
}

#[test]
fn wrong_orders_show() {
    let answer_first: Planted = Box::new(|state, book, kind, body, answer| {
        let short = answer.len() < ANSWER_BYTES;
        if short {
            255
        } else {
            call(state, book, kind, body, answer)
        }
    });
    assert_shown("255 before 254", answer_first);
    let made_anyway: Planted = Box::new(|state, book, kind, body, answer| {
        let status = call(state, book, kind, body, answer);
        if status == 255 {
            call(state, book, kind, body, &mut [0; ANSWER_BYTES]);
        }
        status
    });
    assert_shown("a call is made though its answer has no room", made_anyway);
}

#[test]
fn refusals_in_another_order_show() {
    let kind_first: Planted = Box::new(|state, book, kind, body, answer| {
        let status = call(state, book, kind, body, answer);
        if status == 1 && body_length(kind).is_none() {
            2
        } else {
            status
        }
    });
    assert_shown("2 before 1", kind_first);
    let body_first: Planted = Box::new(|state, book, kind, body, answer| {
        let status = call(state, book, kind, body, answer);
        if status == 1 && body_length(kind).is_some_and(|length| body.len() < length) {
            3
        } else {
            status
        }
    });
    assert_shown("3 before 1", body_first);
    let whole_body: Planted = Box::new(|state, book, kind, body, answer| {
        let longer = body_length(kind).is_some_and(|length| body.len() > length);
        if longer {
            3
        } else {
            call(state, book, kind, body, answer)
        }
    });
    assert_shown("a body with bytes past its end is refused", whole_body);
}

// ---- the programs ----

const ORACLE: &str = env!("CARGO_BIN_EXE_oracle");
const GENERATE: &str = env!("CARGO_BIN_EXE_generate");
const COMPARE: &str = env!("CARGO_BIN_EXE_compare");

/// What a program does with these words and this standard input.
fn told(program: &str, words: &[&str], input: &[u8]) -> Output {
    let mut command = Command::new(program);
    command.args(words).stdin(Stdio::piped()).stdout(Stdio::piped()).stderr(Stdio::piped());
    let mut child = command.spawn().unwrap();
    let mut stdin = child.stdin.take().unwrap();
    let input = input.to_vec();
    let writer = std::thread::spawn(move || stdin.write_all(&input));
    let output = child.wait_with_output().unwrap();
    let _ = writer.join().unwrap(); // a program that ends early reads no more
    output
}

/// A file of this test with these bytes.
fn file(name: &str, bytes: &[u8]) -> String {
    let path = PathBuf::from(env!("CARGO_TARGET_TMPDIR")).join(name);
    fs::write(&path, bytes).unwrap();
    path.to_str().unwrap().to_string()
}

#[test]
fn calls_runs_what_generate_makes() {
    let stream = told(GENERATE, &["calls", "8", "70", "--skip", "5"], &[]).stdout;
    let printed = told(ORACLE, &["calls"], &stream).stdout;
    let wanted: String = (5..75).map(|k| case(8, k).printed(k - 5, call)).collect();
    assert_eq!(String::from_utf8(printed).unwrap(), wanted);
    assert_eq!(case_texts(&wanted).len(), 70);
    let cut = told(ORACLE, &["calls"], &stream[..stream.len() - 1]);
    assert_eq!((cut.status.code(), cut.stderr.is_empty()), (Some(2), false));
    for words in [&["calls"][..], &["calls", "1"], &["calls", "1", "1", "--raw"]] {
        assert_eq!(told(GENERATE, words, &[]).status.code(), Some(2));
    }
}

#[test]
fn singly_prints_what_many_prints() {
    let stream = told(GENERATE, &["9", "45"], &[]).stdout;
    let many = told(ORACLE, &["many"], &stream);
    let singly = told(ORACLE, &["singly"], &stream);
    assert_eq!((singly.status.code(), singly.stdout), (Some(0), many.stdout));
}

#[test]
fn compare_holds_texts_of_cases() {
    let stream = told(GENERATE, &["calls", "1", "1000"], &[]).stdout;
    let printed = told(ORACLE, &["calls"], &stream).stdout;
    let (a, cases) = (file("a", &printed), file("cases", &stream));
    let same = told(COMPARE, &["calls", &a, &a, &cases, "--seed", "1"], &[]);
    assert!(same.stdout.ends_with(b"no difference\n"));
    assert_eq!(same.status.code(), Some(0));
    let text = String::from_utf8(printed).unwrap();
    let at = text.find("case 700\n").unwrap() + 9;
    let b = file("b", format!("{}9{}", &text[..at], &text[at..]).as_bytes());
    let other = told(COMPARE, &["calls", &a, &b, &cases, "--seed", "1"], &[]);
    let said = String::from_utf8(other.stdout).unwrap();
    assert!(
        said.starts_with("case 700 (generate calls 1 1 --skip 700) differs in line 1:"),
        "{said}"
    );
    assert_eq!(other.status.code(), Some(1));
    let fewer = file("fewer", &text.as_bytes()[..at - 9]);
    assert_eq!(told(COMPARE, &["calls", &a, &fewer, &cases], &[]).status.code(), Some(1));
    assert_eq!(told(COMPARE, &["calls", &a, &a], &[]).status.code(), Some(2));
}

/// A set that is too small for all sorts is told, unless any will do.
#[test]
fn compare_tells_what_cases_leave_unhit() {
    let stream = told(GENERATE, &["calls", "1", "20"], &[]).stdout;
    let printed = told(ORACLE, &["calls"], &stream).stdout;
    let (a, cases) = (file("few", &printed), file("few_cases", &stream));
    let told_of =
        |more: &[&str]| told(COMPARE, &[&["calls", &a, &a, &cases][..], more].concat(), &[]);
    assert_eq!(told_of(&[]).status.code(), Some(1));
    assert!(String::from_utf8(told_of(&[]).stdout).unwrap().contains("status 254 was never hit\n"));
    assert_eq!(told_of(&["--any"]).status.code(), Some(0));
}

//! Made-up cases of single calls. Case k of a seed depends on the seed and k alone.

use super::built::any_built;
use super::damage::{reached, Damage, DAMAGES};
use super::groups::short_sheet;
use super::plain;
use super::walk::Walk;
use crate::answer_bytes::ANSWER_BYTES;
use crate::cases::Case;
use crate::event::{body_length, read_call, Event};
use crate::line::*;
use crate::random::Random;
use crate::refuse::refuse_1_line_not_sound;
use crate::state::*;

type Calls = Vec<(u8, Vec<u8>)>;

const ROUND: u64 = 60;
const MOST_CALLS: usize = 250;

/// A sort of case; the last three have sorts of their own.
#[derive(Clone, Copy, PartialEq, Eq, Debug)]
enum Sort {
    Unopened,
    Reached,
    Built,
    Random(usize),
    Short(usize),
    Damaged(usize),
}

const RANDOM: [&str; 3] = ["random bytes", "random entries", "random numbers"];

const SHORT: [&str; 11] = [
    "state of 0 bytes",
    "state of 1 byte",
    "state of 1,215 bytes",
    "state too short",
    "answer of 0 bytes",
    "answer of 15 bytes",
    "answer too short",
    "state and answer too short",
    "book one below the capacity",
    "book far below the capacity",
    "opening one above the book",
];

/// The sorts come round every 60 cases; each of the sorts of a sort comes in turn.
fn sort_of(k: u64) -> Sort {
    let turn = |first: u64, end: u64, of: usize| {
        ((k / ROUND * (end - first) + k % ROUND - first) % of as u64) as usize
    };
    match k % ROUND {
        0..13 => Sort::Unopened,
        13..21 => Sort::Reached,
        21..28 => Sort::Built,
        28..31 => Sort::Random(turn(28, 31, RANDOM.len())),
        31..35 => Sort::Short(turn(31, 35, SHORT.len())),
        _ => Sort::Damaged(turn(35, ROUND, DAMAGES.len())),
    }
}

/// The name of case k's sort.
pub fn case_name(k: u64) -> &'static str {
    match sort_of(k) {
        Sort::Unopened => "from the unopened state",
        Sort::Reached => "from a reached state",
        Sort::Built => "from a built state",
        Sort::Random(which) => RANDOM[which],
        Sort::Short(which) => SHORT[which],
        Sort::Damaged(which) => DAMAGES[which].name,
    }
}

/// All names that `case_name` can give.
pub fn case_names() -> Vec<&'static str> {
    let mut names = vec!["from the unopened state", "from a reached state", "from a built state"];
    names.extend(RANDOM.iter().chain(&SHORT));
    names.extend(DAMAGES.iter().map(|damage| damage.name));
    names
}

/// Case k of a seed.
pub fn case(seed: u64, k: u64) -> Case {
    let mut random = Random::for_sheet(seed, k);
    let random = &mut random;
    match sort_of(k) {
        Sort::Unopened => from_unopened(random),
        Sort::Reached => {
            let line = reached(random);
            from_line(random, &line)
        }
        Sort::Built => {
            let line = any_built(random);
            from_line(random, &line)
        }
        Sort::Random(which) => random_state(random, which),
        Sort::Short(which) => short(random, SHORT[which]),
        Sort::Damaged(which) => damaged(random, &DAMAGES[which]),
    }
}

// ---- parts of a case ----

/// A case with these bytes as its state; now and then state and answer have bytes past them.
fn with(random: &mut Random, state: &[u8], book_length: u32, calls: Calls) -> Case {
    let mut state = state.to_vec();
    if random.one_in(4) {
        let more = random.pick(&[1, 1, 7, 40]);
        state.extend((0..more).map(|_| random.draw() as u8));
    }
    let more = if random.one_in(4) { random.pick(&[1, 4, 48]) } else { 0 };
    let any = random.draw() as u8;
    let fill = random.pick(&[0, 0xFF, any]);
    Case { state, book_length, fill, answer_length: ANSWER_BYTES as u32 + more, calls }
}

/// The calls of a sheet's bytes. An unlisted kind gets some bytes behind it as its body, and
/// what follows the kind is read on.
fn calls_of(sheet: &[u8]) -> Calls {
    let mut calls = Calls::new();
    let mut at = 0;
    while at < sheet.len() && calls.len() < MOST_CALLS {
        let (kind, rest) = (sheet[at], &sheet[at + 1..]);
        let body = &rest[..body_length(kind).unwrap_or(8).min(rest.len())];
        calls.push((kind, body.to_vec()));
        at += 1 + body_length(kind).unwrap_or(0);
    }
    calls
}

fn call_of(event: Event) -> (u8, Vec<u8>) {
    let bytes = event.to_bytes();
    (bytes[0], bytes[1..].to_vec())
}

fn unlisted(random: &mut Random) -> (u8, Vec<u8>) {
    let any = random.between(0x0D, 0xFF) as u8;
    let kind = random.pick(&[0x00, 0x0D, 0x0E, 0x10, 0x80, 0xFF, any]);
    let length = random.pick(&[0, 1, 3, 39]);
    (kind, (0..length).map(|_| random.below(4) as u8).collect())
}

fn cut(random: &mut Random) -> (u8, Vec<u8>) {
    let kind = random.between(0x01, 0x0C) as u8;
    let (kind, mut body) = call_of(plain::random_event(random, kind));
    let any = random.below(body.len() as u64) as usize;
    let kept = random.pick(&[0, body.len() - 1, any]);
    body.truncate(kept);
    (kind, body)
}

/// Unlisted kinds and cut bodies in between, and bytes past the end of bodies: none of them
/// changes what the other calls meet.
fn disturbed(random: &mut Random, calls: Calls) -> Calls {
    let mut out = Calls::new();
    for (kind, mut body) in calls {
        match random.below(20) {
            0 => out.push(unlisted(random)),
            1 => out.push(cut(random)),
            2 | 3 => {
                let more = random.pick(&[1, 2, 8, 60]);
                body.extend((0..more).map(|_| random.draw() as u8));
            }
            _ => {}
        }
        out.push((kind, body));
    }
    if random.one_in(2) {
        out.push(unlisted(random));
        out.push(cut(random));
    }
    out
}

/// Takes and puts at the edges of what fits and of the pointer, which walks have few of. A reader
/// takes one place too many, and then all there are.
fn at_edges(walk: &mut Walk) {
    for _ in 0..walk.random.below(4) {
        let kind = walk.random.pick(&[0x04, 0x04, 0x07]);
        let event = walk.candidate(kind);
        walk.emit(event);
    }
    let reads =
        |phase: &Phase| matches!(phase, Phase::Holding { purpose: Purpose::SharedRead, .. });
    let pointer = walk.line().pointer;
    if let Some(lane) = walk.lane_with(reads).filter(|_| pointer >= 2) {
        let count = (MOST_POINTER - pointer + 1) as u16;
        walk.emit(Event::Take { lane, count });
        walk.emit(Event::Take { lane, count: count - 1 });
    }
}

/// Calls that a walk makes from a sound line on, then some of any kind.
fn walked(random: &mut Random, line: &Line, book_length: u32, limit: usize) -> Calls {
    let mut walk = Walk::from(random, line.clone(), vec![0; book_length as usize], limit);
    if walk.line().is_open() {
        (0..4).for_each(|_| walk.maybe_refused(2));
        at_edges(&mut walk);
    }
    walk.go_on();
    let mut calls = calls_of(&walk.bytes);
    for _ in 0..random.between(1, 4) {
        let kind = random.between(0x01, 0x0C) as u8;
        calls.push(call_of(plain::random_event(random, kind)));
    }
    disturbed(random, calls)
}

/// A book that holds the capacity, with nothing or something past it.
fn book_for(random: &mut Random, capacity: u32) -> u32 {
    let more = random.between(1, 300) as u32;
    let length = random.pick(&[capacity, capacity, capacity + 1, capacity + more, 65_536, 70_000]);
    length.max(capacity)
}

// ---- sound states ----

/// The capacity of the first opening that a large book would let pass.
fn first_capacity(calls: &Calls) -> Option<u32> {
    calls.iter().find_map(|(kind, body)| match read_call(*kind, body) {
        Ok(Event::Open { lanes: 1..=128, capacity: capacity @ 8..=65_536 }) => Some(capacity),
        _ => None,
    })
}

/// A made-up sheet's events one by one.
fn from_unopened(random: &mut Random) -> Case {
    let sheet = if random.one_in(3) {
        short_sheet(random)
    } else {
        let limit = random.pick(&[40, 150, 400, 900]);
        Walk::whole(random, limit)
    };
    let mut calls = calls_of(&sheet);
    calls.truncate(MOST_CALLS);
    let calls = disturbed(random, calls);
    let capacity = first_capacity(&calls).unwrap_or(64);
    let book_length = match random.below(12) {
        0 => random.pick(&[0, 7, capacity - 1]),
        _ => book_for(random, capacity),
    };
    with(random, &written(&Line::unopened()), book_length, calls)
}

fn from_line(random: &mut Random, line: &Line) -> Case {
    let book_length = book_for(random, line.capacity);
    let limit = random.pick(&[20, 60, 200, 500]);
    let calls = walked(random, line, book_length, limit);
    with(random, &written(line), book_length, calls)
}

// ---- others ----

/// Where a sound line is left, its own calls; else those of the line before the damage.
fn damaged(random: &mut Random, damage: &Damage) -> Case {
    let line = damage.base(random);
    let state = damage.done_to(random, &line);
    let book_length = match read(&state) {
        Some(damaged) if damaged.capacity > MOST_CAPACITY => 70_000,
        _ => book_for(random, line.capacity),
    };
    let sound = |line: &Line| !refuse_1_line_not_sound(line, book_length as usize);
    let calls = match read(&state).filter(sound) {
        Some(line) => walked(random, &line, book_length, 60),
        None => walked(random, &line, book_length, 24),
    };
    with(random, &state, book_length, calls)
}

fn short(random: &mut Random, name: &str) -> Case {
    if name == "opening one above the book" {
        return opening_above(random);
    }
    let line = if random.one_in(2) { reached(random) } else { any_built(random) };
    let calls = walked(random, &line, line.capacity.max(8), 30);
    let book_length = book_for(random, line.capacity);
    let mut case = with(random, &written(&line), book_length, calls);
    let any_state = random.below(STATE_BYTES as u64) as usize;
    let any_answer = random.below(ANSWER_BYTES as u64) as u32;
    match name {
        "state of 0 bytes" => case.state.clear(),
        "state of 1 byte" => case.state.truncate(1),
        "state of 1,215 bytes" => case.state.truncate(STATE_BYTES - 1),
        "state too short" => case.state.truncate(any_state),
        "answer of 0 bytes" => case.answer_length = 0,
        "answer of 15 bytes" => case.answer_length = 15,
        "answer too short" => case.answer_length = any_answer,
        "state and answer too short" => {
            case.state.truncate(any_state);
            case.answer_length = any_answer;
        }
        "book one below the capacity" => case.book_length = line.capacity.saturating_sub(1),
        "book far below the capacity" => case.book_length = line.capacity / 2,
        _ => unreachable!("a name of the list"),
    }
    case
}

/// Two openings, the first for one byte more than the book has.
fn opening_above(random: &mut Random) -> Case {
    let (lanes, length) = (plain::good_lanes(random), plain::good_capacity(random));
    let mut calls = vec![call_of(Event::Open { lanes, capacity: length + 1 })];
    calls.push(call_of(Event::Want { lane: 0, purpose: 0 }));
    calls.push(call_of(Event::Open { lanes, capacity: length }));
    let line = Line { lanes: usize::from(lanes), capacity: length, ..Line::unopened() };
    calls.extend(walked(random, &line, length, 60));
    with(random, &written(&Line::unopened()), length, calls)
}

/// A good mark and layout, and behind them bytes, entries or numbers drawn each on its own.
fn random_state(random: &mut Random, which: usize) -> Case {
    let line = any_built(random);
    let mut state = written(&line);
    match which {
        0 => state[AT_LANES..].iter_mut().for_each(|byte| *byte = random.draw() as u8),
        1 => random_entries(random, &mut state),
        _ => state[AT_LANES..AT_RESERVED].iter_mut().for_each(|byte| *byte = random.draw() as u8),
    }
    let book_length = book_for(random, line.capacity);
    let calls = walked(random, &line, book_length, 24);
    with(random, &state, book_length, calls)
}

/// Entries of any phase with small numbers, and mostly the flags that they ask for.
fn random_entries(random: &mut Random, state: &mut [u8]) {
    let lanes = random.between(1, 4) as u8;
    state[AT_LANES] = lanes;
    state[AT_ENTRIES..].fill(0);
    for lane in 0..usize::from(lanes) {
        let purpose = random.pick(&[Purpose::SharedWrite, Purpose::WholeBook]);
        let (value, left) = (random.below(4) as u32, random.below(3) as u32);
        let writing = random.one_in(2);
        let phase = random.pick(&[
            Phase::Idle,
            Phase::Waiting { purpose },
            Phase::Woken { purpose, value },
            Phase::Holding { purpose, value },
            Phase::Busy { writing, next: value, left },
            Phase::Gathered { count: left as u16 },
        ]);
        let entry = written_entry(&phase);
        let at = AT_ENTRIES + ENTRY_BYTES * lane;
        state[at..at + ENTRY_BYTES].copy_from_slice(&entry);
        let flag = u8::from((1..=3).contains(&entry[0]));
        state[AT_FLAGS + lane] = if random.one_in(8) { random.below(3) as u8 } else { flag };
    }
}

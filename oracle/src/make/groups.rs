//! Made-up groups: a lent report and the sheets run over it, with waits of all sorts.

use super::walk::is_holding;
use super::{padded, plain, sheet, sort_of, Sort, Walk};
use crate::event::Event;
use crate::group::Group;
use crate::line::MOST_LANES;
use crate::random::Random;
use crate::report::{Report, FULL};
use crate::sheet::MOST_SHEET;

/// A sort of group.
#[derive(Clone, Copy, PartialEq, Eq, Debug)]
pub enum GroupSort {
    /// One number of the report at an edge of 17.
    Edge,
    /// Two numbers of the report at such edges.
    TwoEdges,
    /// A sheet of 65,536 bytes and one of 65,537.
    Long,
    /// One to six sheets over no waiting or made-up numbers.
    Waiting,
}

/// A sort of sheet in a group of waiting.
#[derive(Clone, Copy, PartialEq, Eq, Debug)]
pub enum WaitSort {
    Turns,
    EndedBy2,
    EndedBy3,
    Empty,
    MadeUp,
}

const ROUND: u64 = 30;
const EDGES: u64 = 6;
const FIRST_WAITING: u64 = 9;
const WAIT_SORTS: [WaitSort; 5] =
    [WaitSort::Turns, WaitSort::EndedBy2, WaitSort::EndedBy3, WaitSort::Empty, WaitSort::MadeUp];
/// Lanes of the lines on which all lanes wait for each other.
const TURN_LANES: [u8; 7] = [2, 3, 12, 63, 64, 65, MOST_LANES as u8];
const EDGE_VALUES: [u64; 3] = [FULL - 1, FULL, u64::MAX];
const FIELDS: u64 = 4;
/// First row, a middle one, last row and the row for all.
const EDGE_ROWS: u64 = 4;

/// The sort of group k: the sorts come round every 30 groups, every edge within 240.
pub fn group_sort_of(k: u64) -> GroupSort {
    match k % ROUND {
        0..EDGES => GroupSort::Edge,
        EDGES..=7 => GroupSort::TwoEdges,
        8 => GroupSort::Long,
        _ => GroupSort::Waiting,
    }
}

/// Group k of a seed.
pub fn group(seed: u64, k: u64) -> Group {
    let mut random = Random::for_sheet(seed, k);
    match group_sort_of(k) {
        GroupSort::Edge => edge(&mut random, k / ROUND * EDGES + k % ROUND),
        GroupSort::TwoEdges => two_edges(&mut random),
        GroupSort::Long => long(&mut random),
        GroupSort::Waiting => waiting(&mut random, waiting_turn(k)),
    }
}

/// How many groups of waiting come before group k.
fn waiting_turn(k: u64) -> u64 {
    k / ROUND * (ROUND - FIRST_WAITING) + k % ROUND - FIRST_WAITING
}

/// The sort of the first sheet of group k, where it is one of waiting.
pub fn first_sheet_sort_of(k: u64) -> Option<WaitSort> {
    if group_sort_of(k) != GroupSort::Waiting {
        return None;
    }
    Some(WAIT_SORTS[waiting_turn(k) as usize % WAIT_SORTS.len()])
}

// ---- groups ----

/// The edges come in turn: each field of each row with each value. An empty sheet leaves
/// 2^63 - 1 as it is, the next lets it grow, and the one after that meets the growth.
fn edge(random: &mut Random, turn: u64) -> Group {
    let middle = random.between(1, MOST_LANES as u64 - 2) as usize;
    let mut report = if random.one_in(2) { made_up_report(random) } else { Report::no_waiting() };
    let row = edge_row(turn / FIELDS % EDGE_ROWS, middle);
    let value = EDGE_VALUES[(turn / (FIELDS * EDGE_ROWS)) as usize % EDGE_VALUES.len()];
    *number_at(&mut report, row, turn % FIELDS) = value;
    let sheets = vec![
        Vec::new(),
        waits_and_waits_again(random, middle as u8),
        waits_and_waits_again(random, middle as u8),
        Vec::new(),
    ];
    Group { report, sheets }
}

/// Two numbers of different places, each at any of the edges.
fn two_edges(random: &mut Random) -> Group {
    let middle = random.between(1, MOST_LANES as u64 - 2) as usize;
    let mut report = Report::no_waiting();
    let spots = EDGE_ROWS * FIELDS;
    let first = random.below(spots);
    let second = (first + random.between(1, spots - 1)) % spots;
    for spot in [first, second] {
        let row = edge_row(spot / FIELDS, middle);
        *number_at(&mut report, row, spot % FIELDS) = random.pick(&EDGE_VALUES);
    }
    let mut sheets = vec![waits_and_waits_again(random, middle as u8), Vec::new()];
    sheets.push(waits_and_waits_again(random, middle as u8));
    Group { report, sheets }
}

/// The longest sheet that is run, the same with one byte more, and a short one.
fn long(random: &mut Random) -> Group {
    let full = full_of_turns(random);
    let mut too_long = full.clone();
    too_long.push(0x03);
    let lanes = random.pick(&TURN_LANES);
    Group { report: Report::no_waiting(), sheets: vec![full, too_long, turns(random, lanes)] }
}

/// The first sheet's sort, its lanes and the number of sheets come in turn.
fn waiting(random: &mut Random, turn: u64) -> Group {
    let sorts = WAIT_SORTS.len() as u64;
    let made_up = turn / 6 % 3 == 2;
    let report = if made_up { made_up_report(random) } else { Report::no_waiting() };
    let lanes = TURN_LANES[(turn / sorts) as usize % TURN_LANES.len()];
    let mut sheets = vec![wait_sheet(random, WAIT_SORTS[(turn % sorts) as usize], lanes)];
    for _ in 0..turn % 6 {
        let (sort, lanes) = (random.pick(&WAIT_SORTS), random.pick(&TURN_LANES));
        sheets.push(wait_sheet(random, sort, lanes));
    }
    Group { report, sheets }
}

// ---- reports ----

fn edge_row(which: u64, middle: usize) -> usize {
    match which {
        0 => 0,
        1 => middle,
        2 => MOST_LANES - 1,
        _ => MOST_LANES,
    }
}

/// A number of the report; the row after the last lane's is the one for all.
fn number_at(report: &mut Report, row: usize, field: u64) -> &mut u64 {
    let row = if row == MOST_LANES { &mut report.all } else { &mut report.lanes[row] };
    match field {
        0 => &mut row.times,
        1 => &mut row.sum,
        2 => &mut row.largest,
        _ => &mut row.unended,
    }
}

/// Numbers drawn each on its own: the row for all is no sum of the others.
fn made_up_report(random: &mut Random) -> Report {
    let mut report = Report::no_waiting();
    for row in 0..=MOST_LANES {
        if row < MOST_LANES && random.one_in(2) {
            continue;
        }
        for field in 0..FIELDS {
            *number_at(&mut report, row, field) = made_up_number(random);
        }
    }
    report
}

/// Mostly small; about the longest waits of 64 lanes and of the most; where 32 bits end.
fn made_up_number(random: &mut Random) -> u64 {
    match random.below(12) {
        0 => 0,
        1..=3 => {
            let lanes = random.pick(&[64, MOST_LANES as u64]);
            random.between(lanes - 4, lanes + 6)
        }
        4 => random.between((1 << 32) - 3, 1 << 32),
        _ => random.below(12),
    }
}

// ---- sheets ----

fn wait_sheet(random: &mut Random, sort: WaitSort, lanes: u8) -> Vec<u8> {
    match sort {
        WaitSort::Turns => turns(random, lanes),
        WaitSort::EndedBy2 => ended_by_2(random, lanes),
        WaitSort::EndedBy3 => ended_by_3(random, lanes),
        WaitSort::Empty => Vec::new(),
        WaitSort::MadeUp => short_sheet(random),
    }
}

/// A sheet of the other generator; its long sorts are left to the long groups.
pub fn short_sheet(random: &mut Random) -> Vec<u8> {
    loop {
        let k = random.below(1 << 20);
        if !matches!(sort_of(k), Sort::Full | Sort::TooLong | Sort::LongWalk) {
            return sheet(random.draw(), k);
        }
    }
}

fn opened(random: &mut Random, lanes: u8, limit: usize) -> Walk<'_> {
    let mut walk = Walk::new(random, limit);
    walk.purposes = walk.random.pick(&[&[0u8][..], &[1], &[2], &[0, 1, 2]]).to_vec();
    let capacity = walk.random.pick(&[8, 64, 1_000, 65_536]);
    walk.emit(Event::Open { lanes, capacity });
    walk
}

/// All lanes want, then each in turn receives and releases: once, or over several rounds
/// in which it wants again at once and so waits for N - 1 releases.
fn turns(random: &mut Random, lanes: u8) -> Vec<u8> {
    let rounds = random.between(1, 3);
    let mut walk = opened(random, lanes, MOST_SHEET);
    walk.all_want();
    for _ in 0..rounds * u64::from(lanes) {
        walk.one_turn();
        if rounds > 1 {
            walk.all_want();
        }
    }
    if rounds > 1 && walk.random.one_in(2) {
        walk.drain();
    }
    walk.bytes
}

/// Turns up to exactly 65,536 bytes: thousands of waits.
fn full_of_turns(random: &mut Random) -> Vec<u8> {
    let lanes = random.pick(&TURN_LANES);
    let mut walk = opened(random, lanes, MOST_SHEET - 2);
    while !walk.over {
        walk.all_want();
        walk.one_turn();
    }
    padded(walk.bytes)
}

/// All lanes want and some have had their turn; all but one wait.
fn all_but_one_wait(random: &mut Random, lanes: u8) -> Walk<'_> {
    let mut walk = opened(random, lanes, MOST_SHEET);
    walk.all_want();
    for _ in 0..walk.random.below(u64::from(lanes)) {
        walk.one_turn();
        walk.all_want();
    }
    walk
}

/// A kind that is not listed ends the run; what stands behind it would end the waits.
fn ended_by_2(random: &mut Random, lanes: u8) -> Vec<u8> {
    let mut walk = all_but_one_wait(random, lanes);
    let at = walk.bytes.len();
    let kind = walk.random.pick(&[0x00, 0x0D, 0x0E, 0xFF]);
    walk.drain();
    walk.bytes.insert(at, kind);
    walk.bytes
}

/// An event cut short ends the run.
fn ended_by_3(random: &mut Random, lanes: u8) -> Vec<u8> {
    let mut walk = all_but_one_wait(random, lanes);
    let kind = walk.random.between(0x01, 0x0C) as u8;
    let event = plain::random_event(walk.random, kind).to_bytes();
    let kept = walk.random.between(1, event.len() as u64 - 1) as usize;
    walk.bytes.extend(&event[..kept]);
    walk.bytes
}

/// The first, a middle and the last lane of the most lanes wait, are woken, and wait again
/// to the end: every number of their rows, and of the row for all, can grow.
fn waits_and_waits_again(random: &mut Random, middle: u8) -> Vec<u8> {
    let last = MOST_LANES as u8 - 1;
    let holder = if middle == 1 { 2 } else { random.between(1, u64::from(middle) - 1) as u8 };
    let mut walk = opened(random, MOST_LANES as u8, MOST_SHEET);
    for round in 0..2 {
        walk.want(holder);
        let mut lanes = [0, middle, last];
        walk.random.shuffle(&mut lanes);
        lanes.iter().for_each(|&lane| walk.want(lane));
        if round == 0 {
            walk.drain();
        }
    }
    walk.bytes
}

impl Walk<'_> {
    fn want(&mut self, lane: u8) {
        let purpose = self.random.pick(&self.purposes.clone());
        self.emit(Event::Want { lane, purpose });
    }

    /// Every idle lane wants, in any order; one holds or is woken and the others wait.
    fn all_want(&mut self) {
        while self.act_want() {}
    }

    /// The lane whose turn it is receives, releases and uses its records up.
    fn one_turn(&mut self) {
        self.act_receive();
        self.maybe_refused(6);
        if self.random.one_in(3) {
            self.act_book();
        }
        let Some(lane) = self.lane_with(is_holding) else { return };
        self.act_release();
        while self.work(lane) {}
    }
}

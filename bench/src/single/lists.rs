//! Lists of calls, and the workloads of single calls: what brings the line where the list starts,
//! and the list.

use crate::sheets::{self, record, Sheet, MOST_LANES};
use gudlemi::EventAt;

/// The capacity of the lines: 8,192 records.
const CAPACITY: u32 = 65_536;
/// More than any of the sheets here has.
const ROOM: usize = 1 << 17;
/// How often a lane has its turn in a list; a multiple of the lanes.
const TURNS: u16 = 1_024;
/// The records that all busy lanes take together.
const TAKEN: u16 = 7_680;
/// The events of the history, and of the list after it: two rounds of all lanes.
const HISTORY: usize = 10_000;
const NEXT: usize = 1_024;

/// Calls one after the other, as the bytes of kind and body, and where each ends.
#[derive(Default)]
pub struct Calls {
    bytes: Vec<u8>,
    ends: Vec<usize>,
}

impl Calls {
    pub fn add(&mut self, kind: u8, body: &[u8]) {
        self.bytes.push(kind);
        self.bytes.extend_from_slice(body);
        self.ends.push(self.bytes.len());
    }

    /// The events of a sheet that are whole.
    pub fn of_sheet(sheet: &[u8]) -> Calls {
        let mut calls = Calls { bytes: sheet.to_vec(), ends: Vec::new() };
        let mut at = 0;
        while let EventAt::Event { length } = gudlemi::event_at(sheet, at) {
            at += length;
            calls.ends.push(at);
        }
        calls
    }

    pub fn len(&self) -> usize {
        self.ends.len()
    }

    /// The kind and the body of each call.
    #[inline(always)]
    pub fn each(&self) -> impl Iterator<Item = (u8, &[u8])> {
        let mut start = 0;
        self.ends.iter().map(move |&end| {
            let (at, after) = (start, start + 1);
            start = end;
            (self.bytes[at], &self.bytes[after..end])
        })
    }

    /// The bytes of all calls: the sheet of these events.
    pub fn sheet(&self) -> &[u8] {
        &self.bytes
    }

    /// The calls before an index and those from it on.
    fn split(&self, index: usize) -> (Calls, Calls) {
        let at = self.ends[index - 1];
        (Calls::of_sheet(&self.bytes[..at]), Calls::of_sheet(&self.bytes[at..]))
    }
}

/// A workload: the calls from the unopened line up to the saved state, the list that is repeated
/// from there, and how its answers start: each word that comes, with the number after it.
pub struct List {
    pub name: &'static str,
    pub before: Calls,
    pub calls: Calls,
    pub answers: &'static [[u8; 2]],
    /// Whether every lane is busy when the list is over.
    pub busy: bool,
}

fn opened(lanes: u8) -> Sheet {
    let mut sheet = Sheet::new(ROOM);
    sheet.open(lanes, CAPACITY);
    sheet
}

/// Lane after lane wants, takes 1 and writes it; the others are idle.
fn none_busy(lanes: u8) -> List {
    let mut list = Sheet::new(ROOM);
    for turn in 0..TURNS {
        let lane = (turn % lanes as u16) as u8;
        list.want(lane, 0);
        list.take(lane, 1);
        list.write(lane, record(turn as u64));
    }
    let (before, calls) = (Calls::of_sheet(opened(lanes).bytes()), Calls::of_sheet(list.bytes()));
    List { name: "none busy", before, calls, answers: &[[2, 2], [4, 4], [5, 5]], busy: false }
}

/// All lanes have a region, every other one to read, of which the list uses up a part. The book's
/// last record was put before, so that there is a record at every place.
fn all_busy(lanes: u8) -> List {
    let mut sheet = opened(lanes);
    sheet.want(0, 2);
    sheet.put(0, CAPACITY / 8 - 1, record(1));
    sheet.free(0);
    for lane in 0..lanes {
        sheet.want(lane, lane % 2);
        sheet.take(lane, TAKEN / lanes as u16);
    }
    let mut list = Sheet::new(ROOM);
    for turn in 0..TURNS {
        busy_turn(&mut list, (turn % lanes as u16) as u8, turn);
    }
    let (before, calls) = (Calls::of_sheet(sheet.bytes()), Calls::of_sheet(list.bytes()));
    List { name: "all busy", before, calls, answers: &[[5, 5], [6, 6], [0, 13]], busy: true }
}

/// A busy lane writes or reads a record; one lane of four also looks, which is refused with 13.
fn busy_turn(list: &mut Sheet, lane: u8, turn: u16) {
    if lane % 2 == 0 {
        list.write(lane, record(turn as u64));
    } else {
        list.read(lane);
    }
    if lane % 4 == 3 {
        list.look(lane, turn as u32);
    }
}

/// One lane holds and all others wait: it takes nothing, which wakes the next; that one receives,
/// and the first wants again.
fn all_wait(lanes: u8) -> List {
    let mut sheet = opened(lanes);
    for lane in 0..lanes {
        sheet.want(lane, 0);
    }
    let mut list = Sheet::new(ROOM);
    for turn in 0..TURNS {
        let lane = (turn % lanes as u16) as u8;
        list.take(lane, 0);
        list.receive((lane + 1) % lanes);
        list.want(lane, 0);
    }
    let (before, calls) = (Calls::of_sheet(sheet.bytes()), Calls::of_sheet(list.bytes()));
    List { name: "all wait", before, calls, answers: &[[4, 4], [2, 2], [3, 2]], busy: false }
}

/// The workloads on a line of so many lanes.
pub fn lists(lanes: u8) -> [List; 3] {
    [none_busy(lanes), all_busy(lanes), all_wait(lanes)]
}

/// The sheet of Wish 14: its first events, and the list of those that come next.
pub fn history() -> List {
    let sheet = sheets::shared_writes(CAPACITY as usize, MOST_LANES);
    let (before, after) = Calls::of_sheet(&sheet).split(HISTORY);
    let (calls, _) = after.split(NEXT);
    let answers = &[[2, 2], [3, 2], [4, 4], [5, 5], [0, 13]];
    List { name: "history", before, calls, answers, busy: false }
}

//! The report of waiting (Wish 1): its rows, how it grows, its bytes and its table.

use crate::answer::Answer;
use crate::event::Event;
use crate::line::MOST_LANES;

/// An event of a run and the answer it got.
pub type Said = (Event, Answer);

/// Numbers from here on give 17 at the next run, long before a sum could wrap.
pub const FULL: u64 = 1 << 63;
pub const ROW_BYTES: usize = 4 * 8;
pub const REPORT_BYTES: usize = (MOST_LANES + 1) * ROW_BYTES;

/// The waits of one lane, or of all lanes. Waits not ended are in `unended` alone.
#[derive(Clone, Copy, PartialEq, Eq, Debug, Default)]
pub struct Row {
    pub times: u64,
    pub sum: u64,
    pub largest: u64,
    pub unended: u64,
}

/// A row for each lane that a line can have, and one for all lanes.
#[derive(Clone, PartialEq, Eq, Debug)]
pub struct Report {
    pub lanes: [Row; MOST_LANES],
    pub all: Row,
}

/// A wait told in a list: its lane, and its releases where a wake ended it.
#[derive(Clone, Copy, PartialEq, Eq, Debug)]
pub struct Wait {
    pub lane: usize,
    pub releases: Option<u64>,
}

impl Row {
    pub fn numbers(&self) -> [u64; 4] {
        [self.times, self.sum, self.largest, self.unended]
    }

    /// The mean as a whole number; 0 where none waited.
    pub fn mean(&self) -> u64 {
        self.sum.checked_div(self.times).unwrap_or(0)
    }

    /// What the mean leaves of the sum; 0 where none waited.
    pub fn remainder(&self) -> u64 {
        self.sum.checked_rem(self.times).unwrap_or(0)
    }

    /// One more wait: ended after so many releases, or not ended.
    fn grow(&mut self, releases: Option<u64>) {
        let Some(releases) = releases else {
            self.unended += 1;
            return;
        };
        self.times += 1;
        self.sum += releases;
        self.largest = self.largest.max(releases);
    }

    fn of_bytes(bytes: &[u8]) -> Row {
        let number = |at: usize| {
            let mut eight = [0; 8];
            eight.copy_from_slice(&bytes[at..at + 8]);
            u64::from_be_bytes(eight)
        };
        Row { times: number(0), sum: number(8), largest: number(16), unended: number(24) }
    }
}

impl Report {
    pub fn no_waiting() -> Report {
        Report { lanes: [Row::default(); MOST_LANES], all: Row::default() }
    }

    /// The rows of the lanes, then the row for all.
    pub fn rows(&self) -> impl Iterator<Item = &Row> {
        self.lanes.iter().chain([&self.all])
    }

    /// Whether any number of any row, also of lanes that no line here has, is 2^63 or more.
    pub fn is_full(&self) -> bool {
        self.rows().any(|row| row.numbers().iter().any(|&number| number >= FULL))
    }

    /// Grows by every wait told in the list. The row for all grows from its own values.
    pub fn grow(&mut self, list: &[Said]) {
        for wait in waits(list) {
            self.lanes[wait.lane].grow(wait.releases);
            self.all.grow(wait.releases);
        }
    }

    /// 129 rows of times, sum, largest and unended, 8 bytes big-endian each: 4,128 bytes.
    pub fn to_bytes(&self) -> Vec<u8> {
        self.rows().flat_map(|row| row.numbers()).flat_map(u64::to_be_bytes).collect()
    }

    /// The report of just as many bytes; nothing for another length.
    pub fn of_bytes(bytes: &[u8]) -> Option<Report> {
        if bytes.len() != REPORT_BYTES {
            return None;
        }
        let mut report = Report::no_waiting();
        for (row, bytes) in report.lanes.iter_mut().zip(bytes.chunks(ROW_BYTES)) {
            *row = Row::of_bytes(bytes);
        }
        report.all = Row::of_bytes(&bytes[REPORT_BYTES - ROW_BYTES..]);
        Some(report)
    }

    /// A header, a line for each lane that has any, and a line for all.
    pub fn table(&self) -> String {
        let names = ["times", "sum", "largest", "mean", "remainder", "unended"];
        let mut out = table_line("lane", names);
        for (lane, row) in self.lanes.iter().enumerate() {
            if row.times != 0 || row.unended != 0 {
                out.push_str(&row_line(&lane.to_string(), row));
            }
        }
        out.push_str(&row_line("all", &self.all));
        out
    }
}

fn row_line(name: &str, row: &Row) -> String {
    let cells = [row.times, row.sum, row.largest, row.mean(), row.remainder(), row.unended];
    table_line(name, cells)
}

/// Cells right-aligned to 4 and 9 at least, one blank between.
fn table_line<T: std::fmt::Display>(name: &str, cells: [T; 6]) -> String {
    let mut line = format!("{name:>4}");
    for cell in cells {
        line.push_str(&format!(" {cell:>9}"));
    }
    line.push('\n');
    line
}

/// Every wait told in the list. One told before the list began is not among them.
pub fn waits(list: &[Said]) -> Vec<Wait> {
    let mut waits = Vec::new();
    for (at, said) in list.iter().enumerate() {
        if let (Event::Want { lane, .. }, Answer::Waits) = *said {
            let lane = lane as usize;
            waits.push(Wait { lane, releases: releases_to_wake(lane, &list[at + 1..]) });
        }
    }
    waits
}

/// The accepted releases up to the one that wakes the lane, that one included.
fn releases_to_wake(lane: usize, later: &[Said]) -> Option<u64> {
    let mut releases = 0;
    for said in later {
        let Some(wakes) = wakes_of_release(said) else { continue };
        releases += 1;
        if wakes == Some(lane as u64) {
            return Some(releases);
        }
    }
    None
}

/// The wake that an accepted release sends, if any; nothing for all other events.
fn wakes_of_release(said: &Said) -> Option<Option<u64>> {
    match *said {
        (Event::Take { .. }, Answer::Region { wakes, .. }) => Some(wakes),
        (Event::Free { .. }, Answer::Freed { wakes }) => Some(wakes),
        _ => None,
    }
}

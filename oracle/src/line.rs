//! The line, its lanes, its view and its book, as plain structs.

use crate::event::Blocks;

/// Wish 2: all that follows from the most lanes goes by this number.
pub const MOST_LANES: usize = 128;
pub const LEAST_CAPACITY: u32 = 8;
pub const MOST_CAPACITY: u32 = 65_536;
pub const MOST_POINTER: u32 = 65_536;
pub const MOST_EXTENT: u16 = 1_024;
pub const RECORD_BYTES: u64 = 8;
pub const BOOK_BYTES: usize = 65_536;

#[derive(Clone, Copy, PartialEq, Eq, Debug)]
pub enum Purpose {
    SharedWrite,
    SharedRead,
    WholeBook,
}

impl Purpose {
    /// Purposes: 0 shared write, 1 shared read, 2 whole book.
    pub fn of(number: u8) -> Option<Purpose> {
        match number {
            0 => Some(Purpose::SharedWrite),
            1 => Some(Purpose::SharedRead),
            2 => Some(Purpose::WholeBook),
            _ => None,
        }
    }

    pub fn number(self) -> u8 {
        match self {
            Purpose::SharedWrite => 0,
            Purpose::SharedRead => 1,
            Purpose::WholeBook => 2,
        }
    }
}

#[derive(Clone, Copy, PartialEq, Eq, Debug)]
pub enum Phase {
    Idle,
    Waiting { purpose: Purpose },
    Woken { purpose: Purpose, value: u32 },
    Holding { purpose: Purpose, value: u32 },
    Busy { writing: bool, next: u32, left: u32 },
    Gathered { count: u16 },
}

#[derive(Clone, Copy, PartialEq, Eq, Debug)]
pub struct View {
    pub displacement: u32,
    pub extent: u16,
    pub blocks: u8,
    pub list: Blocks,
}

impl View {
    /// Displacement 0, extent 1 and one block (0, 1).
    pub fn plain() -> View {
        let mut list = [(0, 0); 8];
        list[0] = (0, 1);
        View { displacement: 0, extent: 1, blocks: 1, list }
    }

    /// Whether every rule of a view holds, for this capacity.
    pub fn keeps_rules(&self, capacity: u32) -> bool {
        let extent_good = self.extent >= 1 && self.extent <= MOST_EXTENT;
        let blocks_good = self.blocks >= 1 && self.blocks <= 8;
        if self.displacement > capacity || !extent_good || !blocks_good {
            return false;
        }
        let (used, unused) = self.list.split_at(self.blocks as usize);
        let mut end = 0u32;
        for &(start, length) in used {
            if length < 1 || u32::from(start) < end {
                return false;
            }
            end = u32::from(start) + u32::from(length);
        }
        end <= u32::from(self.extent) && unused.iter().all(|&block| block == (0, 0))
    }

    fn used(&self) -> &[(u16, u16)] {
        &self.list[..self.blocks as usize]
    }

    /// m of document 01: the records of a tile that the view shows.
    pub fn shown(&self) -> u64 {
        self.used().iter().map(|&(_, length)| u64::from(length)).sum()
    }

    /// The byte position of a place: displacement + 8 x (tile x extent + record in tile).
    pub fn position(&self, place: u64) -> u64 {
        let tile = place / self.shown();
        let mut nth = place % self.shown();
        for &(start, length) in self.used() {
            if nth < u64::from(length) {
                let record = u64::from(start) + nth;
                let records = tile * u64::from(self.extent) + record;
                return u64::from(self.displacement) + RECORD_BYTES * records;
            }
            nth -= u64::from(length);
        }
        unreachable!("place mod m is below the sum of lengths")
    }

    /// Wish 4: how many places have a record that starts below the size, wherever it ends.
    /// By the rules each place lies 8 bytes or more past the one before, so the walk ends.
    pub fn places_below(&self, size: u32) -> u64 {
        let mut place = 0;
        while self.position(place) < u64::from(size) {
            place += 1;
        }
        place
    }
}

/// Everything of the line but the book's bytes. The vectors have an entry
/// for each lane that a line can have.
#[derive(Clone, PartialEq, Eq, Debug)]
pub struct Line {
    pub lanes: usize,
    pub capacity: u32,
    pub size: u32,
    pub pointer: u32,
    pub view: View,
    pub phases: Vec<Phase>,
    pub flags: Vec<u8>,
}

impl Line {
    pub fn unopened() -> Line {
        Line {
            lanes: 0,
            capacity: 0,
            size: 0,
            pointer: 0,
            view: View::plain(),
            phases: vec![Phase::Idle; MOST_LANES],
            flags: vec![0; MOST_LANES],
        }
    }

    pub fn is_open(&self) -> bool {
        self.lanes != 0
    }

    /// The phase of a lane below N; none for another number.
    pub fn phase(&self, lane: usize) -> Option<Phase> {
        if lane < self.lanes {
            Some(self.phases[lane])
        } else {
            None
        }
    }

    /// The phases of the lanes 0 to N - 1.
    pub fn live(&self) -> &[Phase] {
        &self.phases[..self.lanes]
    }

    /// A run fits if it is empty or its last record ends at or below the capacity.
    pub fn fits(&self, place: u64, records: u64) -> bool {
        if records == 0 {
            return true;
        }
        self.view.position(place + records - 1) + RECORD_BYTES <= u64::from(self.capacity)
    }

    /// How many records fit from a place, at most 65,535.
    pub fn room(&self, place: u32) -> u32 {
        let (mut fit, mut not) = (0u32, 65_536u32);
        while fit + 1 < not {
            let middle = (fit + not) / 2;
            if self.fits(u64::from(place), u64::from(middle)) {
                fit = middle;
            } else {
                not = middle;
            }
        }
        fit
    }

    /// The sum of the counts of the gathered lanes.
    pub fn gathered_total(&self) -> u64 {
        let counts = self.live().iter().map(|phase| match *phase {
            Phase::Gathered { count } => u64::from(count),
            _ => 0,
        });
        counts.sum()
    }
}

/// Where a release looks for the next lane.
#[derive(Clone, Copy, PartialEq, Eq, Debug)]
pub enum Search {
    /// As the papers say: first flagged after the releaser, then from 0.
    AfterReleaser,
    /// A planted mistake, for tests only: first flagged from lane 0.
    FromLaneZero,
}

/// The line, the lent book and the search: all that a call is handed. The book is the machine's
/// own, or the bytes of a caller.
#[derive(Clone, Debug)]
pub struct Machine<B = Vec<u8>> {
    pub line: Line,
    pub book: B,
    pub search: Search,
}

impl Machine {
    pub fn new(search: Search) -> Machine {
        Machine { line: Line::unopened(), book: vec![0; BOOK_BYTES], search }
    }
}

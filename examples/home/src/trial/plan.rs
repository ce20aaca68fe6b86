//! What each lane does in a trial, made up from a seed, and how long the list of calls can get by it.

use super::random::Random;
use crate::call::{LARGEST_BOOK, RECORD};
use crate::{misused, number};
use gudlemi::{View, LONGEST_SHEET};
use std::io;

/// Every so many operations of a lane one is an ordered call, at the same ones in all lanes.
const ORDERED_EVERY: u64 = 4;

/// The places that a lane reads by one take when the book is read, and how many records a turn with the whole book looks at.
pub const READ_AT_ONCE: u16 = 8;
pub const LOOKS: usize = 2;

/// A lane corrects records after every so many of its takes when the book is read.
pub const CORRECTS_EVERY: usize = 4;

/// How large a book's trial is.
#[derive(Clone, Copy, Debug, PartialEq, Eq)]
pub struct Sizes {
    pub lanes: u8,
    pub capacity: u32,
    /// The operations of each lane, and the most records that one of them takes.
    pub operations: u64,
    pub most: u16,
    pub seed: u64,
    /// Which book of the trial it is, from 1 on.
    pub book: u16,
}

/// What a lane does next while the book is written.
#[derive(Clone, Copy, Debug, PartialEq, Eq)]
pub enum Operation {
    /// Takes so many places and writes their records; or reads them, though nothing is written there yet.
    Write(u16),
    Read(u16),
    /// Looks at records anywhere, and puts them back with a correction more.
    Correct,
    /// Enters an ordered call for so many places.
    Enter(u16),
}

impl Sizes {
    /// As words of a command, and back.
    pub fn to_words(self) -> [String; 6] {
        let Sizes { lanes, capacity, operations, most, seed, book } = self;
        [
            lanes.to_string(),
            capacity.to_string(),
            operations.to_string(),
            most.to_string(),
            seed.to_string(),
            book.to_string(),
        ]
    }

    pub fn from_words(words: &[&str]) -> io::Result<Sizes> {
        let [lanes, capacity, operations, most, seed, book] = words else {
            return Err(misused("not six numbers"));
        };
        Ok(Sizes {
            lanes: number(lanes)?,
            capacity: number(capacity)?,
            operations: number(operations)?,
            most: number(most)?,
            seed: number(seed)?,
            book: number(book)?,
        })
    }

    /// The made-up numbers of a lane in this book.
    fn random(&self, lane: u8) -> Random {
        Random::new(self.seed, &[self.book.into(), lane.into()])
    }

    /// The operations of a lane, in order.
    pub fn plan(&self, lane: u8) -> Vec<Operation> {
        let mut random = self.random(lane);
        (1..=self.operations).map(|index| self.operation(index, &mut random)).collect()
    }

    fn operation(&self, index: u64, random: &mut Random) -> Operation {
        let count = random.below(u64::from(self.most) + 1) as u16;
        let sort = random.below(10);
        if index % ORDERED_EVERY == 0 {
            return Operation::Enter(count);
        }
        match sort {
            0..=6 => Operation::Write(count),
            7 => Operation::Read(count),
            _ => Operation::Correct,
        }
    }

    /// Of three books one has the plain view, and two a view with gaps that all lanes set together: of five records the second,
    /// third and fifth, from byte 16 on, or from byte 4 on, as in document 01's edge.
    pub fn view(&self) -> Option<View> {
        let displacement = match self.book % 3 {
            1 => return None,
            2 => 16,
            _ => 4,
        };
        View::new(displacement, 5, &[(1, 2), (4, 1)])
    }

    /// A bound of the bytes of all calls from below, unless the book gets full: no receive and no put is counted, and of the
    /// reading only that each record is read once.
    pub fn fewest_bytes(&self) -> usize {
        self.operations_of_all().map(|operation| operation.fewest_bytes()).sum()
    }

    /// A bound of the bytes of all calls, and of those that tell the whole book at the end (`check`).
    fn most_bytes(&self) -> usize {
        let places: usize = self.operations_of_all().map(|operation| operation.places()).sum();
        let written: usize = self.operations_of_all().map(|operation| operation.most_bytes()).sum();
        let takes = places.div_ceil(READ_AT_ONCE.into()) + usize::from(self.lanes);
        let read = READ * places + TURN * takes + CORRECT * takes.div_ceil(CORRECTS_EVERY);
        let records = self.view().map_or(places, |_| (places + 3) * 5 / 3);
        let looks = WANT + LOOK * records.min(self.capacity as usize / RECORD);
        OPEN + VIEW + 2 * SEEK + written + read + VIEW + looks
    }

    fn operations_of_all(&self) -> impl Iterator<Item = Operation> + '_ {
        (0..self.lanes).flat_map(|lane| self.plan(lane))
    }

    /// What is wrong with the sizes, if anything is: the library's limits, and the longest sheet that `linebook` takes.
    pub fn fault(&self) -> Option<String> {
        if !(1..=128).contains(&self.lanes) {
            return Some("the lanes are not 1 to 128".to_string());
        }
        if !(64..=LARGEST_BOOK).contains(&self.capacity) {
            return Some(format!("the capacity is not 64 to {LARGEST_BOOK}"));
        }
        if self.operations == 0 {
            return Some("there are no operations".to_string());
        }
        let most = self.most_bytes();
        (most > LONGEST_SHEET).then(|| {
            format!("the calls may need {most} bytes, and a sheet has {LONGEST_SHEET}: take fewer operations, and more books")
        })
    }
}

// The bytes of the calls (`tests/plan.rs` holds them to `Call::bytes`), and of all that a turn makes: with a receive, and with a
// put for each look.
pub const OPEN: usize = 6;
pub const WANT: usize = 3;
pub const RECEIVE: usize = 2;
pub const TAKE: usize = 4;
pub const WRITE: usize = 10;
pub const READ: usize = 2;
pub const PUT: usize = 14;
pub const LOOK: usize = 6;
pub const FREE: usize = 2;
pub const ENTER: usize = 4;
pub const VIEW: usize = 40;
pub const SEEK: usize = 6;
const TURN: usize = WANT + RECEIVE + TAKE;
const CORRECT: usize = WANT + RECEIVE + LOOKS * (LOOK + PUT) + FREE;

impl Operation {
    /// How many places it takes.
    fn places(&self) -> usize {
        match *self {
            Operation::Write(count) | Operation::Read(count) | Operation::Enter(count) => {
                count.into()
            }
            Operation::Correct => 0,
        }
    }

    fn fewest_bytes(&self) -> usize {
        match *self {
            Operation::Write(count) => WANT + TAKE + (WRITE + READ) * usize::from(count),
            Operation::Read(count) => WANT + TAKE + READ * usize::from(count),
            Operation::Correct => WANT + FREE,
            Operation::Enter(count) => ENTER + (WRITE + READ) * usize::from(count),
        }
    }

    /// With a second take or enter, for no place, where the first one does not fit.
    fn most_bytes(&self) -> usize {
        match *self {
            Operation::Write(count) => TURN + TAKE + WRITE * usize::from(count),
            Operation::Read(count) => TURN + TAKE + READ * usize::from(count),
            Operation::Correct => CORRECT,
            Operation::Enter(count) => 2 * ENTER + WRITE * usize::from(count),
        }
    }
}

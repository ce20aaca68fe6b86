//! A line that runs: its state in bytes that you keep, and one call on it after the other.
//!
//! What each call does is in document 01 and, in short, in `embed/gudlemi.h` ("The calls"). The state holds no address:
//! kept together with the book it is a checkpoint, from which the line goes on, in another process too.
//!
//! Every call answers, and a refused one changes nothing. A lane that is answered `Waits` must not go on before another
//! call's answer names it in `wakes`; then it makes its `receive`. A line has one caller at a time, as `&mut` says.
//!
//! Two lanes want the book; lane 1 waits, is woken, and both write:
//!
//! ```
//! use gudlemi::{Answer, Line, Purpose};
//!
//! let mut book = [0; 64];
//! let mut line = Line::unopened();
//! assert_eq!(line.open(&mut book, 2, 64), Answer::Open { lanes: 2, capacity: 64 });
//! assert_eq!(line.want(&mut book, 0, Purpose::SharedWrite), Answer::Holds { pointer: 0 });
//! assert_eq!(line.want(&mut book, 1, Purpose::SharedWrite), Answer::Waits);
//!
//! let taken = line.take(&mut book, 0, 1);
//! assert_eq!(taken, Answer::Region { start: 0, count: 1, wakes: Some(1) });
//! assert_eq!(line.receive(&mut book, 1), Answer::Holds { pointer: 1 });
//! assert_eq!(line.take(&mut book, 1, 1).to_string(), "region 1 1 wakes none");
//!
//! assert_eq!(line.write(&mut book, 1, *b"lane 1's"), Answer::Wrote { position: 8 });
//! assert_eq!(line.write(&mut book, 0, *b"lane 0's"), Answer::Wrote { position: 0 });
//! assert_eq!(&book[..16], b"lane 0'slane 1's");
//! assert_eq!(line.write(&mut book, 0, [0; 8]), Answer::Refused(13));
//! ```

mod answer;
mod linked;

pub use answer::Answer;
pub use linked::{answer_length, call_bytes, layout, state_length};

#[cfg(test)]
pub(crate) use answer::TEXT_LENGTH;
#[cfg(test)]
pub(crate) use linked::{answer_text, is_sound, lane, number, position, unopened};

use std::fmt;

/// The length of a line's state in bytes.
pub const STATE_LENGTH: usize = 1_216;

/// The length of an answer in bytes.
pub const ANSWER_LENGTH: usize = 16;

/// The number of the layout of states and answers.
pub const LAYOUT: u32 = 1;

/// `call_bytes`: the state is too short. No refusal has this number.
pub const STATE_TOO_SHORT: u8 = 254;

/// `call_bytes`: the answer is too short. No refusal has this number.
pub const ANSWER_TOO_SHORT: u8 = 255;

/// The kinds of calls, by their numbers in a sheet.
pub mod kind {
    pub const OPEN: u8 = 0x01;
    pub const WANT: u8 = 0x02;
    pub const RECEIVE: u8 = 0x03;
    pub const TAKE: u8 = 0x04;
    pub const WRITE: u8 = 0x05;
    pub const READ: u8 = 0x06;
    pub const PUT: u8 = 0x07;
    pub const LOOK: u8 = 0x08;
    pub const FREE: u8 = 0x09;
    pub const ENTER: u8 = 0x0A;
    pub const VIEW: u8 = 0x0B;
    pub const SEEK: u8 = 0x0C;
}

/// The numbers of a line, by their indices in the library.
mod index {
    pub const LANES: u8 = 0;
    pub const CAPACITY: u8 = 1;
    pub const SIZE: u8 = 2;
    pub const POINTER: u8 = 3;
    pub const DISPLACEMENT: u8 = 4;
    pub const EXTENT: u8 = 5;
    pub const BLOCKS: u8 = 6;
}

/// Where the blocks of the view lie in a state.
const BLOCKS_AT: usize = 28;

/// The most blocks of a view.
const MOST_BLOCKS: usize = 8;

/// What a lane wants the book for.
#[derive(Clone, Copy, Debug, PartialEq, Eq)]
pub enum Purpose {
    /// To take places and write their records.
    SharedWrite = 0,
    /// To take places and read their records.
    SharedRead = 1,
    /// To put and look at records anywhere, and then to free the book.
    WholeBook = 2,
}

/// Where a seek goes from.
#[derive(Clone, Copy, Debug, PartialEq, Eq)]
pub enum Whence {
    /// Place 0.
    Start = 0,
    /// The pointer.
    Pointer = 1,
    /// The end of the book: the number of places whose record starts below the size in the view.
    End = 2,
}

/// A run of records within a tile of the view: the record at which it starts, and how many there are.
#[derive(Clone, Copy, Debug, PartialEq, Eq, Default)]
pub struct Block {
    pub start: u16,
    pub length: u16,
}

/// Which records of the book are shown: from the displacement on, in bytes, tiles of `extent` records, of each the
/// records of its blocks. Whether it keeps the rules of document 01 is looked at when it is set.
#[derive(Clone, Copy, Debug, PartialEq, Eq)]
pub struct View {
    /// Where the first tile starts in the book, in bytes; at most the capacity.
    pub displacement: u32,
    /// The length of a tile in records, 1 to 1,024.
    pub extent: u16,
    /// How many of `block` are in use, 1 to 8; the others are to be zero.
    pub blocks: u8,
    /// The blocks, each starting at or past the end of the one before.
    pub block: [Block; MOST_BLOCKS],
}

/// What a lane is doing.
#[derive(Clone, Copy, Debug, PartialEq, Eq)]
pub enum Phase {
    /// It wants nothing.
    Idle,
    /// It must not go on before it is woken.
    Waiting { purpose: Purpose },
    /// A wake is under way to it, which carries the pointer; its `receive` comes next.
    Woken { purpose: Purpose, pointer: u32 },
    /// It holds the book, with the pointer.
    Holding { purpose: Purpose, pointer: u32 },
    /// It has so many records left to write, the next one at this place.
    Writing { left: u16, next: u32 },
    /// It has so many records left to read, the next one at this place.
    Reading { left: u16, next: u32 },
    /// It has entered an ordered call with this count.
    Gathered { count: u16 },
}

/// A line: its state bytes, which are always those of a line.
///
/// The book belongs to it: hand the same bytes to each call, though they may lie elsewhere. Every call on a line that is
/// not sound with its book is refused with 1; a line that was only opened and called here is sound.
#[derive(Clone, PartialEq, Eq)]
pub struct Line {
    state: [u8; STATE_LENGTH],
}

impl View {
    /// Displacement 0, extent 1 and one block (0, 1): place k lies at byte 8 k. A line opens with it.
    pub const PLAIN: View = View::of_one_block(Block { start: 0, length: 1 });

    /// A view of these blocks as (start, length); none where there are more than eight.
    pub fn new(displacement: u32, extent: u16, blocks: &[(u16, u16)]) -> Option<View> {
        if blocks.len() > MOST_BLOCKS {
            return None;
        }
        let mut view = View { displacement, extent, blocks: blocks.len() as u8, ..View::PLAIN };
        view.block = [Block::default(); MOST_BLOCKS];
        for (block, &(start, length)) in view.block.iter_mut().zip(blocks) {
            *block = Block { start, length };
        }
        Some(view)
    }

    const fn of_one_block(first: Block) -> View {
        let mut block = [Block { start: 0, length: 0 }; MOST_BLOCKS];
        block[0] = first;
        View { displacement: 0, extent: 1, blocks: 1, block }
    }

    /// The body of the call that sets it, 0B.
    pub fn body(&self) -> [u8; 39] {
        let mut body = [0; 39];
        body[..4].copy_from_slice(&self.displacement.to_be_bytes());
        body[4..6].copy_from_slice(&self.extent.to_be_bytes());
        body[6] = self.blocks;
        for (bytes, block) in body[7..].chunks_exact_mut(4).zip(&self.block) {
            bytes[..2].copy_from_slice(&block.start.to_be_bytes());
            bytes[2..].copy_from_slice(&block.length.to_be_bytes());
        }
        body
    }
}

/// The calls. Each answers the refusal with the lowest number that applies, and then changes neither line nor book; 1 to
/// every call on a line that is not sound with this book, and 4 to all but `open` before the line is open.
impl Line {
    /// 01: opens the line, and zeroes the book's first `capacity` bytes. Answers `Open`.
    ///
    /// Refused with 5 where the line is open, 6 where the lanes are not 1 to 128, 7 where the capacity is not 8 to 65,536
    /// or is above the book.
    pub fn open(&mut self, book: &mut [u8], lanes: u8, capacity: u32) -> Answer {
        let [a, b, c, d] = capacity.to_be_bytes();
        self.call(book, kind::OPEN, &[lanes, a, b, c, d])
    }

    /// 02: an idle lane asks for the book. Answers `Holds`, or `Waits` where another lane has the turn.
    ///
    /// Refused with 8 where there is no such lane, 12 where a lane is gathered, 13 where the lane is not idle.
    pub fn want(&mut self, book: &mut [u8], lane: u8, purpose: Purpose) -> Answer {
        self.call(book, kind::WANT, &[lane, purpose as u8])
    }

    /// 03: a lane that was woken takes its wake. Answers `Holds`.
    ///
    /// Refused with 8 where there is no such lane, 14 where it still waits, 13 where it is neither waiting nor woken.
    pub fn receive(&mut self, book: &mut [u8], lane: u8) -> Answer {
        self.call(book, kind::RECEIVE, &[lane])
    }

    /// 04: a holder of purpose `SharedWrite` or `SharedRead` takes `count` places and releases. Answers `Region`; the lane
    /// writes or reads its records then, or is idle where `count` is 0.
    ///
    /// Refused with 8 where there is no such lane, 13 where it is no such holder, 15 where a reader's places end past
    /// 65,536, 16 where a writer's records do not fit the capacity.
    pub fn take(&mut self, book: &mut [u8], lane: u8, count: u16) -> Answer {
        let [a, b] = count.to_be_bytes();
        self.call(book, kind::TAKE, &[lane, a, b])
    }

    /// 05: a writing lane writes its next record; after its last it is idle. Answers `Wrote`.
    ///
    /// Refused with 8 where there is no such lane, 13 where it is not writing.
    pub fn write(&mut self, book: &mut [u8], lane: u8, record: [u8; 8]) -> Answer {
        let mut body = [lane; 9];
        body[1..].copy_from_slice(&record);
        self.call(book, kind::WRITE, &body)
    }

    /// 06: a reading lane reads its next record; after its last it is idle. Answers `Record`, or `None` where the record
    /// ends past the size; either uses one up.
    ///
    /// Refused with 8 where there is no such lane, 13 where it is not reading.
    pub fn read(&mut self, book: &mut [u8], lane: u8) -> Answer {
        self.call(book, kind::READ, &[lane])
    }

    /// 07: a holder of the whole book writes a record at any place. Answers `Wrote`.
    ///
    /// Refused with 8 where there is no such lane, 13 where it is no such holder, 16 where the record does not fit.
    pub fn put(&mut self, book: &mut [u8], lane: u8, place: u32, record: [u8; 8]) -> Answer {
        let mut body = [lane; 13];
        body[1..5].copy_from_slice(&place.to_be_bytes());
        body[5..].copy_from_slice(&record);
        self.call(book, kind::PUT, &body)
    }

    /// 08: a holder of the whole book reads the record of any place. Answers `Record`, or `None` as `read` does.
    ///
    /// Refused with 8 where there is no such lane, 13 where it is no such holder.
    pub fn look(&mut self, book: &mut [u8], lane: u8, place: u32) -> Answer {
        let [a, b, c, d] = place.to_be_bytes();
        self.call(book, kind::LOOK, &[lane, a, b, c, d])
    }

    /// 09: a holder of the whole book releases, and is idle. Answers `Freed`.
    ///
    /// Refused with 8 where there is no such lane, 13 where it is no such holder.
    pub fn free(&mut self, book: &mut [u8], lane: u8) -> Answer {
        self.call(book, kind::FREE, &[lane])
    }

    /// 0A: an idle lane enters an ordered call for `count` places. Answers `Gathered`, or `Ordered` to the last one; then
    /// each lane has its region to write, the places of lower lanes before those of higher ones.
    ///
    /// Refused with 8 where there is no such lane, 11 where a lane is neither idle nor gathered, 13 where this one is
    /// gathered, 16 where the records of all that have entered do not fit the capacity.
    pub fn enter(&mut self, book: &mut [u8], lane: u8, count: u16) -> Answer {
        let [a, b] = count.to_be_bytes();
        self.call(book, kind::ENTER, &[lane, a, b])
    }

    /// 0B: sets the view, with the pointer at 0. Answers `View`.
    ///
    /// Refused with 10 where the view breaks a rule, 11 where a lane is not idle.
    pub fn set_view(&mut self, book: &mut [u8], view: &View) -> Answer {
        self.call(book, kind::VIEW, &view.body())
    }

    /// 0C: moves the pointer. Answers `Seek`.
    ///
    /// Refused with 11 where a lane is not idle, 15 where the pointer would go below 0 or above 65,536.
    pub fn seek(&mut self, book: &mut [u8], whence: Whence, offset: i32) -> Answer {
        let [a, b, c, d] = offset.to_be_bytes();
        self.call(book, kind::SEEK, &[whence as u8, a, b, c, d])
    }

    /// Any call, by its kind and its body as bytes, as in a sheet; bytes past the kind's fields are not looked at.
    ///
    /// Refused with 2 where the kind is not 01 to 0C, 3 where the body is cut short, 9 where a purpose or a whence is
    /// above 2, and else as the calls above.
    pub fn call(&mut self, book: &mut [u8], kind: u8, body: &[u8]) -> Answer {
        let mut answer = [0; ANSWER_LENGTH];
        call_bytes(&mut self.state, book, kind, body, &mut answer);
        Answer::from_bytes(&answer).expect("what the library answers is an answer")
    }
}

impl Line {
    /// The line before it is open.
    pub fn unopened() -> Line {
        let mut state = [0; STATE_LENGTH];
        linked::unopened(&mut state);
        Line { state }
    }

    /// The line of state bytes that were kept; none where there are not exactly `STATE_LENGTH` or they are no line. Whether
    /// it is sound with its book is told by `is_sound`.
    pub fn from_bytes(bytes: &[u8]) -> Option<Line> {
        let state = bytes.try_into().ok()?;
        linked::number(bytes, index::LANES)?;
        Some(Line { state })
    }

    /// The state bytes, to be kept together with the book.
    pub fn as_bytes(&self) -> &[u8; STATE_LENGTH] {
        &self.state
    }

    /// Whether the line keeps all rules of document 01 with a book of this length; if not, every call is refused with 1.
    pub fn is_sound(&self, book_length: usize) -> bool {
        linked::is_sound(&self.state, book_length) == 1
    }

    /// N, the number of lanes; 0 before the line is open.
    pub fn lanes(&self) -> u8 {
        self.number(index::LANES) as u8
    }

    /// The capacity of the book in bytes; 0 before the line is open.
    pub fn capacity(&self) -> u32 {
        self.number(index::CAPACITY)
    }

    /// The end of the furthest record written, in bytes.
    pub fn size(&self) -> u32 {
        self.number(index::SIZE)
    }

    /// The next place that is handed out.
    pub fn pointer(&self) -> u32 {
        self.number(index::POINTER)
    }

    /// The view in force.
    pub fn view(&self) -> View {
        let mut view = View { displacement: self.number(index::DISPLACEMENT), ..View::PLAIN };
        view.extent = self.number(index::EXTENT) as u16;
        view.blocks = self.number(index::BLOCKS) as u8;
        for (block, bytes) in view.block.iter_mut().zip(self.state[BLOCKS_AT..].chunks_exact(4)) {
            block.start = u16::from_be_bytes([bytes[0], bytes[1]]);
            block.length = u16::from_be_bytes([bytes[2], bytes[3]]);
        }
        view
    }

    /// What a lane is doing; none where it is not below `lanes`.
    pub fn lane(&self, lane: u8) -> Option<Phase> {
        linked::lane(&self.state, lane).map(phase_of)
    }

    /// The byte of the book at which a place's record starts in the view, also where that is past the capacity.
    pub fn position(&self, place: u32) -> u64 {
        linked::position(&self.state, place).expect("the state is a line")
    }

    /// A number of the line by its index; all have at most 32 bits.
    fn number(&self, index: u8) -> u32 {
        linked::number(&self.state, index).expect("the state is a line") as u32
    }
}

/// The phase of an entry: phase 1, purpose 1, records 2, place 4, from the highest byte on.
fn phase_of(entry: u64) -> Phase {
    let [phase, purpose, ..] = entry.to_be_bytes();
    let purpose = match purpose {
        0 => Purpose::SharedWrite,
        1 => Purpose::SharedRead,
        _ => Purpose::WholeBook,
    };
    let (records, place) = ((entry >> 32) as u16, entry as u32);
    match phase {
        0 => Phase::Idle,
        1 => Phase::Waiting { purpose },
        2 => Phase::Woken { purpose, pointer: place },
        3 => Phase::Holding { purpose, pointer: place },
        4 => Phase::Writing { left: records, next: place },
        5 => Phase::Reading { left: records, next: place },
        6 => Phase::Gathered { count: records },
        _ => unreachable!("an entry's phase is at most 6"),
    }
}

/// The unopened line.
impl Default for Line {
    fn default() -> Line {
        Line::unopened()
    }
}

/// The numbers of the line, its view, and the lanes that are not idle with what they are doing.
impl fmt::Debug for Line {
    fn fmt(&self, f: &mut fmt::Formatter<'_>) -> fmt::Result {
        f.debug_struct("Line")
            .field("lanes", &self.lanes())
            .field("capacity", &self.capacity())
            .field("size", &self.size())
            .field("pointer", &self.pointer())
            .field("view", &self.view())
            .field("not_idle", &NotIdle(self))
            .finish()
    }
}

/// The lanes of a line that are not idle, for its `Debug`.
struct NotIdle<'a>(&'a Line);

impl fmt::Debug for NotIdle<'_> {
    fn fmt(&self, f: &mut fmt::Formatter<'_>) -> fmt::Result {
        let lanes = (0..self.0.lanes()).filter_map(|lane| Some((lane, self.0.lane(lane)?)));
        f.debug_map().entries(lanes.filter(|(_, phase)| *phase != Phase::Idle)).finish()
    }
}

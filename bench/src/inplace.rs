//! The in-place Rust program: the run of a sheet as document 01 has it, with a mutable line, no
//! test of soundness and no allocation. It leans on what a sound line has: the value of a woken or
//! holding lane is the pointer, so no lane keeps one. Flags and busy lanes are the bits of two
//! words and gathered lanes are counted, so that only a completed ordered call walks over the lanes.
//! A waiting lane keeps the number of releases before its wait, and its row of the lent report grows
//! at the wake. The line and its steps are those of the single calls too (`single/inplace.rs`): what
//! a step tells is printed here, and stored in the bytes of an answer there.

use crate::proved::{Report, LANES};
use crate::text::{least_room, Text};
use crate::tiling::Tiling;
use crate::told::{Printed, Told};
use crate::waiting;

/// The longest sheet that is run; a longer one gets 17. Line numbers have at most five digits then.
pub const MOST_SHEET: usize = 65_536;
const MOST_POINTER: u32 = 65_536;
const MOST_CAPACITY: u32 = 65_536;

#[derive(Clone, Copy, PartialEq)]
enum Purpose {
    Write,
    Read,
    Whole,
}

#[derive(Clone, Copy)]
enum Phase {
    Idle,
    /// `told`: the releases before the answer that told the lane to wait.
    Waiting {
        purpose: Purpose,
        told: u32,
    },
    Woken(Purpose),
    Holding(Purpose),
    Writing {
        left: u16,
        next: u32,
    },
    Reading {
        left: u16,
        next: u32,
    },
    Gathered(u16),
}

/// The line, the lent book and what is told. A bit of `flags` and `busy` is the lane of its number.
pub struct Line<'a, T> {
    lanes: u8,
    capacity: u32,
    size: u32,
    pointer: u32,
    flags: u128,
    busy: u128,
    gathered: u32,
    gathered_total: u32,
    /// The accepted releases of the run.
    releases: u32,
    phase: [Phase; LANES],
    tiling: Tiling,
    book: &'a mut [u8],
    pub told: T,
}

/// A refusal's number.
pub struct Refusal(pub usize);

type Done = Result<(), Refusal>;

fn purpose_of(code: u8) -> Option<Purpose> {
    match code {
        0 => Some(Purpose::Write),
        1 => Some(Purpose::Read),
        2 => Some(Purpose::Whole),
        _ => None,
    }
}

impl<T: Told> Line<'_, T> {
    /// The index of a lane. An unopened line has no lane, so 4 is looked for only where 8 applies.
    #[inline(always)]
    fn lane(&self, lane: u8) -> Result<usize, Refusal> {
        if lane >= self.lanes {
            return Err(Refusal(if self.lanes == 0 { 4 } else { 8 }));
        }
        Ok(lane as usize % LANES)
    }

    /// Whether a run of records from a place fits.
    #[inline(always)]
    fn fits(&self, place: u32, count: u32) -> bool {
        count == 0 || self.tiling.position(place + (count - 1)) + 8 <= self.capacity as u64
    }

    fn open(&mut self, lanes: u8, capacity: u32) -> Done {
        if self.lanes != 0 {
            return Err(Refusal(5));
        }
        if !(1..=LANES).contains(&(lanes as usize)) {
            return Err(Refusal(6));
        }
        if !(8..=MOST_CAPACITY).contains(&capacity) || capacity as usize > self.book.len() {
            return Err(Refusal(7));
        }
        self.book[..capacity as usize].fill(0);
        self.lanes = lanes;
        self.capacity = capacity;
        self.told.open(lanes, capacity);
        Ok(())
    }

    #[inline(always)]
    fn want(&mut self, lane: u8, purpose: u8) -> Done {
        let i = self.lane(lane)?;
        let Some(purpose) = purpose_of(purpose) else { return Err(Refusal(9)) };
        if self.gathered != 0 {
            return Err(Refusal(12));
        }
        let Phase::Idle = self.phase[i] else { return Err(Refusal(13)) };
        // A flag of its own is down, since the lane is idle.
        let alone = self.flags == 0;
        self.flags |= 1 << i;
        if alone {
            self.phase[i] = Phase::Holding(purpose);
            self.told.holds(self.pointer);
        } else {
            self.phase[i] = Phase::Waiting { purpose, told: self.releases };
            self.told.waits();
        }
        Ok(())
    }

    #[inline(always)]
    fn receive(&mut self, lane: u8) -> Done {
        let i = self.lane(lane)?;
        match self.phase[i] {
            Phase::Woken(purpose) => {
                self.phase[i] = Phase::Holding(purpose);
                self.told.holds(self.pointer);
                Ok(())
            }
            Phase::Waiting { .. } => Err(Refusal(14)),
            _ => Err(Refusal(13)),
        }
    }

    /// Lowers a flag and wakes the next lane: the first flagged one above, or else the first. The
    /// release that wakes a lane counts for its wait.
    #[inline(always)]
    fn release(&mut self, i: usize) -> Option<usize> {
        self.releases += 1;
        self.flags &= !(1 << i);
        let above = self.flags & (!0 << i);
        let among = if above != 0 { above } else { self.flags };
        if among == 0 {
            return None;
        }
        let next = among.trailing_zeros() as usize;
        if let Phase::Waiting { purpose, told } = self.phase[next] {
            self.phase[next] = Phase::Woken(purpose);
            self.told.end_wait(next, self.releases - told);
        }
        Some(next)
    }

    #[inline(always)]
    fn take(&mut self, lane: u8, count: u16) -> Done {
        let i = self.lane(lane)?;
        let start = self.pointer;
        let busy = match self.phase[i] {
            Phase::Holding(Purpose::Write) => {
                if !self.fits(start, count as u32) {
                    return Err(Refusal(16));
                }
                Phase::Writing { left: count, next: start }
            }
            Phase::Holding(Purpose::Read) => {
                if start + count as u32 > MOST_POINTER {
                    return Err(Refusal(15));
                }
                Phase::Reading { left: count, next: start }
            }
            _ => return Err(Refusal(13)),
        };
        self.pointer = start + count as u32;
        self.make_busy(i, count, busy);
        let woken = self.release(i);
        self.told.region(start, count as u32, woken);
        Ok(())
    }

    /// A lane with this many records before it: busy, or idle if there is none.
    #[inline(always)]
    fn make_busy(&mut self, i: usize, left: u16, busy: Phase) {
        if left == 0 {
            self.phase[i] = Phase::Idle;
            self.busy &= !(1 << i);
        } else {
            self.phase[i] = busy;
            self.busy |= 1 << i;
        }
    }

    /// Stores a record and grows the size.
    #[inline(always)]
    fn store(&mut self, position: usize, record: &[u8; 8]) {
        self.book[position..position + 8].copy_from_slice(record);
        self.size = self.size.max(position as u32 + 8);
        self.told.wrote(position as u32);
    }

    #[inline(always)]
    fn write(&mut self, lane: u8, record: &[u8; 8]) -> Done {
        let i = self.lane(lane)?;
        let Phase::Writing { left, next } = self.phase[i] else { return Err(Refusal(13)) };
        self.make_busy(i, left - 1, Phase::Writing { left: left - 1, next: next + 1 });
        self.store(self.tiling.position(next) as usize, record);
        Ok(())
    }

    /// The record at a place, or `none` if it ends past the size.
    #[inline(always)]
    fn find(&mut self, place: u32) {
        let position = self.tiling.position(place);
        if position + 8 > self.size as u64 {
            self.told.none();
            return;
        }
        let at = position as usize;
        let record = self.book[at..at + 8].try_into().expect("eight bytes");
        self.told.record(u64::from_be_bytes(record));
    }

    #[inline(always)]
    fn read(&mut self, lane: u8) -> Done {
        let i = self.lane(lane)?;
        let Phase::Reading { left, next } = self.phase[i] else { return Err(Refusal(13)) };
        self.make_busy(i, left - 1, Phase::Reading { left: left - 1, next: next + 1 });
        self.find(next);
        Ok(())
    }

    /// The index of a lane that holds the whole book.
    #[inline(always)]
    fn whole(&self, lane: u8) -> Result<usize, Refusal> {
        let i = self.lane(lane)?;
        match self.phase[i] {
            Phase::Holding(Purpose::Whole) => Ok(i),
            _ => Err(Refusal(13)),
        }
    }

    #[inline(always)]
    fn put(&mut self, lane: u8, place: u32, record: &[u8; 8]) -> Done {
        self.whole(lane)?;
        let position = self.tiling.position(place);
        if position + 8 > self.capacity as u64 {
            return Err(Refusal(16));
        }
        self.store(position as usize, record);
        Ok(())
    }

    #[inline(always)]
    fn look(&mut self, lane: u8, place: u32) -> Done {
        self.whole(lane)?;
        self.find(place);
        Ok(())
    }

    #[inline(always)]
    fn free(&mut self, lane: u8) -> Done {
        let i = self.whole(lane)?;
        self.phase[i] = Phase::Idle;
        let woken = self.release(i);
        self.told.freed(woken);
        Ok(())
    }

    #[inline(always)]
    fn enter(&mut self, lane: u8, count: u16) -> Done {
        let i = self.lane(lane)?;
        if self.flags | self.busy != 0 {
            return Err(Refusal(11));
        }
        let Phase::Idle = self.phase[i] else { return Err(Refusal(13)) };
        let total = self.gathered_total + count as u32;
        if !self.fits(self.pointer, total) {
            return Err(Refusal(16));
        }
        self.phase[i] = Phase::Gathered(count);
        self.gathered += 1;
        self.gathered_total = total;
        if self.gathered == self.lanes as u32 {
            let before = self.pointer;
            self.start_all();
            self.told.ordered(before, total);
        } else {
            self.told.gathered();
        }
        Ok(())
    }

    /// Each gathered lane becomes a writer, from where those below it end.
    fn start_all(&mut self) {
        for i in 0..LANES.min(self.lanes as usize) {
            let Phase::Gathered(count) = self.phase[i] else { unreachable!("all are in") };
            self.make_busy(i, count, Phase::Writing { left: count, next: self.pointer });
            self.pointer += count as u32;
        }
        self.gathered = 0;
        self.gathered_total = 0;
    }

    fn all_idle(&self) -> bool {
        self.flags | self.busy == 0 && self.gathered == 0
    }

    fn view(&mut self, body: &[u8; 39]) -> Done {
        if self.lanes == 0 {
            return Err(Refusal(4));
        }
        let Some(view) = Tiling::read(body, self.capacity) else { return Err(Refusal(10)) };
        if !self.all_idle() {
            return Err(Refusal(11));
        }
        self.tiling.set(&view);
        self.pointer = 0;
        self.told.view();
        Ok(())
    }

    fn seek(&mut self, whence: u8, offset: i32) -> Done {
        if self.lanes == 0 {
            return Err(Refusal(4));
        }
        let from = match whence {
            0 => 0,
            1 => self.pointer,
            2 => self.tiling.end(self.size),
            _ => return Err(Refusal(9)),
        };
        if !self.all_idle() {
            return Err(Refusal(11));
        }
        let to = from as i64 + offset as i64;
        if to < 0 || to > MOST_POINTER as i64 {
            return Err(Refusal(15));
        }
        self.pointer = to as u32;
        self.told.seek(self.pointer);
        Ok(())
    }

    /// The event of a kind whose body starts `rest`: what it tells, and the length of its body. 2 or 3,
    /// which end a run, where there is no such event.
    #[inline(always)]
    pub fn event(&mut self, kind: u8, rest: &[u8]) -> Result<usize, Refusal> {
        // Gives the body of this many bytes to the call; 3 where the sheet ends before.
        macro_rules! with_body {
            ($length:literal, $body:ident => $call:expr) => {{
                let Some($body) = rest.first_chunk::<$length>() else { return Err(Refusal(3)) };
                if let Err(refusal) = $call {
                    self.told.refused(refusal.0);
                }
                Ok($length)
            }};
        }
        match kind {
            0x01 => with_body!(5, b => self.open(b[0], four(b, 1))),
            0x02 => with_body!(2, b => self.want(b[0], b[1])),
            0x03 => with_body!(1, b => self.receive(b[0])),
            0x04 => with_body!(3, b => self.take(b[0], two(b, 1))),
            0x05 => with_body!(9, b => self.write(b[0], eight(b, 1))),
            0x06 => with_body!(1, b => self.read(b[0])),
            0x07 => with_body!(13, b => self.put(b[0], four(b, 1), eight(b, 5))),
            0x08 => with_body!(5, b => self.look(b[0], four(b, 1))),
            0x09 => with_body!(1, b => self.free(b[0])),
            0x0A => with_body!(3, b => self.enter(b[0], two(b, 1))),
            0x0B => with_body!(39, b => self.view(b)),
            0x0C => with_body!(5, b => self.seek(b[0], four(b, 1) as i32)),
            _ => Err(Refusal(2)),
        }
    }
}

impl<'a, T: Copy> Line<'a, T> {
    pub fn book(&self) -> &[u8] {
        self.book
    }

    /// Makes this line like another, over its own book and with what it last told.
    pub fn become_like(&mut self, other: &Line<'a, T>) {
        let (book, told) = (std::mem::take(&mut self.book), self.told);
        *self = Line { book, told, tiling: other.tiling.clone(), ..*other };
    }
}

impl<const PLAIN: bool> Line<'_, Printed<'_, PLAIN>> {
    /// Counts the waits that the run leaves. A waiting lane has its flag up.
    fn leave_waits(&mut self) {
        let mut flagged = self.flags;
        while flagged != 0 {
            let lane = flagged.trailing_zeros() as usize;
            flagged &= flagged - 1;
            if let Phase::Waiting { .. } = self.phase[lane] {
                waiting::leave_wait(self.told.report, lane);
            }
        }
    }
}

/// The fields of a body at an index.
#[inline(always)]
fn two(body: &[u8], at: usize) -> u16 {
    u16::from_be_bytes(body[at..at + 2].try_into().expect("two bytes"))
}

#[inline(always)]
fn four(body: &[u8], at: usize) -> u32 {
    u32::from_be_bytes(body[at..at + 4].try_into().expect("four bytes"))
}

#[inline(always)]
fn eight(body: &[u8], at: usize) -> &[u8; 8] {
    body[at..at + 8].try_into().expect("eight bytes")
}

/// The unopened line over a book.
#[inline(always)]
pub fn unopened<T: Told>(book: &mut [u8], told: T) -> Line<'_, T> {
    Line {
        lanes: 0,
        capacity: 0,
        size: 0,
        pointer: 0,
        flags: 0,
        busy: 0,
        gathered: 0,
        gathered_total: 0,
        releases: 0,
        phase: [Phase::Idle; LANES],
        tiling: Tiling::plain(),
        book,
        told,
    }
}

/// The text of a run that is refused before its first event.
fn refuse_run<const PLAIN: bool>(text: &mut [u8], number: usize) -> usize {
    let mut text = Text::<PLAIN>::new(text);
    text.refused(number);
    text.end(0, 0)
}

#[inline(always)]
fn run_by<const PLAIN: bool>(
    sheet: &[u8],
    book: &mut [u8],
    text: &mut [u8],
    report: &mut Report,
) -> usize {
    if text.len() < least_room(sheet.len()) {
        return usize::MAX;
    }
    if sheet.len() > MOST_SHEET || waiting::is_full(report) {
        return refuse_run::<PLAIN>(text, 17);
    }
    let mut line = unopened(book, Printed::<PLAIN> { text: Text::new(text), report });
    let mut rest = sheet;
    while let [kind, after @ ..] = rest {
        match line.event(*kind, after) {
            Ok(length) => rest = &after[length..],
            Err(refusal) => {
                line.told.refused(refusal.0);
                break;
            }
        }
    }
    line.leave_waits();
    line.told.text.end(line.size, line.pointer)
}

/// Runs a sheet from an unopened line: the printed lines at the start of `text`, and their length;
/// `report` grows. The greatest number for a `text` that may be too short.
/// Up to 15 bytes of `text` past the printed lines may be altered.
pub fn run(sheet: &[u8], book: &mut [u8], text: &mut [u8], report: &mut Report) -> usize {
    run_by::<false>(sheet, book, text, report)
}

/// The same with decimal digits divided out one by one.
pub fn run_with_plain_digits(
    sheet: &[u8],
    book: &mut [u8],
    text: &mut [u8],
    report: &mut Report,
) -> usize {
    run_by::<true>(sheet, book, text, report)
}

//! The workloads: sheets of events, each grown until its length is reached.

use crate::proved::LANES;

/// The lanes of the widest line.
pub const MOST_LANES: u8 = LANES as u8;

/// A sheet that takes whole events only and stops at its length.
pub struct Sheet {
    bytes: Vec<u8>,
    length: usize,
    full: bool,
}

/// A view with this many blocks of four records, and as many records of gap after each.
const BLOCK_RECORDS: u16 = 4;

impl Sheet {
    pub fn new(length: usize) -> Sheet {
        Sheet { bytes: Vec::with_capacity(length), length, full: false }
    }

    /// Adds an event if it still fits; the first one that does not ends the sheet.
    fn add(&mut self, event: &[u8]) {
        self.full |= self.bytes.len() + event.len() > self.length;
        if !self.full {
            self.bytes.extend_from_slice(event);
        }
    }

    pub fn open(&mut self, lanes: u8, capacity: u32) {
        self.add(&[&[0x01, lanes], &capacity.to_be_bytes()[..]].concat());
    }

    pub fn want(&mut self, lane: u8, purpose: u8) {
        self.add(&[0x02, lane, purpose]);
    }

    pub fn receive(&mut self, lane: u8) {
        self.add(&[0x03, lane]);
    }

    pub fn take(&mut self, lane: u8, count: u16) {
        self.add(&[&[0x04, lane], &count.to_be_bytes()[..]].concat());
    }

    pub fn write(&mut self, lane: u8, record: u64) {
        self.add(&[&[0x05, lane], &record.to_be_bytes()[..]].concat());
    }

    pub fn read(&mut self, lane: u8) {
        self.add(&[0x06, lane]);
    }

    pub fn put(&mut self, lane: u8, place: u32, record: u64) {
        self.add(&[&[0x07, lane], &place.to_be_bytes()[..], &record.to_be_bytes()].concat());
    }

    pub fn look(&mut self, lane: u8, place: u32) {
        self.add(&[&[0x08, lane], &place.to_be_bytes()[..]].concat());
    }

    pub fn free(&mut self, lane: u8) {
        self.add(&[0x09, lane]);
    }

    fn enter(&mut self, lane: u8, count: u16) {
        self.add(&[&[0x0A, lane], &count.to_be_bytes()[..]].concat());
    }

    /// A view with blocks of four records and gaps of four.
    fn view(&mut self, blocks: u8) {
        let extent = 2 * BLOCK_RECORDS * blocks as u16;
        let mut event = [&[0x0B, 0, 0, 0, 0], &extent.to_be_bytes()[..], &[blocks]].concat();
        for i in 0..8 {
            let used = i < blocks as u16;
            let (start, length) =
                if used { (2 * BLOCK_RECORDS * i, BLOCK_RECORDS) } else { (0, 0) };
            event.extend_from_slice(&start.to_be_bytes());
            event.extend_from_slice(&length.to_be_bytes());
        }
        self.add(&event);
    }

    fn seek(&mut self, whence: u8, offset: i32) {
        self.add(&[&[0x0C, whence], &offset.to_be_bytes()[..]].concat());
    }

    pub fn bytes(&self) -> &[u8] {
        &self.bytes
    }

    /// The bytes, filled up to the length by a call of two bytes while it fits.
    fn filled(mut self) -> Vec<u8> {
        while self.bytes.len() + 2 <= self.length {
            self.bytes.extend_from_slice(&[0x03, 0]);
        }
        self.bytes
    }
}

/// A record that differs from those before it in all eight bytes, more or less.
pub fn record(number: u64) -> u64 {
    number.wrapping_mul(0x9E37_79B9_7F4A_7C15)
}

/// The rounds of Wish 14: all lanes want (purpose 0), then each in rising number receives, takes 1
/// and writes; lane 0 holds already, so its receive is refused.
fn shared_rounds(sheet: &mut Sheet, lanes: u8) {
    let mut number = 0;
    while !sheet.full {
        for lane in 0..lanes {
            sheet.want(lane, 0);
        }
        for lane in 0..lanes {
            sheet.receive(lane);
            sheet.take(lane, 1);
            sheet.write(lane, record(number));
            number += 1;
        }
    }
}

/// (a) The sheet of Wish 14, for a line of so many lanes.
pub fn shared_writes(length: usize, lanes: u8) -> Vec<u8> {
    let mut sheet = Sheet::new(length);
    sheet.open(lanes, 65_536);
    shared_rounds(&mut sheet, lanes);
    sheet.filled()
}

/// The same through a view with this many blocks.
pub fn shared_writes_in_view(length: usize, lanes: u8, blocks: u8) -> Vec<u8> {
    let mut sheet = Sheet::new(length);
    sheet.open(lanes, 65_536);
    sheet.view(blocks);
    shared_rounds(&mut sheet, lanes);
    sheet.filled()
}

/// Two lanes of the widest line, so many apart, want and write by turns: a release has that far to
/// search.
pub fn distant_writes(length: usize, distance: u8) -> Vec<u8> {
    let mut sheet = Sheet::new(length);
    let mut number = 0;
    sheet.open(MOST_LANES, 65_536);
    while !sheet.full {
        sheet.want(0, 0);
        sheet.want(distance, 0);
        for lane in [0, distance] {
            sheet.receive(lane);
            sheet.take(lane, 1);
            sheet.write(lane, record(number));
            number += 1;
        }
    }
    sheet.filled()
}

/// (b) 8 records a lane are written; then over and over all lanes want to read, each takes 8 and
/// reads them, and the pointer goes back to 0.
pub fn reads(length: usize, lanes: u8) -> Vec<u8> {
    let mut sheet = Sheet::new(length);
    sheet.open(lanes, 65_536);
    sheet.want(0, 0);
    sheet.take(0, 8 * lanes as u16);
    for number in 0..8 * lanes as u64 {
        sheet.write(0, record(number));
    }
    while !sheet.full {
        sheet.seek(0, 0);
        for lane in 0..lanes {
            sheet.want(lane, 1);
        }
        for lane in 0..lanes {
            sheet.receive(lane);
            sheet.take(lane, 8);
            for _ in 0..8 {
                sheet.read(lane);
            }
        }
    }
    sheet.filled()
}

/// (c) All lanes want the whole book; each puts four records at scattered places, looks at four
/// and frees it.
pub fn whole_book(length: usize, lanes: u8) -> Vec<u8> {
    let mut sheet = Sheet::new(length);
    let mut number: u64 = 0;
    sheet.open(lanes, 65_536);
    while !sheet.full {
        for lane in 0..lanes {
            sheet.want(lane, 2);
        }
        for lane in 0..lanes {
            sheet.receive(lane);
            for _ in 0..4 {
                number += 1;
                let place = (number * 2_011 % 8_192) as u32;
                sheet.put(lane, place, record(number));
                sheet.look(lane, place / 2);
            }
            sheet.free(lane);
        }
    }
    sheet.filled()
}

/// (d) All lanes enter an ordered call with 1 record each, the last lane first, and write it.
pub fn ordered_calls(length: usize, lanes: u8) -> Vec<u8> {
    let mut sheet = Sheet::new(length);
    let mut number = 0;
    sheet.open(lanes, 65_536);
    while !sheet.full {
        for lane in (0..lanes).rev() {
            sheet.enter(lane, 1);
        }
        for lane in 0..lanes {
            sheet.write(lane, record(number));
            number += 1;
        }
    }
    sheet.filled()
}

/// (e) Of three lanes one holds and one waits; 81 of the 90 calls of a round are refused, for every
/// reason from 5 to 16 but 6 and 7, which come once, as 4 does. 75 of them name a lane, 6 are on the
/// whole line.
pub fn refusals(length: usize) -> Vec<u8> {
    let mut sheet = Sheet::new(length);
    sheet.want(0, 0); // 4
    sheet.open(MOST_LANES + 1, 64); // 6
    sheet.open(3, 7); // 7
    sheet.open(3, 65_536);
    while !sheet.full {
        sheet.want(0, 0);
        sheet.want(1, 2);
        for lane in 0..8 {
            refused_lane_calls(&mut sheet, lane);
        }
        refused_line_calls(&mut sheet);
        sheet.take(0, 0);
        sheet.receive(1);
        sheet.put(1, u32::MAX, 0); // 16
        sheet.free(1);
        sheet.seek(0, -1); // 15
        sheet.enter(0, 1);
        sheet.want(1, 0); // 12
        sheet.enter(1, 0);
        sheet.enter(2, 0);
        sheet.write(0, 7);
    }
    sheet.filled()
}

/// Calls of single lanes while lane 0 holds for a shared write, lane 1 waits and lane 2 is idle.
fn refused_lane_calls(sheet: &mut Sheet, number: u8) {
    sheet.receive(1); // 14
    sheet.want(3 + number, 0); // 8
    sheet.want(2, 3); // 9
    sheet.take(2, 1); // 13
    sheet.receive(2); // 13
    sheet.read(2); // 13
    sheet.free(0); // 13
    sheet.look(1, 5); // 13
    sheet.take(0, 65_535); // 16
}

/// Calls that concern the whole line, in the same state.
fn refused_line_calls(sheet: &mut Sheet) {
    sheet.open(2, 64); // 5
    sheet.enter(2, 1); // 11
    sheet.seek(0, 5); // 11
    sheet.seek(3, 5); // 9
    sheet.view(9); // 10
    sheet.view(1); // 11
}

/// Seeks with rising offsets, over and over, to the sheet's end.
fn rising_seeks(mut sheet: Sheet, whence: u8, offsets: i32) -> Vec<u8> {
    for number in 0.. {
        sheet.seek(whence, number % offsets);
        if sheet.full {
            break;
        }
    }
    sheet.filled()
}

/// Seeks that are accepted, to rising places.
pub fn seeks(length: usize, lanes: u8) -> Vec<u8> {
    let mut sheet = Sheet::new(length);
    sheet.open(lanes, 65_536);
    rising_seeks(sheet, 0, 65_537)
}

/// Seeks that are accepted, from the end of a full book through eight blocks.
pub fn seeks_to_the_end(length: usize, lanes: u8) -> Vec<u8> {
    let mut sheet = Sheet::new(length);
    sheet.open(lanes, 65_536);
    sheet.want(0, 2);
    sheet.put(0, 8_191, record(0));
    sheet.free(0);
    sheet.view(8);
    rising_seeks(sheet, 2, 1_024)
}

/// Changes of view that are accepted, with one block and with eight by turns.
pub fn views(length: usize, lanes: u8) -> Vec<u8> {
    let mut sheet = Sheet::new(length);
    sheet.open(lanes, 65_536);
    while !sheet.full {
        sheet.view(1);
        sheet.view(8);
    }
    sheet.filled()
}

/// Each workload at this length on a line of so many lanes, with its name; refusals have three.
pub fn workloads(length: usize, lanes: u8) -> Vec<(&'static str, Vec<u8>)> {
    vec![
        ("shared writes", shared_writes(length, lanes)),
        ("reads", reads(length, lanes)),
        ("whole book", whole_book(length, lanes)),
        ("ordered calls", ordered_calls(length, lanes)),
        ("refusals", refusals(length)),
        ("seeks", seeks(length, lanes)),
        ("seeks to the end", seeks_to_the_end(length, lanes)),
        ("views", views(length, lanes)),
    ]
}

//! Candidates: events made with a look at the state, to hit a wanted refusal.

use super::plain;
use super::walk::*;
use crate::cover::CAN_REFUSE;
use crate::event::{Blocks, Event};
use crate::line::*;
use crate::refuse::{call_refusals, seek_target};

const TRIES: usize = 24;

impl Walk<'_> {
    /// An event that is to be refused with a number drawn from the table, if one is found.
    pub fn refused_event(&mut self) -> bool {
        let (kind, number) = self.random.pick(CAN_REFUSE);
        if number <= 3 {
            return false; // these would end the run
        }
        for _ in 0..TRIES {
            let event = self.candidate(kind);
            let reasons = call_refusals(self.line(), self.machine.book.len(), &event);
            if reasons.first() == Some(&number) {
                return self.emit(event).is_some();
            }
        }
        false
    }

    /// Whatever the state makes of it.
    pub fn any_event(&mut self) -> bool {
        let kind = self.random.between(0x01, 0x0C) as u8;
        let event = self.candidate(kind);
        let drawn_out = match event {
            Event::Take { count, .. } | Event::Enter { count, .. } => count > 40,
            _ => false,
        };
        if drawn_out && !self.late() {
            return false; // would keep a lane busy for the rest of the walk
        }
        self.emit(event).is_some()
    }

    /// A lane, mostly one whose phase suits the kind.
    fn lane_for(&mut self, kind: u8) -> u8 {
        let suits: fn(&Phase) -> bool = match kind {
            0x02 | 0x0A => is_idle,
            0x03 if self.random.one_in(2) => is_waiting,
            0x03 => is_woken,
            0x04 => is_sharing,
            0x05 => is_writer,
            0x06 => is_reader,
            _ => has_book,
        };
        if !self.random.one_in(3) {
            if let Some(lane) = self.lane_with(suits) {
                return lane;
            }
        }
        let lanes = self.line().lanes as u64;
        match self.random.below(4) {
            0 if self.random.one_in(2) => self.random.pick(&[lanes as u8, lanes as u8 + 1]),
            0 => self.random.pick(&plain::EDGE_LANES),
            _ => self.random.below(lanes) as u8,
        }
    }

    /// Counts at the edges of what fits and of what the pointer can be.
    fn edge_count(&mut self) -> u16 {
        let pointer = self.line().pointer;
        let gathered = self.line().gathered_total() as u32;
        let room = self.room(pointer).saturating_sub(gathered);
        let count = match self.random.below(7) {
            0 => room,
            1 => room + 1,
            2 => MOST_POINTER - pointer,
            3 => MOST_POINTER - pointer + 1,
            4 => self.random.pick(&[65_535, 8_192, 256]),
            _ => self.random.below(5) as u32,
        };
        count.min(65_535) as u16
    }

    fn edge_place(&mut self) -> u32 {
        let room = self.room(0);
        match self.random.below(4) {
            0 => self.random.pick(&[room, room + 1, room.saturating_sub(1)]),
            1 => self.random.pick(&[65_536, 1 << 20, 0x1FFF_FFFF, 0x2000_0000, u32::MAX]),
            _ => self.near_place(),
        }
    }

    fn edge_purpose(&mut self) -> u8 {
        match self.random.below(3) {
            0 => self.random.pick(&[3, 4, 255]),
            _ => self.random.below(3) as u8,
        }
    }

    /// A seek to, or one past, an end of the pointer's range, or near by.
    pub fn edge_seek(&mut self, whence: u8) -> Event {
        let base = seek_target(self.line(), whence, 0).unwrap_or(0) as i32;
        let offset = match self.random.below(8) {
            0 => -base,
            1 => -base - 1,
            2 => 65_536 - base,
            3 => 65_537 - base,
            4 => plain::some_offset(self.random),
            _ => self.random.below(10) as i32 - base.min(5),
        };
        Event::Seek { whence, offset }
    }

    /// A view that keeps the rules: gaps, touching blocks, odd displacements, or the plain view.
    pub fn good_view(&mut self) -> Event {
        if self.random.one_in(6) {
            let View { displacement, extent, blocks, list } = View::plain();
            return Event::View { displacement, extent, blocks, list };
        }
        let wide = self.random.one_in(6);
        let blocks = if self.random.one_in(8) { 8 } else { self.random.between(1, 4) as u8 };
        let mut list: Blocks = [(0, 0); 8];
        let mut at = 0u16;
        for block in list.iter_mut().take(blocks as usize) {
            let most = if wide { 60 } else { 3 };
            let start = at + self.random.pick(&[0, 0, 1, most]);
            let length = self.random.between(1, u64::from(most)) as u16;
            *block = (start, length);
            at = start + length;
        }
        let extent = match self.random.below(12) {
            0 => MOST_EXTENT,
            1..=5 => at,
            _ => (at + self.random.below(4) as u16).min(MOST_EXTENT),
        };
        Event::View { displacement: self.good_displacement(), extent, blocks, list }
    }

    /// About 0, the size and the capacity, or anywhere.
    fn good_displacement(&mut self) -> u32 {
        let (capacity, size) = (self.line().capacity, self.line().size);
        match self.random.below(12) {
            0 => capacity,
            1 => capacity - 8,
            2 => capacity - 7,
            3 => self.random.below(u64::from(capacity) + 1) as u32,
            4 => size,
            5 => (size + self.random.pick(&[1, 7, 8])).min(capacity),
            6 => size.saturating_sub(self.random.pick(&[1, 7, 8, 9, 17])),
            7..=9 => 0,
            _ => self.random.below(9) as u32,
        }
    }

    /// A view with one rule broken.
    pub fn bad_view(&mut self) -> Event {
        let Event::View { mut displacement, mut extent, mut blocks, mut list } = self.good_view()
        else {
            unreachable!("a view")
        };
        let last = blocks as usize - 1;
        match self.random.below(11) {
            0 => displacement = self.line().capacity + 1,
            1 => displacement = self.random.pick(&[u32::MAX, 0x8000_0000, 65_537]),
            2 => extent = self.random.pick(&[0, 1_025, 65_535]),
            3 => extent = list[last].0 + list[last].1 - 1,
            4 => blocks = self.random.pick(&[0, 9, 255]),
            5 => list[last].1 = 0,
            6 => list[last] = (65_535, 65_535),
            7 if last > 0 => list[last].0 = list[last - 1].0 + list[last - 1].1 - 1,
            8 if last > 0 => list[last - 1].1 += extent,
            9 if last < 7 => list[7].0 = 1,
            _ if last < 7 => list[last + 1].1 = 1,
            _ => extent = 0,
        }
        Event::View { displacement, extent, blocks, list }
    }

    /// An event of the kind, near the edges of the present state.
    pub fn candidate(&mut self, kind: u8) -> Event {
        let lane = self.lane_for(kind);
        match kind {
            0x02 => Event::Want { lane, purpose: self.edge_purpose() },
            0x03 => Event::Receive { lane },
            0x04 => Event::Take { lane, count: self.edge_count() },
            0x05 => Event::Write { lane, record: self.random.record() },
            0x06 => Event::Read { lane },
            0x07 => Event::Put { lane, place: self.edge_place(), record: self.random.record() },
            0x08 => Event::Look { lane, place: self.edge_place() },
            0x09 => Event::Free { lane },
            0x0A => Event::Enter { lane, count: self.edge_count() },
            0x0B if self.random.one_in(2) => self.bad_view(),
            0x0B => self.good_view(),
            0x0C => {
                let whence = self.edge_purpose();
                self.edge_seek(whence)
            }
            _ => plain::random_event(self.random, 0x01),
        }
    }
}

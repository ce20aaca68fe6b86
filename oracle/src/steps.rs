//! What an accepted event does to the line and the book.

use crate::answer::Answer;
use crate::event::{Event, Record};
use crate::line::*;
use crate::refuse::{refusals, seek_target};
use std::ops::DerefMut;

impl<B: DerefMut<Target = [u8]>> Machine<B> {
    /// One call: the lowest refusal that applies, or the event's steps.
    pub fn call(&mut self, event: &Event) -> Answer {
        let reasons = refusals(self, event);
        if let Some(&lowest) = reasons.iter().min() {
            return Answer::Refused { number: u64::from(lowest) };
        }
        self.accept(event)
    }

    /// The steps of an event that no reason refuses.
    pub fn accept(&mut self, event: &Event) -> Answer {
        match *event {
            Event::Open { lanes, capacity } => self.open(lanes as usize, capacity),
            Event::Want { lane, purpose } => self.want(lane as usize, purpose),
            Event::Receive { lane } => self.receive(lane as usize),
            Event::Take { lane, count } => self.take(lane as usize, u32::from(count)),
            Event::Write { lane, record } => self.write(lane as usize, record),
            Event::Read { lane } => self.read(lane as usize),
            Event::Put { place, record, .. } => self.put_record(u64::from(place), record),
            Event::Look { place, .. } => self.get_record(u64::from(place)),
            Event::Free { lane } => Answer::Freed { wakes: self.release(lane as usize) },
            Event::Enter { lane, count } => self.enter(lane as usize, count),
            Event::View { displacement, extent, blocks, list } => {
                self.line.view = View { displacement, extent, blocks, list };
                self.line.pointer = 0;
                Answer::View
            }
            Event::Seek { whence, offset } => self.seek(whence, offset),
        }
    }

    fn open(&mut self, lanes: usize, capacity: u32) -> Answer {
        self.line = Line { lanes, capacity, ..Line::unopened() };
        self.book[..capacity as usize].fill(0);
        Answer::Open { lanes: lanes as u64, capacity: u64::from(capacity) }
    }

    /// Raises the flag and reads the others.
    fn want(&mut self, lane: usize, purpose: u8) -> Answer {
        let purpose = Purpose::of(purpose).expect("refusal 9 keeps others out");
        let line = &mut self.line;
        line.flags[lane] = 1;
        let others_down = (0..line.lanes).all(|other| other == lane || line.flags[other] == 0);
        if others_down {
            line.phases[lane] = Phase::Holding { purpose, value: line.pointer };
            Answer::Holds { pointer: u64::from(line.pointer) }
        } else {
            line.phases[lane] = Phase::Waiting { purpose };
            Answer::Waits
        }
    }

    /// The woken lane holds, with the value that its wake carried.
    fn receive(&mut self, lane: usize) -> Answer {
        let Phase::Woken { purpose, value } = self.line.phases[lane] else {
            unreachable!("13 and 14 keep others out")
        };
        self.line.phases[lane] = Phase::Holding { purpose, value };
        Answer::Holds { pointer: u64::from(value) }
    }

    fn take(&mut self, lane: usize, count: u32) -> Answer {
        let Phase::Holding { purpose, value } = self.line.phases[lane] else {
            unreachable!("13 keeps others out")
        };
        self.line.pointer = value + count;
        let wakes = self.release(lane);
        if count > 0 {
            let writing = purpose == Purpose::SharedWrite;
            self.line.phases[lane] = Phase::Busy { writing, next: value, left: count };
        }
        Answer::Region { start: u64::from(value), count: u64::from(count), wakes }
    }

    /// Drops the flag, then wakes the next lane with the pointer. The releaser is idle.
    fn release(&mut self, lane: usize) -> Option<u64> {
        self.line.flags[lane] = 0;
        self.line.phases[lane] = Phase::Idle;
        let next = self.next_lane(lane)?;
        let Phase::Waiting { purpose } = self.line.phases[next] else {
            unreachable!("on a sound line all other flagged lanes wait")
        };
        self.line.phases[next] = Phase::Woken { purpose, value: self.line.pointer };
        Some(next as u64)
    }

    /// The first flagged lane after the releaser, upwards, then from 0.
    fn next_lane(&self, releaser: usize) -> Option<usize> {
        let lanes = self.line.lanes;
        let first = match self.search {
            Search::AfterReleaser => releaser + 1,
            Search::FromLaneZero => 0,
        };
        (0..lanes).map(|step| (first + step) % lanes).find(|&lane| self.line.flags[lane] == 1)
    }

    fn write(&mut self, lane: usize, record: Record) -> Answer {
        let place = self.use_one_up(lane);
        self.put_record(place, record)
    }

    fn read(&mut self, lane: usize) -> Answer {
        let place = self.use_one_up(lane);
        self.get_record(place)
    }

    /// A busy lane's next place, now used up; after its last it is idle.
    fn use_one_up(&mut self, lane: usize) -> u64 {
        let Phase::Busy { writing, next, left } = self.line.phases[lane] else {
            unreachable!("13 keeps others out")
        };
        self.line.phases[lane] = if left == 1 {
            Phase::Idle
        } else {
            Phase::Busy { writing, next: next + 1, left: left - 1 }
        };
        u64::from(next)
    }

    fn put_record(&mut self, place: u64, record: Record) -> Answer {
        let position = self.line.view.position(place);
        let end = position + RECORD_BYTES;
        self.book[position as usize..end as usize].copy_from_slice(&record);
        self.line.size = self.line.size.max(end as u32);
        Answer::Wrote { position }
    }

    /// The record, or none if it ends past the size.
    fn get_record(&self, place: u64) -> Answer {
        let position = self.line.view.position(place);
        let end = position + RECORD_BYTES;
        if end > u64::from(self.line.size) {
            return Answer::None;
        }
        let mut record = [0; 8];
        record.copy_from_slice(&self.book[position as usize..end as usize]);
        Answer::Record { record }
    }

    fn enter(&mut self, lane: usize, count: u16) -> Answer {
        self.line.phases[lane] = Phase::Gathered { count };
        let all_in = self.line.live().iter().all(|phase| matches!(phase, Phase::Gathered { .. }));
        if !all_in {
            return Answer::Gathered;
        }
        let before = self.line.pointer;
        let mut next = before;
        for lane in 0..self.line.lanes {
            let Phase::Gathered { count } = self.line.phases[lane] else { unreachable!("all in") };
            let left = u32::from(count);
            self.line.phases[lane] =
                if left == 0 { Phase::Idle } else { Phase::Busy { writing: true, next, left } };
            next += left;
        }
        self.line.pointer = next;
        Answer::Ordered { before: u64::from(before), total: u64::from(next - before) }
    }

    fn seek(&mut self, whence: u8, offset: i32) -> Answer {
        let target = seek_target(&self.line, whence, offset).expect("9 keeps others out");
        self.line.pointer = u32::try_from(target).expect("15 keeps others out");
        Answer::Seek { pointer: u64::from(self.line.pointer) }
    }
}

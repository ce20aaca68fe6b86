//! Walks: sheets made while the oracle's own state machine runs along.

use super::plain;
use crate::answer::Answer;
use crate::event::Event;
use crate::line::*;
use crate::random::Random;

/// A sheet in the making, and the state it leads to.
pub struct Walk<'a> {
    pub random: &'a mut Random,
    pub machine: Machine,
    pub bytes: Vec<u8>,
    pub limit: usize,
    /// An event did not fit below the limit: the walk is over.
    pub over: bool,
    /// Purposes that the lanes ask for in this segment.
    pub purposes: Vec<u8>,
}

impl<'a> Walk<'a> {
    pub fn new(random: &'a mut Random, limit: usize) -> Walk<'a> {
        let machine = Machine::new(Search::AfterReleaser);
        Walk { random, machine, bytes: Vec::new(), limit, over: false, purposes: vec![0] }
    }

    /// A walk from this line on, over this book.
    pub fn from(random: &'a mut Random, line: Line, book: Vec<u8>, limit: usize) -> Walk<'a> {
        let machine = Machine { line, book, search: Search::AfterReleaser };
        Walk { random, machine, bytes: Vec::new(), limit, over: false, purposes: vec![0] }
    }

    /// Opens a line, now and then after refused events.
    pub fn start(random: &'a mut Random, limit: usize) -> Walk<'a> {
        let mut walk = Walk::new(random, limit);
        if walk.random.one_in(10) {
            let kind = walk.random.between(0x02, 0x0C) as u8;
            let event = plain::random_event(walk.random, kind);
            walk.emit(event);
        }
        if walk.random.one_in(10) {
            let event = plain::refused_open(walk.random);
            walk.emit(event);
        }
        let event = plain::good_open(walk.random);
        walk.emit(event);
        walk
    }

    /// A whole walk of at most `limit` bytes.
    pub fn whole(random: &'a mut Random, limit: usize) -> Vec<u8> {
        let mut walk = Walk::start(random, limit);
        walk.go_on();
        walk.bytes
    }

    pub fn line(&self) -> &Line {
        &self.machine.line
    }

    /// Adds an event and runs it; past the limit the walk is over instead.
    pub fn emit(&mut self, event: Event) -> Option<Answer> {
        let bytes = event.to_bytes();
        if self.over || self.bytes.len() + bytes.len() > self.limit {
            self.over = true;
            return None;
        }
        self.bytes.extend(bytes);
        Some(self.machine.call(&event))
    }

    /// Some lane below N whose phase is as wanted.
    pub fn lane_with(&mut self, wanted: fn(&Phase) -> bool) -> Option<u8> {
        let lanes = self.lanes_with(wanted);
        if lanes.is_empty() {
            return None;
        }
        Some(self.random.pick(&lanes))
    }

    pub fn lanes_with(&self, wanted: fn(&Phase) -> bool) -> Vec<u8> {
        let live = self.line().live().iter().enumerate();
        live.filter(|(_, phase)| wanted(phase)).map(|(lane, _)| lane as u8).collect()
    }

    /// How many records fit from a place, at most 65,535.
    pub fn room(&self, place: u32) -> u32 {
        self.line().room(place)
    }

    // ---- single acts; each says whether there was something to do ----

    /// An idle lane raises its flag.
    pub fn act_want(&mut self) -> bool {
        if !self.lanes_with(is_gathered).is_empty() {
            return false;
        }
        let Some(lane) = self.lane_with(is_idle) else { return false };
        let purpose = self.random.pick(&self.purposes.clone());
        self.emit(Event::Want { lane, purpose }).is_some()
    }

    /// The woken lane receives.
    pub fn act_receive(&mut self) -> bool {
        let Some(lane) = self.lane_with(is_woken) else { return false };
        self.emit(Event::Receive { lane }).is_some()
    }

    /// The holder takes or frees.
    pub fn act_release(&mut self) -> bool {
        let Some(lane) = self.lane_with(is_holding) else { return false };
        let Phase::Holding { purpose, value } = self.line().phases[lane as usize] else {
            return false;
        };
        let event = match purpose {
            Purpose::WholeBook => Event::Free { lane },
            _ => Event::Take { lane, count: self.good_count(purpose, value) },
        };
        self.emit(event).is_some()
    }

    /// A count that the take is given, mostly small: large ones keep a lane busy long.
    fn good_count(&mut self, purpose: Purpose, value: u32) -> u16 {
        let room = match purpose {
            Purpose::SharedWrite => self.room(value),
            _ => (MOST_POINTER - value).min(65_535),
        };
        let late = self.late();
        let count = match self.random.below(200) {
            0 if late || room <= 100 => room,
            1 if late => self.random.between(0, u64::from(room)) as u32,
            2..=40 => 0,
            41..=60 if room <= 20 => room,
            _ => self.random.between(1, 4) as u32,
        };
        count.min(room) as u16
    }

    /// The last fifth of the walk, where a lane may stay busy to the end.
    pub fn late(&self) -> bool {
        self.bytes.len() * 5 > self.limit * 4
    }

    /// A busy lane writes or reads one record.
    pub fn act_work(&mut self) -> bool {
        let Some(lane) = self.lane_with(is_busy) else { return false };
        self.work(lane)
    }

    pub fn work(&mut self, lane: u8) -> bool {
        let Phase::Busy { writing, .. } = self.line().phases[lane as usize] else { return false };
        let record = self.random.record();
        let event = if writing { Event::Write { lane, record } } else { Event::Read { lane } };
        self.emit(event).is_some()
    }

    /// The holder of the whole book puts or looks.
    pub fn act_book(&mut self) -> bool {
        let Some(lane) = self.lane_with(has_book) else { return false };
        let place = self.near_place();
        let event = if self.random.one_in(2) && self.line().fits(u64::from(place), 1) {
            Event::Put { lane, place, record: self.random.record() }
        } else {
            Event::Look { lane, place }
        };
        self.emit(event).is_some()
    }

    /// A place in the book or a little past its end.
    pub fn near_place(&mut self) -> u32 {
        let room = self.room(0);
        match self.random.below(4) {
            0 => room.saturating_sub(1),
            1 => self.random.below(u64::from(room) + 3) as u32,
            _ => self.random.below(u64::from(room.min(12)) + 1) as u32,
        }
    }
}

pub fn is_idle(phase: &Phase) -> bool {
    *phase == Phase::Idle
}

pub fn is_waiting(phase: &Phase) -> bool {
    matches!(phase, Phase::Waiting { .. })
}

pub fn is_woken(phase: &Phase) -> bool {
    matches!(phase, Phase::Woken { .. })
}

pub fn is_holding(phase: &Phase) -> bool {
    matches!(phase, Phase::Holding { .. })
}

pub fn is_sharing(phase: &Phase) -> bool {
    matches!(phase, Phase::Holding { purpose: Purpose::SharedWrite | Purpose::SharedRead, .. })
}

pub fn has_book(phase: &Phase) -> bool {
    matches!(phase, Phase::Holding { purpose: Purpose::WholeBook, .. })
}

pub fn is_busy(phase: &Phase) -> bool {
    matches!(phase, Phase::Busy { .. })
}

pub fn is_writer(phase: &Phase) -> bool {
    matches!(phase, Phase::Busy { writing: true, .. })
}

pub fn is_reader(phase: &Phase) -> bool {
    matches!(phase, Phase::Busy { writing: false, .. })
}

pub fn is_gathered(phase: &Phase) -> bool {
    matches!(phase, Phase::Gathered { .. })
}

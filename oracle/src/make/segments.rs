//! Segments: stretches of a walk that aim at one part of document 01.

use super::walk::*;
use crate::event::Event;
use crate::line::Phase;

impl Walk<'_> {
    /// Segments until the limit is reached, with refused events in between.
    pub fn go_on(&mut self) {
        let mut rounds = 0;
        while !self.over && self.line().is_open() && rounds < 20_000 {
            rounds += 1;
            match self.random.below(9) {
                0 | 1 => self.any_order(),
                2 => self.turns(),
                3 => self.whole_book(),
                4 => self.ordered(),
                5 => self.new_view(),
                6 => self.reading(),
                7 => self.appending(),
                _ => self.any_events(),
            }
        }
    }

    /// Refused events, one time in `n`.
    pub fn maybe_refused(&mut self, n: u64) {
        if self.random.one_in(n) {
            self.refused_event();
        }
    }

    fn any_events(&mut self) {
        for _ in 0..self.random.between(1, 12) {
            self.any_event();
        }
    }

    /// Wants, receives, releases and records in any order.
    fn any_order(&mut self) {
        self.purposes =
            self.random.pick(&[&[0u8][..], &[0, 1], &[0, 1, 2], &[1], &[0, 0, 0, 2]]).to_vec();
        let eager = self.random.between(1, 6);
        for _ in 0..self.random.between(5, 120) {
            if self.over {
                return;
            }
            let done = match self.random.below(eager + 6) {
                0 | 1 => self.act_receive(),
                2 | 3 => self.act_release(),
                4 => self.act_work(),
                5 => self.act_book(),
                _ => self.act_want(),
            };
            if !done {
                let _ = self.act_receive() || self.act_release() || self.act_work();
            }
            self.maybe_refused(9);
        }
    }

    /// All lanes want at once, and again as soon as they are idle: the longest waits.
    fn turns(&mut self) {
        self.purposes = self.random.pick(&[&[0u8][..], &[1], &[2], &[0, 1, 2]]).to_vec();
        let rounds = self.line().lanes as u64 * self.random.between(1, 3);
        for _ in 0..rounds {
            while !self.over && self.act_want() {}
            self.act_receive();
            self.maybe_refused(12);
            self.act_release();
            if self.random.one_in(2) {
                self.act_work();
            }
            if self.over {
                return;
            }
        }
    }

    /// Whole-book work, with others waiting beside it.
    fn whole_book(&mut self) {
        self.purposes = self.random.pick(&[&[2u8][..], &[2, 2, 0], &[2, 1, 0]]).to_vec();
        for _ in 0..self.random.between(1, 6) {
            self.act_want();
            self.act_receive();
            for _ in 0..self.random.below(8) {
                self.act_book();
                self.maybe_refused(6);
            }
            if self.random.one_in(3) {
                self.act_want();
                self.act_work();
            }
            self.act_release();
        }
    }

    /// Lets all lanes become idle; gives up when a lane has too much left.
    pub fn drain(&mut self) -> bool {
        for _ in 0..3_000 {
            if self.over {
                return false;
            }
            if self.line().live().iter().all(is_idle) {
                return true;
            }
            if self.lane_with(is_gathered).is_some() {
                let Some(lane) = self.lane_with(is_idle) else { return false };
                self.emit(Event::Enter { lane, count: 0 });
            } else if !self.drain_step() {
                return false;
            }
            self.maybe_refused(40);
        }
        false
    }

    fn drain_step(&mut self) -> bool {
        if self.act_receive() {
            return true;
        }
        if let Some(lane) = self.lane_with(is_sharing) {
            return self.emit(Event::Take { lane, count: 0 }).is_some();
        }
        if let Some(lane) = self.lane_with(has_book) {
            return self.emit(Event::Free { lane }).is_some();
        }
        let short = |phase: &Phase| matches!(phase, Phase::Busy { left, .. } if *left <= 300);
        match self.lane_with(short) {
            Some(lane) => self.work(lane),
            None => false,
        }
    }

    /// An ordered call, its lanes in any order, then its records or some of them.
    fn ordered(&mut self) {
        if !self.drain() {
            return;
        }
        if self.room(self.line().pointer) == 0 || self.random.one_in(3) {
            let offset = self.random.below(3) as i32;
            self.emit(Event::Seek { whence: 0, offset });
        }
        let mut lanes: Vec<u8> = (0..self.line().lanes as u8).collect();
        self.random.shuffle(&mut lanes);
        let stop = if self.random.one_in(8) { lanes.len() / 2 } else { lanes.len() };
        for &lane in &lanes[..stop] {
            self.maybe_refused(3);
            let count = self.ordered_count();
            self.emit(Event::Enter { lane, count });
        }
        if self.random.one_in(3) {
            self.purposes = vec![0, 1, 2];
            self.act_want();
        }
        for _ in 0..self.random.below(3 * lanes.len() as u64 + 1) {
            self.act_work();
            self.maybe_refused(12);
        }
    }

    /// A small count that still fits with those gathered so far.
    fn ordered_count(&mut self) -> u16 {
        let gathered = self.line().gathered_total() as u32;
        let room = self.room(self.line().pointer).saturating_sub(gathered);
        let count = match self.random.below(10) {
            0 if room <= 30 => room,
            0..=3 => 0,
            _ => self.random.between(1, 3) as u32,
        };
        count.min(room) as u16
    }

    /// A change of view, a seek or two, and a little work with it.
    fn new_view(&mut self) {
        if !self.drain() {
            return;
        }
        self.maybe_refused(2);
        let event = self.good_view();
        self.emit(event);
        for _ in 0..self.random.below(4) {
            self.any_seek();
        }
        self.purposes = vec![0, 0, 1, 2];
        for _ in 0..self.random.below(12) {
            let _ = self.act_want();
            let _ = self.act_receive() || self.act_book() || self.act_release();
            let _ = self.act_work();
        }
    }

    fn any_seek(&mut self) {
        let whence = self.random.below(3) as u8;
        let event = self.edge_seek(whence);
        self.emit(event);
    }

    /// Back to a low place, then shared reads over the size and past it.
    fn reading(&mut self) {
        if self.drain() {
            let end = self.line().view.places_below(self.line().size);
            let low = self.random.pick(&[0, 0, end.saturating_sub(2), 65_535]);
            self.emit(Event::Seek { whence: 0, offset: low as i32 });
        }
        self.purposes = self.random.pick(&[&[1u8][..], &[1, 1, 0]]).to_vec();
        let turns = self.random.between(4, 30);
        self.shared_turns(turns);
    }

    /// Seeks to the end of the book, most of them by 0 and some through a new view, each with
    /// shared writes from there.
    fn appending(&mut self) {
        self.purposes = self.random.pick(&[&[0u8][..], &[0, 0, 1]]).to_vec();
        for _ in 0..self.random.between(1, 3) {
            if !self.drain() {
                return;
            }
            if self.random.one_in(3) {
                let event = self.good_view();
                self.emit(event);
            }
            let to_end = Event::Seek { whence: 2, offset: 0 };
            let event = if self.random.one_in(3) { self.edge_seek(2) } else { to_end };
            self.emit(event);
            let turns = self.random.between(1, 6);
            self.shared_turns(turns);
        }
    }

    /// Wants, receives, releases and records, one of each where there is something to do.
    fn shared_turns(&mut self, turns: u64) {
        for _ in 0..turns {
            let _ = self.act_want();
            let _ = self.act_receive() || self.act_release();
            let _ = self.act_work();
            self.maybe_refused(12);
        }
    }
}

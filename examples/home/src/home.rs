//! Home's rules: which call is made when, and what a lane is answered. Nothing here knows of sockets: `C` is whatever leads
//! back to the lane that asked.
//!
//! A call is made as soon as it comes, but for those that would come too early and be refused: a receive is kept back until
//! its lane is woken, so that its answer is the wake; an ordered call, a view and a seek until all lanes have asked for it.

use crate::call::lane_of;
use crate::kept::Kept;
use crate::message::{Made, Reply, Request, Run};
use crate::saved::Last;
use gudlemi::{event_at, kind, Answer, EventAt, Phase};
use std::collections::VecDeque;
use std::io;

pub struct Home<C> {
    kept: Kept,
    /// What each lane has asked for and was not answered yet. A lane asks for one call at a time.
    asked: Vec<Option<Asked<C>>>,
    /// The lanes whose call is not made yet, the one that asked first in front.
    waiting: VecDeque<u8>,
    /// Replies that hang on no call being made.
    at_once: Vec<(C, Reply)>,
}

struct Asked<C> {
    request: Request,
    /// Whoever asked. A lane that asks again comes by a new connection, and its first request may come in after its second: each
    /// gets the reply, but for connections that are long gone.
    by: VecDeque<C>,
    /// The call had been made when home went on from a power cut.
    made_before: bool,
}

/// How many connections of one lane are answered; of more the first ones are gone.
const MOST_CONNECTIONS: usize = 8;

impl<C> Home<C> {
    pub fn new(kept: Kept) -> Home<C> {
        let asked = (0..kept.lanes()).map(|_| None).collect();
        Home { kept, asked, waiting: VecDeque::new(), at_once: Vec::new() }
    }

    /// Takes in a request, which may be any bytes. A call that has the lane's next number is to be made. One with the number
    /// of its last call was made before, and gets the kept answer. To all else the reply is that nothing was made.
    pub fn take_in(&mut self, request: Request, by: C) {
        let Request { lane, number, ref call } = request;
        if let Some(refusal) = self.fault(&request) {
            let number = if lane < self.kept.lanes() { self.kept.last(lane).number } else { 0 };
            let reply = Reply { made: Made::Not, number, answer: refusal, runs: Vec::new() };
            return self.at_once.push((by, reply));
        }
        if call.is_empty() {
            return self.at_once.push((by, self.reply(lane, &[], Made::Not)));
        }
        let last = self.kept.last(lane).number;
        if number == last && self.kept.is_last_call(lane, call) {
            if self.is_withheld(lane, call) {
                return self.note(request, by, true);
            }
            return self.at_once.push((by, self.reply(lane, call, Made::Before)));
        }
        if number != last + 1 {
            return self.at_once.push((by, self.reply(lane, &[], Made::Not)));
        }
        if !self.waiting.contains(&lane) {
            self.waiting.push_back(lane);
        }
        self.note(request, by, false);
    }

    /// Notes who is to get the reply to a request. An earlier request of the lane for another call is given up.
    fn note(&mut self, request: Request, by: C, made_before: bool) {
        let lane = usize::from(request.lane);
        let mut connections = VecDeque::new();
        match self.asked[lane].take() {
            Some(same) if same.request == request => connections = same.by,
            Some(other) => self.give_up(other),
            None => (),
        }
        connections.push_back(by);
        if connections.len() > MOST_CONNECTIONS {
            connections.pop_front();
        }
        self.asked[lane] = Some(Asked { request, by: connections, made_before });
    }

    /// Tells whoever asked that the call is not made, or of an enter whose reply was withheld that it was.
    fn give_up(&mut self, Asked { request, by, .. }: Asked<C>) {
        let is_made = request.number == self.kept.last(request.lane).number;
        let reply = self.reply(request.lane, &[], if is_made { Made::Now } else { Made::Not });
        self.at_once.extend(by.into_iter().map(|to| (to, reply.clone())));
    }

    /// The refusal of a request that is no call of this lane: 8 where there is no such lane or the call is another's, 2 and 3
    /// where the bytes are no call. Such a request is neither kept nor in the list, as 2 and 3 would end a sheet's run.
    fn fault(&self, request: &Request) -> Option<Answer> {
        let Request { lane, call, .. } = request;
        if *lane >= self.kept.lanes() || lane_of(call).is_some_and(|named| named != *lane) {
            return Some(Answer::Refused(8));
        }
        match event_at(call, 0) {
            EventAt::End => None,
            EventAt::Event { length } => (length != call.len()).then_some(Answer::Refused(3)),
            EventAt::Refused(number) => Some(Answer::Refused(number)),
        }
    }

    /// Makes every call whose time has come, saves what they have come to, and then hands out the replies that are due. Where
    /// the save fails nobody is answered, and this home must end.
    pub fn answer(&mut self) -> io::Result<Vec<(C, Reply)>> {
        self.make_calls();
        self.kept.save()?;
        Ok(self.replies())
    }

    /// A release may wake a lane whose receive is kept back, so it looks anew after each call.
    fn make_calls(&mut self) {
        while let Some(index) = self.waiting.iter().position(|&lane| self.is_due(lane)) {
            let lane = self.waiting[index];
            self.make_call(lane);
        }
    }

    /// Whether a lane's call is to be made now.
    fn is_due(&self, lane: u8) -> bool {
        let Some(call) = self.call_to_make(lane) else {
            return false;
        };
        match call[0] {
            kind::RECEIVE => !matches!(self.phase(lane), Phase::Waiting { .. }),
            kind::ENTER => self.lanes().all(|other| self.enters(other)),
            kind::VIEW | kind::SEEK => {
                self.lanes().all(|other| self.call_to_make(other) == Some(call))
            }
            _ => true,
        }
    }

    /// Whether a lane has entered the ordered call, or asks to.
    fn enters(&self, lane: u8) -> bool {
        let asks = self.call_to_make(lane).is_some_and(|call| call[0] == kind::ENTER);
        asks || self.is_gathered(lane)
    }

    fn make_call(&mut self, lane: u8) {
        let Some(Asked { request, .. }) = &self.asked[usize::from(lane)] else {
            return;
        };
        if matches!(request.call[0], kind::VIEW | kind::SEEK) {
            let numbers = self.asked.iter().flatten().map(|asked| asked.request.number);
            self.kept.make_for_all(&numbers.collect::<Vec<_>>(), &request.call);
            self.waiting.clear();
        } else {
            self.kept.make(lane, request.number, &request.call);
            self.waiting.retain(|&other| other != lane);
        }
    }

    /// The replies that are due.
    fn replies(&mut self) -> Vec<(C, Reply)> {
        let mut due = std::mem::take(&mut self.at_once);
        for lane in self.lanes() {
            let Some(Asked { request, by, made_before }) = self.take_answered(lane) else {
                continue;
            };
            let made = if made_before { Made::Before } else { Made::Now };
            let reply = self.reply(lane, &request.call, made);
            due.extend(by.into_iter().map(|to| (to, reply.clone())));
        }
        due
    }

    /// What a lane has asked for, where the reply to it is due.
    fn take_answered(&mut self, lane: u8) -> Option<Asked<C>> {
        let asked = self.asked[usize::from(lane)].as_ref()?;
        if self.call_to_make(lane).is_some() || self.is_withheld(lane, &asked.request.call) {
            return None;
        }
        self.asked[usize::from(lane)].take()
    }

    /// The reply to an enter that was made is withheld until all lanes have entered, since the lane's region is not known before.
    fn is_withheld(&self, lane: u8, call: &[u8]) -> bool {
        call[0] == kind::ENTER && self.is_gathered(lane)
    }

    /// What a lane is told of its last call.
    fn reply(&self, lane: u8, call: &[u8], made: Made) -> Reply {
        let Last { number, answer, .. } = self.kept.last(lane);
        Reply { made, number, answer, runs: self.runs(lane, call, answer) }
    }

    /// Where the records lie that an answer hands to a lane: those of its region, where it has just got one; that of the place
    /// which it looks at.
    fn runs(&self, lane: u8, call: &[u8], answer: Answer) -> Vec<Run> {
        match (call, answer, self.phase(lane)) {
            ([kind::LOOK, _, place @ ..], ..) => {
                let place = u32::from_be_bytes(place.try_into().expect("a place has four bytes"));
                vec![Run { position: self.kept.line().position(place), records: 1 }]
            }
            (
                [kind::TAKE | kind::ENTER, ..],
                Answer::Region { .. } | Answer::Gathered | Answer::Ordered { .. },
                Phase::Writing { left, next } | Phase::Reading { left, next },
            ) => self.runs_of(next, left),
            _ => Vec::new(),
        }
    }

    /// The runs of so many records from a place on: a record that starts where the one before ends belongs to its run.
    fn runs_of(&self, first: u32, records: u16) -> Vec<Run> {
        let mut runs: Vec<Run> = Vec::new();
        for place in first..first + u32::from(records) {
            let position = self.kept.line().position(place);
            match runs.last_mut() {
                Some(run) if run.end() == position => run.records += 1,
                _ => runs.push(Run { position, records: 1 }),
            }
        }
        runs
    }

    /// The call that a lane has asked for and that is not made yet.
    fn call_to_make(&self, lane: u8) -> Option<&[u8]> {
        let asked = self.asked[usize::from(lane)].as_ref()?;
        (asked.request.number != self.kept.last(lane).number).then_some(&asked.request.call)
    }

    fn is_gathered(&self, lane: u8) -> bool {
        matches!(self.phase(lane), Phase::Gathered { .. })
    }

    fn phase(&self, lane: u8) -> Phase {
        self.kept.line().lane(lane).expect("the lane is below N")
    }

    fn lanes(&self) -> std::ops::Range<u8> {
        0..self.kept.lanes()
    }
}

//! The places that a list of calls hands out, read off the calls and their answers alone: each once, in order, and written or
//! read by the lane that has it.

use super::check::Made;
use crate::invalid;
use gudlemi::{kind, Purpose, Whence};
use std::collections::{BTreeMap, VecDeque};
use std::fmt;
use std::io;

/// What a list of calls comes to.
#[derive(Default)]
pub struct Places {
    /// The next place that is to be handed out.
    pointer: u64,
    lanes: Vec<LaneCalls>,
    /// Where records were written by 05, with the lane.
    written: BTreeMap<u64, u8>,
    pub calls: usize,
    pub takes: u64,
    pub ordered: u64,
    pub whole_book: u64,
    pub puts: u64,
    pub refused: u64,
    /// Records that were read since the last seek.
    read: u64,
    /// Where the last seek to the end went.
    end: u64,
}

/// What a lane is about.
#[derive(Default)]
struct LaneCalls {
    purpose: u8,
    /// The places that it has yet to write or read, and its count while it is gathered.
    to_write: VecDeque<u64>,
    to_read: VecDeque<u64>,
    entered: u64,
}

impl Places {
    pub fn of(made: &[Made]) -> io::Result<Places> {
        let mut places = Places { calls: made.len(), ..Places::default() };
        for call in made {
            places.add(call).map_err(|fault| {
                invalid(&format!("{fault}, in the call with the answer {}", call.answer))
            })?;
        }
        let left = |lane: &LaneCalls| !lane.to_write.is_empty() || !lane.to_read.is_empty();
        if let Some(lane) = places.lanes.iter().position(left) {
            return Err(invalid(&format!("lane {lane} has places left")));
        }
        if places.pointer != places.end || places.read != places.written.len() as u64 {
            let Places { pointer, end, read, written, .. } = places;
            let written = written.len();
            let fault =
                format!("{read} records were read of {written}, and {pointer} places of {end}");
            return Err(invalid(&fault));
        }
        Ok(places)
    }

    /// How many records were written by 05, each at a position of its own.
    pub fn written(&self) -> usize {
        self.written.len()
    }

    /// Looks that each record in the file is of the lane that its place was handed to: its first byte is that lane + 1.
    pub fn hold_records(&self, file: &[u8]) -> io::Result<()> {
        for (&position, &lane) in &self.written {
            if file.get(position as usize) != Some(&(lane + 1)) {
                return Err(invalid(&format!(
                    "the record at byte {position} is not of lane {lane}"
                )));
            }
        }
        Ok(())
    }

    /// Adds a call with its answer.
    fn add(&mut self, made: &Made) -> Result<(), String> {
        let words: Vec<&str> = made.answer.split(' ').collect();
        let number = |index: usize| {
            words.get(index).and_then(|word| word.parse::<u64>().ok()).unwrap_or(u64::MAX)
        };
        let by = usize::from(made.call[1]);
        match (made.call[0], words[0]) {
            (_, "refused") => self.refused += 1,
            (kind::OPEN, _) => self.lanes.resize_with(by, LaneCalls::default),
            (kind::WANT, _) => self.want(by, made.call[2]),
            (kind::TAKE, "region") => self.take(by, number(1), number(2))?,
            (kind::WRITE, "wrote") => self.write(by, number(1))?,
            (kind::READ, word) => {
                self.read_place(by, word == "record" && !words[1].starts_with("00"))?
            }
            (kind::PUT, "wrote") => self.puts += 1,
            (kind::ENTER, word) => {
                self.lanes[by].entered =
                    u64::from(u16::from_be_bytes([made.call[2], made.call[3]]));
                if word == "ordered" {
                    self.start_ordered(number(1), number(2))?;
                }
            }
            (kind::VIEW, _) => self.pointer = 0,
            (kind::SEEK, "seek") => self.seek(made.call[1], number(1)),
            _ => (),
        }
        Ok(())
    }

    fn want(&mut self, by: usize, purpose: u8) {
        self.lanes[by].purpose = purpose;
        self.whole_book += u64::from(purpose == Purpose::WholeBook as u8);
    }

    /// Places are handed out from the pointer on, so that none is handed out twice.
    fn hand_out(&mut self, start: u64, count: u64) -> Result<VecDeque<u64>, String> {
        if start != self.pointer {
            return Err(format!("places from {start} on, where {} is next", self.pointer));
        }
        self.pointer += count;
        Ok((start..start + count).collect())
    }

    fn take(&mut self, by: usize, start: u64, count: u64) -> Result<(), String> {
        let region = self.hand_out(start, count)?;
        let lane = &mut self.lanes[by];
        if lane.purpose == Purpose::SharedWrite as u8 {
            lane.to_write = region;
        } else {
            lane.to_read = region;
        }
        self.takes += 1;
        Ok(())
    }

    /// Each lane gets as many places as its count, from lane 0 up.
    fn start_ordered(&mut self, before: u64, total: u64) -> Result<(), String> {
        let mut region = self.hand_out(before, total)?;
        for lane in &mut self.lanes {
            let rest = region.split_off((lane.entered as usize).min(region.len()));
            lane.to_write = std::mem::replace(&mut region, rest);
        }
        self.ordered += 1;
        if region.is_empty() {
            Ok(())
        } else {
            Err("more places than the lanes have asked for".to_string())
        }
    }

    fn write(&mut self, by: usize, position: u64) -> Result<(), String> {
        if self.lanes[by].to_write.pop_front().is_none() {
            return Err(format!("lane {by} writes, and has no place"));
        }
        match self.written.insert(position, by as u8) {
            Some(earlier) => Err(format!("lanes {earlier} and {by} write at byte {position}")),
            None => Ok(()),
        }
    }

    fn read_place(&mut self, by: usize, is_record: bool) -> Result<(), String> {
        self.read += u64::from(is_record);
        self.lanes[by]
            .to_read
            .pop_front()
            .map(drop)
            .ok_or(format!("lane {by} reads, and has no place"))
    }

    fn seek(&mut self, whence: u8, pointer: u64) {
        (self.pointer, self.read) = (pointer, 0);
        if whence == Whence::End as u8 {
            self.end = pointer;
        }
    }
}

impl fmt::Display for Places {
    fn fmt(&self, f: &mut fmt::Formatter<'_>) -> fmt::Result {
        let (lanes, written) = (self.lanes.len(), self.written());
        let Places { calls, takes, ordered, whole_book, puts, refused, .. } = self;
        write!(f, "{lanes} lanes, {calls} calls: {takes} takes, {ordered} ordered, ")?;
        write!(f, "{whole_book} turns with the whole book, {puts} puts, {refused} refused; ")?;
        write!(f, "{written} records, each written once and read once")
    }
}

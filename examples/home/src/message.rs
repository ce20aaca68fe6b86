//! What goes over a socket: a lane's request, and home's reply. Numbers are big-endian.
//!
//! A request: lane 1, number 8, length 1, and as many bytes of a call. A reply: whether the call was made 1, number 8,
//! answer 16, how many runs 4, and of each run position 8, records 4.

use crate::call::RECORD;
use crate::invalid;
use gudlemi::{Answer, ANSWER_LENGTH};
use std::io::{self, Read, Write};

/// A call that a lane asks for. Its calls are numbered from 1; a request that is sent again has the same number.
#[derive(Clone, Debug, PartialEq, Eq)]
pub struct Request {
    pub lane: u8,
    pub number: u64,
    /// The bytes of the call. None at all: the lane asks for the number of its last call.
    pub call: Vec<u8>,
}

/// Records that lie one after the other in the book.
#[derive(Clone, Copy, Debug, PartialEq, Eq)]
pub struct Run {
    /// The byte of the book at which the first one starts.
    pub position: u64,
    pub records: u32,
}

impl Run {
    /// The byte at which the last record ends.
    pub fn end(&self) -> u64 {
        self.position + RECORD as u64 * u64::from(self.records)
    }

    /// The byte of the book at which each record of some runs starts.
    pub fn positions(runs: &[Run]) -> impl Iterator<Item = u64> + '_ {
        runs.iter().flat_map(|run| (run.position..run.end()).step_by(RECORD))
    }
}

/// Whether the call of a request was made.
#[derive(Clone, Copy, Debug, PartialEq, Eq)]
pub enum Made {
    /// It was not, and is not going to be under this number.
    Not = 0,
    Now = 1,
    /// Before this request came: the lane asked again.
    Before = 2,
}

/// Home's reply to a request.
#[derive(Clone, Debug, PartialEq, Eq)]
pub struct Reply {
    pub made: Made,
    /// The number of the lane's last call; that of the request, where its call was made.
    pub number: u64,
    /// The answer to the lane's last call, or the refusal of bytes that are no call of it.
    pub answer: Answer,
    /// Where the records lie that the answer hands to the lane, in the order of their places.
    pub runs: Vec<Run>,
}

impl Request {
    pub fn to_bytes(&self) -> Vec<u8> {
        let length = u8::try_from(self.call.len()).expect("a call has at most 40 bytes");
        [&[self.lane], &self.number.to_be_bytes()[..], &[length], &self.call].concat()
    }

    /// The next request of a connection; none where it has ended between two.
    pub fn read_from(source: &mut impl Read) -> io::Result<Option<Request>> {
        let mut lane = [0];
        if source.read(&mut lane)? == 0 {
            return Ok(None);
        }
        let number = u64::from_be_bytes(bytes_from(source)?);
        let [length] = bytes_from(source)?;
        let mut call = vec![0; length.into()];
        source.read_exact(&mut call)?;
        Ok(Some(Request { lane: lane[0], number, call }))
    }
}

impl Reply {
    pub fn to_bytes(&self) -> Vec<u8> {
        let mut bytes = vec![self.made as u8];
        bytes.extend(self.number.to_be_bytes());
        bytes.extend(self.answer.to_bytes());
        bytes.extend((self.runs.len() as u32).to_be_bytes());
        for run in &self.runs {
            bytes.extend(run.position.to_be_bytes());
            bytes.extend(run.records.to_be_bytes());
        }
        bytes
    }

    pub fn send(&self, sink: &mut impl Write) -> io::Result<()> {
        sink.write_all(&self.to_bytes())
    }

    pub fn read_from(source: &mut impl Read) -> io::Result<Reply> {
        let made = match bytes_from(source)? {
            [0] => Made::Not,
            [1] => Made::Now,
            [2] => Made::Before,
            _ => return Err(invalid("no reply")),
        };
        let number = u64::from_be_bytes(bytes_from(source)?);
        let answer = Answer::from_bytes(&bytes_from::<ANSWER_LENGTH>(source)?);
        let answer = answer.ok_or_else(|| invalid("no answer"))?;
        let count = u32::from_be_bytes(bytes_from(source)?);
        let mut runs = Vec::new();
        for _ in 0..count {
            let position = u64::from_be_bytes(bytes_from(source)?);
            runs.push(Run { position, records: u32::from_be_bytes(bytes_from(source)?) });
        }
        Ok(Reply { made, number, answer, runs })
    }
}

fn bytes_from<const LENGTH: usize>(source: &mut impl Read) -> io::Result<[u8; LENGTH]> {
    let mut bytes = [0; LENGTH];
    source.read_exact(&mut bytes)?;
    Ok(bytes)
}

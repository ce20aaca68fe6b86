//! The saved file: the line's state, each lane's last call, and how long the list of calls is that belongs to them.
//!
//! Its bytes, big-endian: the mark 8, length of the list 8, state 1,216; of each lane the number of its last call 8, where
//! that call stands in the list 8, its answer 16; a checksum 8. The library's own test that a line is sound is no checksum.

use crate::folder::{named, Folder};
use crate::invalid;
use gudlemi::{Answer, Line, ANSWER_LENGTH, STATE_LENGTH};
use std::fs;
use std::io;

const MARK: &[u8; 8] = b"GUDLHOME";
const HEAD: usize = 16 + STATE_LENGTH;
const ENTRY: usize = 16 + ANSWER_LENGTH;
const CHECKSUM: usize = 8;

/// A lane's last call that was made. Before its first call the number is 0.
#[derive(Clone, Copy, Debug, PartialEq, Eq)]
pub struct Last {
    pub number: u64,
    /// Where the call stands in the list, in bytes.
    pub at: u64,
    pub answer: Answer,
}

/// What home goes on from, beside the list of calls.
#[derive(Clone, Debug, PartialEq, Eq)]
pub struct Saved {
    /// The bytes of the list that belong to this state; bytes past them are of calls that were never answered.
    pub list_length: u64,
    pub line: Line,
    pub last: Vec<Last>,
}

impl Last {
    pub const NONE: Last = Last { number: 0, at: 0, answer: Answer::Refused(0) };

    fn from_bytes(bytes: &[u8]) -> io::Result<Last> {
        let answer = Answer::from_bytes(&bytes[16..]).ok_or_else(|| invalid("not an answer"))?;
        Ok(Last { number: number_at(bytes, 0), at: number_at(bytes, 8), answer })
    }
}

impl Saved {
    /// What is saved in a folder; an error of the kind `NotFound` where nothing is.
    pub fn read(folder: &Folder) -> io::Result<Saved> {
        let name = folder.saved();
        named(&name, fs::read(&name).and_then(|bytes| Saved::from_bytes(&bytes)))
    }

    /// Replaces what is saved, so that it lasts over a power cut.
    pub fn write(&self, folder: &Folder) -> io::Result<()> {
        folder.replace(&folder.saved(), &self.to_bytes())
    }

    pub fn to_bytes(&self) -> Vec<u8> {
        let mut bytes = MARK.to_vec();
        bytes.extend(self.list_length.to_be_bytes());
        bytes.extend(self.line.as_bytes());
        for last in &self.last {
            bytes.extend(last.number.to_be_bytes());
            bytes.extend(last.at.to_be_bytes());
            bytes.extend(last.answer.to_bytes());
        }
        bytes.extend(checksum(&bytes).to_be_bytes());
        bytes
    }

    pub fn from_bytes(bytes: &[u8]) -> io::Result<Saved> {
        if bytes.len() < HEAD + CHECKSUM || &bytes[..8] != MARK {
            return Err(invalid("not a saved line"));
        }
        let (kept, sum) = bytes.split_at(bytes.len() - CHECKSUM);
        if number_at(sum, 0) != checksum(kept) {
            return Err(invalid("its checksum is wrong"));
        }
        let line = Line::from_bytes(&kept[16..HEAD]).ok_or_else(|| invalid("not a line"))?;
        let entries = kept[HEAD..].chunks(ENTRY);
        if kept.len() - HEAD != usize::from(line.lanes()) * ENTRY {
            return Err(invalid("not as many entries as lanes"));
        }
        let last = entries.map(Last::from_bytes).collect::<io::Result<_>>()?;
        Ok(Saved { list_length: number_at(kept, 8), line, last })
    }
}

fn number_at(bytes: &[u8], at: usize) -> u64 {
    u64::from_be_bytes(bytes[at..at + 8].try_into().expect("eight bytes"))
}

/// FNV-1a of 64 bits.
fn checksum(bytes: &[u8]) -> u64 {
    bytes.iter().fold(0xCBF2_9CE4_8422_2325, |sum, &byte| {
        (sum ^ u64::from(byte)).wrapping_mul(0x0000_0100_0000_01B3)
    })
}

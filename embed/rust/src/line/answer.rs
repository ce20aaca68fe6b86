//! The answer to a call: its cases, its 16 bytes and its printed line.

use super::{linked, ANSWER_LENGTH};
use std::fmt;

/// The shortest text buffer that the library takes for a printed line.
pub(crate) const TEXT_LENGTH: usize = 56;

/// What a call answers; each word of document 01 with its values.
#[derive(Clone, Copy, Debug, PartialEq, Eq)]
#[must_use = "an answer may be a refusal, tell a lane to wait, or name a lane that was woken"]
pub enum Answer {
    /// The call was refused with this number, 1 to 16 from a call, and neither the line nor the book was altered.
    Refused(u8),
    /// The line is open.
    Open { lanes: u8, capacity: u32 },
    /// The lane holds the book, with the pointer.
    Holds { pointer: u32 },
    /// The lane must not go on before another call's answer has woken it; then it makes its `receive`.
    Waits,
    /// The lane has the places from `start` on, `count` of them, and has released; `wakes` is the lane that was woken.
    Region { start: u32, count: u16, wakes: Option<u8> },
    /// A record was written at this byte of the book.
    Wrote { position: u64 },
    /// The record that was read.
    Record([u8; 8]),
    /// There is no record to read: it would end past the size.
    None,
    /// The whole book was released; `wakes` is the lane that was woken.
    Freed { wakes: Option<u8> },
    /// The lane has entered an ordered call that others have yet to enter.
    Gathered,
    /// The last lane has entered: each has its region, from the pointer `before` on, of `total` places together.
    Ordered { before: u32, total: u32 },
    /// The view is set, and the pointer is 0.
    View,
    /// The pointer was moved here.
    Seek { pointer: u32 },
}

impl Answer {
    /// The lane that was woken, if there is one: tell it, so that it makes its `receive`.
    pub fn wakes(&self) -> Option<u8> {
        match *self {
            Answer::Region { wakes, .. } | Answer::Freed { wakes } => wakes,
            _ => None,
        }
    }

    /// The printed line of the answer, made by the library as a run prints it: the number, the word and the values,
    /// with '\n' at its end.
    pub fn line(&self, number: u64) -> String {
        let mut text = [0; TEXT_LENGTH];
        let length = linked::answer_text(&self.to_bytes(), number, &mut text);
        let line = text.get(..length).expect("the text is long enough");
        String::from_utf8(line.to_vec()).expect("the printed lines are ASCII")
    }

    /// The answer as the library stores it (`embed/gudlemi.h` has the layout).
    pub fn to_bytes(&self) -> [u8; ANSWER_LENGTH] {
        let (word, kind, first, second) = match *self {
            Answer::Refused(number) => (0, number, 0, 0),
            Answer::Open { lanes, capacity } => (1, 0x01, lanes.into(), capacity),
            Answer::Holds { pointer } => (2, 0x02, pointer.into(), 0),
            Answer::Waits => (3, 0x02, 0, 0),
            Answer::Region { start, count, .. } => (4, 0x04, start.into(), count.into()),
            Answer::Wrote { position } => (5, 0x05, position, 0),
            Answer::Record(record) => (6, 0x06, u64::from_be_bytes(record), 0),
            Answer::None => (7, 0x06, 0, 0),
            Answer::Freed { .. } => (8, 0x09, 0, 0),
            Answer::Gathered => (9, 0x0A, 0, 0),
            Answer::Ordered { before, total } => (10, 0x0A, before.into(), total),
            Answer::View => (11, 0x0B, 0, 0),
            Answer::Seek { pointer } => (12, 0x0C, pointer.into(), 0),
        };
        let mut bytes = [0; ANSWER_LENGTH];
        bytes[0] = word;
        bytes[1] = kind;
        if let Some(lane) = self.wakes() {
            bytes[2] = 1;
            bytes[3] = lane;
        }
        bytes[4..12].copy_from_slice(&first.to_be_bytes());
        bytes[12..].copy_from_slice(&second.to_be_bytes());
        bytes
    }

    /// The answer in the library's bytes; none where they are no answer, as where there are not exactly 16.
    pub fn from_bytes(bytes: &[u8]) -> Option<Answer> {
        let bytes: &[u8; ANSWER_LENGTH] = bytes.try_into().ok()?;
        let answer = named_by(bytes)?;
        (answer.to_bytes() == *bytes).then_some(answer)
    }
}

/// The answer that the word and the values name, whatever stands in the fields that it does not have.
fn named_by(bytes: &[u8; ANSWER_LENGTH]) -> Option<Answer> {
    let first = u64::from_be_bytes(bytes[4..12].try_into().ok()?);
    let second = u32::from_be_bytes(bytes[12..].try_into().ok()?);
    let place = u32::try_from(first);
    let wakes = (bytes[2] == 1).then_some(bytes[3]);
    Some(match bytes[0] {
        0 => Answer::Refused(bytes[1]),
        1 => Answer::Open { lanes: first.try_into().ok()?, capacity: second },
        2 => Answer::Holds { pointer: place.ok()? },
        3 => Answer::Waits,
        4 => Answer::Region { start: place.ok()?, count: second.try_into().ok()?, wakes },
        5 => Answer::Wrote { position: first },
        6 => Answer::Record(first.to_be_bytes()),
        7 => Answer::None,
        8 => Answer::Freed { wakes },
        9 => Answer::Gathered,
        10 => Answer::Ordered { before: place.ok()?, total: second },
        11 => Answer::View,
        12 => Answer::Seek { pointer: place.ok()? },
        _ => return None,
    })
}

/// The word and the values of the printed line, without its number.
impl fmt::Display for Answer {
    fn fmt(&self, f: &mut fmt::Formatter<'_>) -> fmt::Result {
        let line = self.line(0);
        f.pad(line.strip_prefix("0 ").unwrap_or(&line).trim_end())
    }
}

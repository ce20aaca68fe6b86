//! The 16 bytes of an answer and back, by the C header, "Single calls".

use crate::answer::Answer;
use crate::event::u32_at;
use crate::line::MOST_LANES;

pub const ANSWER_BYTES: usize = 16;

/// The word's number, and the kind that the answer belongs to or the number of the refusal.
fn word_and_number(answer: &Answer) -> (u8, u8) {
    match *answer {
        Answer::Refused { number } => (0, u8::try_from(number).expect("at most 16")),
        Answer::Open { .. } => (1, 0x01),
        Answer::Holds { .. } => (2, 0x02),
        Answer::Waits => (3, 0x02),
        Answer::Region { .. } => (4, 0x04),
        Answer::Wrote { .. } => (5, 0x05),
        Answer::Record { .. } => (6, 0x06),
        Answer::None => (7, 0x06),
        Answer::Freed { .. } => (8, 0x09),
        Answer::Gathered => (9, 0x0A),
        Answer::Ordered { .. } => (10, 0x0A),
        Answer::View => (11, 0x0B),
        Answer::Seek { .. } => (12, 0x0C),
    }
}

/// The first and the second value, 0 where there is none.
fn values(answer: &Answer) -> (u64, u64) {
    match *answer {
        Answer::Open { lanes, capacity } => (lanes, capacity),
        Answer::Holds { pointer } | Answer::Seek { pointer } => (pointer, 0),
        Answer::Region { start, count, .. } => (start, count),
        Answer::Wrote { position } => (position, 0),
        Answer::Record { record } => (u64::from_be_bytes(record), 0),
        Answer::Ordered { before, total } => (before, total),
        _ => (0, 0),
    }
}

fn woken(answer: &Answer) -> Option<u64> {
    match *answer {
        Answer::Region { wakes, .. } | Answer::Freed { wakes } => wakes,
        _ => None,
    }
}

/// The bytes of an answer.
pub fn answer_bytes(answer: &Answer) -> [u8; ANSWER_BYTES] {
    let mut bytes = [0; ANSWER_BYTES];
    (bytes[0], bytes[1]) = word_and_number(answer);
    if let Some(lane) = woken(answer) {
        bytes[2] = 1;
        bytes[3] = u8::try_from(lane).expect("a lane is below 128");
    }
    let (first, second) = values(answer);
    let second = u32::try_from(second).expect("second values have 32 bits");
    bytes[4..12].copy_from_slice(&first.to_be_bytes());
    bytes[12..16].copy_from_slice(&second.to_be_bytes());
    bytes
}

/// The answer of the first 16 bytes; nothing unless it is written just so, its refusal is one of
/// 1 to 16 and its lane one that there can be.
pub fn read_answer(bytes: &[u8]) -> Option<Answer> {
    let bytes = bytes.get(..ANSWER_BYTES)?;
    let first = u64::from(u32_at(bytes, 4)) << 32 | u64::from(u32_at(bytes, 8));
    let second = u64::from(u32_at(bytes, 12));
    let wakes = (bytes[2] == 1).then_some(u64::from(bytes[3]));
    let answer = match bytes[0] {
        0 => Answer::Refused { number: u64::from(bytes[1]) },
        1 => Answer::Open { lanes: first, capacity: second },
        2 => Answer::Holds { pointer: first },
        3 => Answer::Waits,
        4 => Answer::Region { start: first, count: second, wakes },
        5 => Answer::Wrote { position: first },
        6 => Answer::Record { record: first.to_be_bytes() },
        7 => Answer::None,
        8 => Answer::Freed { wakes },
        9 => Answer::Gathered,
        10 => Answer::Ordered { before: first, total: second },
        11 => Answer::View,
        12 => Answer::Seek { pointer: first },
        _ => return None,
    };
    let in_range = (bytes[0] != 0 || (1..=16).contains(&bytes[1])) && bytes[3] < MOST_LANES as u8;
    (in_range && answer_bytes(&answer) == bytes).then_some(answer)
}

//! The calls that a lane asks home for, as the bytes of an event: one byte of kind, then the body (document 01, "Events").

use gudlemi::{event_at, kind, EventAt, Purpose, View, Whence};

/// A record of the book.
pub type Record = [u8; 8];

/// The length of a record in bytes.
pub const RECORD: usize = 8;

/// The most bytes that a book can have.
pub const LARGEST_BOOK: u32 = 65_536;

/// A call of a lane, or of all lanes together (`View`, `Seek`).
#[derive(Clone, Copy, Debug, PartialEq, Eq)]
pub enum Call {
    Want(Purpose),
    Receive,
    Take(u16),
    Write(Record),
    Read,
    Put(u32, Record),
    Look(u32),
    Free,
    Enter(u16),
    View(View),
    Seek(Whence, i32),
}

impl Call {
    /// The bytes of the call when this lane makes it.
    pub fn bytes(&self, lane: u8) -> Vec<u8> {
        match *self {
            Call::Want(purpose) => vec![kind::WANT, lane, purpose as u8],
            Call::Receive => vec![kind::RECEIVE, lane],
            Call::Take(count) => joined(&[&[kind::TAKE, lane], &count.to_be_bytes()]),
            Call::Write(record) => joined(&[&[kind::WRITE, lane], &record]),
            Call::Read => vec![kind::READ, lane],
            Call::Put(place, record) => {
                joined(&[&[kind::PUT, lane], &place.to_be_bytes(), &record])
            }
            Call::Look(place) => joined(&[&[kind::LOOK, lane], &place.to_be_bytes()]),
            Call::Free => vec![kind::FREE, lane],
            Call::Enter(count) => joined(&[&[kind::ENTER, lane], &count.to_be_bytes()]),
            Call::View(view) => joined(&[&[kind::VIEW], &view.body()]),
            Call::Seek(whence, offset) => {
                joined(&[&[kind::SEEK, whence as u8], &offset.to_be_bytes()])
            }
        }
    }
}

/// The bytes of the call that opens a line.
pub fn open_bytes(lanes: u8, capacity: u32) -> Vec<u8> {
    joined(&[&[kind::OPEN, lanes], &capacity.to_be_bytes()])
}

/// The lane that makes a call, by its bytes; none for a call on the whole line.
pub fn lane_of(call: &[u8]) -> Option<u8> {
    match call {
        [kind::WANT..=kind::ENTER, lane, ..] => Some(*lane),
        _ => None,
    }
}

/// The calls of a list, one after the other; none where its bytes are not calls to their end.
pub fn calls_in(list: &[u8]) -> Option<Vec<&[u8]>> {
    let mut calls = Vec::new();
    let mut at = 0;
    while let EventAt::Event { length } = event_at(list, at) {
        calls.push(&list[at..at + length]);
        at += length;
    }
    (at == list.len()).then_some(calls)
}

/// Parts of different lengths, one after the other.
fn joined(parts: &[&[u8]]) -> Vec<u8> {
    parts.concat()
}

/// Bytes as hexadecimal digits.
pub fn digits(bytes: &[u8]) -> String {
    bytes.iter().map(|byte| format!("{byte:02x}")).collect()
}

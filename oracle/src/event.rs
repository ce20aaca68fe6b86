//! The events of a sheet, read from bytes and written to bytes.

use crate::refuse::{refuse_2_kind_not_listed, refuse_3_body_cut_short};

pub type Record = [u8; 8];
pub type Blocks = [(u16, u16); 8];

/// A kind and the fields of its body, no more.
#[derive(Clone, Copy, PartialEq, Eq, Debug)]
pub enum Event {
    Open { lanes: u8, capacity: u32 },
    Want { lane: u8, purpose: u8 },
    Receive { lane: u8 },
    Take { lane: u8, count: u16 },
    Write { lane: u8, record: Record },
    Read { lane: u8 },
    Put { lane: u8, place: u32, record: Record },
    Look { lane: u8, place: u32 },
    Free { lane: u8 },
    Enter { lane: u8, count: u16 },
    View { displacement: u32, extent: u16, blocks: u8, list: Blocks },
    Seek { whence: u8, offset: i32 },
}

/// Bytes of the body of a kind; no length for an unlisted kind.
pub fn body_length(kind: u8) -> Option<usize> {
    match kind {
        0x01 => Some(1 + 4),
        0x02 => Some(1 + 1),
        0x03 => Some(1),
        0x04 => Some(1 + 2),
        0x05 => Some(1 + 8),
        0x06 => Some(1),
        0x07 => Some(1 + 4 + 8),
        0x08 => Some(1 + 4),
        0x09 => Some(1),
        0x0A => Some(1 + 2),
        0x0B => Some(4 + 2 + 1 + 8 * (2 + 2)),
        0x0C => Some(1 + 4),
        _ => None,
    }
}

/// The next event at `at`. Nothing when no byte is left. After an event the
/// cursor stands behind it; after refusal 2 or 3 it has not moved.
pub fn read_event(sheet: &[u8], at: &mut usize) -> Option<Result<Event, u8>> {
    let kind = *sheet.get(*at)?;
    let read = read_call(kind, &sheet[*at + 1..]);
    if read.is_ok() {
        *at += 1 + body_length(kind).expect("a listed kind");
    }
    Some(read)
}

/// The event of a kind and the bytes behind it, those past its body not looked at; else 2 or 3.
pub fn read_call(kind: u8, rest: &[u8]) -> Result<Event, u8> {
    let mut reasons = Vec::new();
    if refuse_2_kind_not_listed(kind) {
        reasons.push(2);
    }
    if refuse_3_body_cut_short(kind, rest) {
        reasons.push(3);
    }
    if let Some(&lowest) = reasons.iter().min() {
        return Err(lowest);
    }
    let length = body_length(kind).expect("a listed kind");
    Ok(event_of(kind, &rest[..length]))
}

pub(crate) fn u16_at(body: &[u8], at: usize) -> u16 {
    u16::from_be_bytes([body[at], body[at + 1]])
}

pub(crate) fn u32_at(body: &[u8], at: usize) -> u32 {
    u32::from_be_bytes([body[at], body[at + 1], body[at + 2], body[at + 3]])
}

fn record_at(body: &[u8], at: usize) -> Record {
    let mut record = [0; 8];
    record.copy_from_slice(&body[at..at + 8]);
    record
}

/// The event of a listed kind and its whole body.
fn event_of(kind: u8, body: &[u8]) -> Event {
    let lane = body[0];
    match kind {
        0x01 => Event::Open { lanes: body[0], capacity: u32_at(body, 1) },
        0x02 => Event::Want { lane, purpose: body[1] },
        0x03 => Event::Receive { lane },
        0x04 => Event::Take { lane, count: u16_at(body, 1) },
        0x05 => Event::Write { lane, record: record_at(body, 1) },
        0x06 => Event::Read { lane },
        0x07 => Event::Put { lane, place: u32_at(body, 1), record: record_at(body, 5) },
        0x08 => Event::Look { lane, place: u32_at(body, 1) },
        0x09 => Event::Free { lane },
        0x0A => Event::Enter { lane, count: u16_at(body, 1) },
        0x0B => view_of(body),
        0x0C => Event::Seek { whence: body[0], offset: u32_at(body, 1) as i32 },
        _ => unreachable!("unlisted kinds are refused before"),
    }
}

fn view_of(body: &[u8]) -> Event {
    let mut list = [(0, 0); 8];
    for (i, block) in list.iter_mut().enumerate() {
        *block = (u16_at(body, 7 + 4 * i), u16_at(body, 9 + 4 * i));
    }
    Event::View { displacement: u32_at(body, 0), extent: u16_at(body, 4), blocks: body[6], list }
}

impl Event {
    pub fn kind(&self) -> u8 {
        match self {
            Event::Open { .. } => 0x01,
            Event::Want { .. } => 0x02,
            Event::Receive { .. } => 0x03,
            Event::Take { .. } => 0x04,
            Event::Write { .. } => 0x05,
            Event::Read { .. } => 0x06,
            Event::Put { .. } => 0x07,
            Event::Look { .. } => 0x08,
            Event::Free { .. } => 0x09,
            Event::Enter { .. } => 0x0A,
            Event::View { .. } => 0x0B,
            Event::Seek { .. } => 0x0C,
        }
    }

    /// The lane that the event names; 01, 0B and 0C name none.
    pub fn lane(&self) -> Option<usize> {
        match *self {
            Event::Want { lane, .. }
            | Event::Receive { lane }
            | Event::Take { lane, .. }
            | Event::Write { lane, .. }
            | Event::Read { lane }
            | Event::Put { lane, .. }
            | Event::Look { lane, .. }
            | Event::Free { lane }
            | Event::Enter { lane, .. } => Some(lane as usize),
            Event::Open { .. } | Event::View { .. } | Event::Seek { .. } => None,
        }
    }

    /// Kind and body as bytes.
    pub fn to_bytes(&self) -> Vec<u8> {
        let mut out = vec![self.kind()];
        if let Some(lane) = self.lane() {
            out.push(lane as u8);
        }
        match *self {
            Event::Open { lanes, capacity } => {
                out.push(lanes);
                out.extend(capacity.to_be_bytes());
            }
            Event::Want { purpose, .. } => out.push(purpose),
            Event::Take { count, .. } | Event::Enter { count, .. } => {
                out.extend(count.to_be_bytes())
            }
            Event::Write { record, .. } => out.extend(record),
            Event::Put { place, record, .. } => {
                out.extend(place.to_be_bytes());
                out.extend(record);
            }
            Event::Look { place, .. } => out.extend(place.to_be_bytes()),
            Event::View { displacement, extent, blocks, list } => {
                out.extend(displacement.to_be_bytes());
                out.extend(extent.to_be_bytes());
                out.push(blocks);
                for (start, length) in list {
                    out.extend(start.to_be_bytes());
                    out.extend(length.to_be_bytes());
                }
            }
            Event::Seek { whence, offset } => {
                out.push(whence);
                out.extend(offset.to_be_bytes());
            }
            Event::Receive { .. } | Event::Read { .. } | Event::Free { .. } => {}
        }
        out
    }
}

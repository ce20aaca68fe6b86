//! The state of a line as bytes and back: layout 1 of the C header, "Single calls".

use crate::event::{u16_at, u32_at};
use crate::line::{Line, Phase, Purpose, View, MOST_LANES};

pub const STATE_BYTES: usize = 1_216;
pub const MARK: [u8; 4] = *b"GUDL";
pub const LAYOUT: u32 = 1;

// Where each part starts, by the header's table.
pub const AT_MARK: usize = 0;
pub const AT_LAYOUT: usize = 4;
pub const AT_LANES: usize = 8;
pub const AT_CAPACITY: usize = 9;
pub const AT_SIZE: usize = 13;
pub const AT_POINTER: usize = 17;
pub const AT_DISPLACEMENT: usize = 21;
pub const AT_EXTENT: usize = 25;
pub const AT_BLOCKS: usize = 27;
pub const AT_LIST: usize = 28;
pub const AT_RESERVED: usize = 60;
pub const AT_ENTRIES: usize = 64;
pub const AT_FLAGS: usize = 1_088;

pub const ENTRY_BYTES: usize = 8;
const BLOCK_BYTES: usize = 4;

/// The bytes of a line, sound or not.
pub fn written(line: &Line) -> [u8; STATE_BYTES] {
    let mut bytes = [0; STATE_BYTES];
    put(&mut bytes, AT_MARK, &MARK);
    put(&mut bytes, AT_LAYOUT, &LAYOUT.to_be_bytes());
    bytes[AT_LANES] = u8::try_from(line.lanes).expect("N is a byte");
    put(&mut bytes, AT_CAPACITY, &line.capacity.to_be_bytes());
    put(&mut bytes, AT_SIZE, &line.size.to_be_bytes());
    put(&mut bytes, AT_POINTER, &line.pointer.to_be_bytes());
    put(&mut bytes, AT_DISPLACEMENT, &line.view.displacement.to_be_bytes());
    put(&mut bytes, AT_EXTENT, &line.view.extent.to_be_bytes());
    bytes[AT_BLOCKS] = line.view.blocks;
    for (i, (start, length)) in line.view.list.iter().enumerate() {
        put(&mut bytes, AT_LIST + BLOCK_BYTES * i, &start.to_be_bytes());
        put(&mut bytes, AT_LIST + BLOCK_BYTES * i + 2, &length.to_be_bytes());
    }
    for (lane, phase) in line.phases.iter().enumerate() {
        put(&mut bytes, AT_ENTRIES + ENTRY_BYTES * lane, &written_entry(phase));
    }
    put(&mut bytes, AT_FLAGS, &line.flags);
    bytes
}

fn put(bytes: &mut [u8], at: usize, part: &[u8]) {
    bytes[at..at + part.len()].copy_from_slice(part);
}

/// The line of the first 1,216 bytes; nothing where there are fewer, or they are no line.
pub fn read(bytes: &[u8]) -> Option<Line> {
    let bytes = bytes.get(..STATE_BYTES)?;
    let marked = bytes[AT_MARK..AT_LAYOUT] == MARK && u32_at(bytes, AT_LAYOUT) == LAYOUT;
    let reserved = &bytes[AT_RESERVED..AT_ENTRIES];
    if !marked || reserved.iter().any(|byte| *byte != 0) {
        return None;
    }
    let mut phases = Vec::new();
    for entry in bytes[AT_ENTRIES..AT_FLAGS].chunks(ENTRY_BYTES) {
        phases.push(read_entry(entry)?);
    }
    Some(Line {
        lanes: usize::from(bytes[AT_LANES]),
        capacity: u32_at(bytes, AT_CAPACITY),
        size: u32_at(bytes, AT_SIZE),
        pointer: u32_at(bytes, AT_POINTER),
        view: read_view(bytes),
        phases,
        flags: bytes[AT_FLAGS..AT_FLAGS + MOST_LANES].to_vec(),
    })
}

fn read_view(bytes: &[u8]) -> View {
    let mut list = [(0, 0); 8];
    for (i, block) in list.iter_mut().enumerate() {
        let at = AT_LIST + BLOCK_BYTES * i;
        *block = (u16_at(bytes, at), u16_at(bytes, at + 2));
    }
    View {
        displacement: u32_at(bytes, AT_DISPLACEMENT),
        extent: u16_at(bytes, AT_EXTENT),
        blocks: bytes[AT_BLOCKS],
        list,
    }
}

/// Phase 1, purpose 1, records 2, place 4; what a phase does not have is 0.
pub fn written_entry(phase: &Phase) -> [u8; ENTRY_BYTES] {
    let (number, purpose, records, place) = match *phase {
        Phase::Idle => (0, 0, 0, 0),
        Phase::Waiting { purpose } => (1, purpose.number(), 0, 0),
        Phase::Woken { purpose, value } => (2, purpose.number(), 0, value),
        Phase::Holding { purpose, value } => (3, purpose.number(), 0, value),
        Phase::Busy { writing: true, next, left } => (4, 0, left, next),
        Phase::Busy { writing: false, next, left } => (5, 1, left, next),
        Phase::Gathered { count } => (6, 0, u32::from(count), 0),
    };
    let records = u16::try_from(records).expect("a region has at most 65,535 records");
    let mut entry = [number, purpose, 0, 0, 0, 0, 0, 0];
    put(&mut entry, 2, &records.to_be_bytes());
    put(&mut entry, 4, &place.to_be_bytes());
    entry
}

/// The phase of an entry. It is one only if it is written with these very bytes, so that an
/// entry with a number that its phase does not have is none.
pub fn read_entry(entry: &[u8]) -> Option<Phase> {
    let purpose = Purpose::of(entry[1])?;
    let (records, place) = (u16_at(entry, 2), u32_at(entry, 4));
    let phase = match entry[0] {
        0 => Phase::Idle,
        1 => Phase::Waiting { purpose },
        2 => Phase::Woken { purpose, value: place },
        3 => Phase::Holding { purpose, value: place },
        4 => Phase::Busy { writing: true, next: place, left: u32::from(records) },
        5 => Phase::Busy { writing: false, next: place, left: u32::from(records) },
        6 => Phase::Gathered { count: records },
        _ => return None,
    };
    (written_entry(&phase) == entry).then_some(phase)
}

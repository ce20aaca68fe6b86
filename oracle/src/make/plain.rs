//! Bytes and events that do not look at the state.

use crate::event::{Blocks, Event};
use crate::line::MOST_LANES;
use crate::random::Random;

/// The most lanes, as an event's byte says them.
const MOST: u8 = MOST_LANES as u8;
/// Lanes about 64 and about the most; the higher ones are lanes of few lines or of none.
pub const EDGE_LANES: [u8; 9] = [62, 63, 64, 65, MOST - 2, MOST - 1, MOST, MOST + 1, 255];

/// Random bytes, bare or behind an opening, or leaning to small numbers.
pub fn random_bytes(random: &mut Random) -> Vec<u8> {
    let mut bytes = Vec::new();
    if random.one_in(2) {
        bytes.extend(good_open(random).to_bytes());
    }
    let small = random.one_in(2);
    for _ in 0..random.below(300) {
        let byte = random.draw() as u8;
        bytes.push(if small { byte % 14 } else { byte });
    }
    bytes
}

/// Well-formed events with small and edge values, mostly behind an opening.
pub fn random_events(random: &mut Random) -> Vec<u8> {
    let mut bytes = Vec::new();
    if !random.one_in(8) {
        bytes.extend(good_open(random).to_bytes());
    }
    let most = random.pick(&[20, 100, 400]);
    for _ in 0..random.below(most) {
        let kind = random.between(0x01, 0x0C) as u8;
        bytes.extend(random_event(random, kind).to_bytes());
    }
    bytes
}

/// N of an accepted opening: few lanes, about 64, about the most, and any number.
pub fn good_lanes(random: &mut Random) -> u8 {
    match random.below(10) {
        0 | 1 => random.between(1, MOST_LANES as u64) as u8,
        _ => random.pick(&[1, 2, 2, 2, 3, 3, 3, 12, 63, 64, 65, MOST - 1, MOST, MOST]),
    }
}

/// The capacity of an accepted opening, odd ones too.
pub fn good_capacity(random: &mut Random) -> u32 {
    match random.below(6) {
        0 => random.between(8, 65_536) as u32,
        1 => random.between(8, 300) as u32,
        2 => random.pick(&[65_536, 65_535, 65_529, 8_192, 4_096]),
        _ => random.pick(&[8, 9, 15, 16, 17, 24, 63, 64, 65, 101, 120, 255, 256, 1_000, 2_047]),
    }
}

pub fn good_open(random: &mut Random) -> Event {
    Event::Open { lanes: good_lanes(random), capacity: good_capacity(random) }
}

/// An opening that gets 6, 7 or both.
pub fn refused_open(random: &mut Random) -> Event {
    let bad_lanes = random.pick(&[0, MOST + 1, MOST + 2, 255]);
    let bad_capacity = random.pick(&[0, 1, 7, 65_537, 65_544, 0x0100_0040, 0x8000_0000, u32::MAX]);
    match random.below(3) {
        0 => Event::Open { lanes: bad_lanes, capacity: good_capacity(random) },
        1 => Event::Open { lanes: good_lanes(random), capacity: bad_capacity },
        _ => Event::Open { lanes: bad_lanes, capacity: bad_capacity },
    }
}

fn some_lane(random: &mut Random) -> u8 {
    match random.below(8) {
        0 if random.one_in(4) => random.pick(&[11, 12]),
        0 => random.pick(&EDGE_LANES),
        1 => random.below(MOST_LANES as u64) as u8,
        _ => random.below(3) as u8,
    }
}

fn some_count(random: &mut Random) -> u16 {
    match random.below(6) {
        0 => random.pick(&[0, 0, 255, 256, 8_192, 8_193, 65_535]),
        _ => random.below(5) as u16,
    }
}

fn some_place(random: &mut Random) -> u32 {
    match random.below(5) {
        0 => random.pick(&[7, 8, 8_191, 8_192, 65_536, 0x8000_0000, u32::MAX]),
        _ => random.below(20) as u32,
    }
}

fn some_purpose(random: &mut Random) -> u8 {
    match random.below(12) {
        0 => random.pick(&[3, 4, 128, 255]),
        _ => random.below(3) as u8,
    }
}

pub fn some_offset(random: &mut Random) -> i32 {
    match random.below(4) {
        0 => random.pick(&[65_536, 65_537, -65_536, -65_537, i32::MAX, i32::MIN, -1]),
        _ => random.below(12) as i32 - 4,
    }
}

/// A view made of small numbers, often against the rules.
fn some_view(random: &mut Random) -> Event {
    let mut list: Blocks = [(0, 0); 8];
    let blocks = random.below(4) as u8;
    let mut at = 0;
    for block in list.iter_mut().take(blocks as usize) {
        let start = at + random.below(3) as u16;
        let length = if random.one_in(10) { 0 } else { random.between(1, 3) as u16 };
        *block = (start, length);
        at = start + length;
    }
    let extent = at + random.below(3) as u16;
    let displacement = random.pick(&[0, 0, 1, 3, 4, 8, 15, 64, 65_537]);
    Event::View { displacement, extent, blocks, list }
}

/// A well-formed event of a listed kind.
pub fn random_event(random: &mut Random, kind: u8) -> Event {
    let lane = some_lane(random);
    match kind {
        0x01 if random.one_in(2) => refused_open(random),
        0x01 => good_open(random),
        0x02 => Event::Want { lane, purpose: some_purpose(random) },
        0x03 => Event::Receive { lane },
        0x04 => Event::Take { lane, count: some_count(random) },
        0x05 => Event::Write { lane, record: random.record() },
        0x06 => Event::Read { lane },
        0x07 => Event::Put { lane, place: some_place(random), record: random.record() },
        0x08 => Event::Look { lane, place: some_place(random) },
        0x09 => Event::Free { lane },
        0x0A => Event::Enter { lane, count: some_count(random) },
        0x0B => some_view(random),
        0x0C => Event::Seek { whence: some_purpose(random), offset: some_offset(random) },
        _ => unreachable!("listed kinds only"),
    }
}

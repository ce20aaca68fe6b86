//! Made-up sheets, groups and cases of single calls. Sheet, group or case k of a seed depends on
//! the seed and k alone.

mod built;
mod calls;
mod candidate;
mod damage;
mod damage_bytes;
mod damage_line;
mod groups;
mod plain;
mod segments;
mod walk;

use crate::event::body_length;
use crate::line::MOST_LANES;
use crate::random::Random;
use crate::sheet::MOST_SHEET;
pub use built::{any_built, built, Shape};
pub use calls::{case, case_name, case_names};
pub use groups::{first_sheet_sort_of, group, group_sort_of, GroupSort, WaitSort};
pub use walk::Walk;

/// A sort of sheet.
#[derive(Clone, Copy, PartialEq, Eq, Debug)]
pub enum Sort {
    Empty,
    Bytes,
    Events,
    Openings,
    Walk,
    LongWalk,
    Full,
    TooLong,
    Cut,
    Unlisted,
}

const ROUND: u64 = 48;
/// The events that fill a sheet up name these lanes: all, and a few past the last.
const PADDING_LANES: usize = MOST_LANES + 3;

/// The sort of sheet k: the sorts come round every 48 sheets, long ones last.
pub fn sort_of(k: u64) -> Sort {
    match k % ROUND {
        0 => Sort::Empty,
        1..=4 => Sort::Cut,
        5..=7 => Sort::Unlisted,
        8..=10 => Sort::Bytes,
        11..=15 => Sort::Events,
        16..=18 => Sort::Openings,
        45 => Sort::Full,
        46 => Sort::TooLong,
        47 => Sort::LongWalk,
        _ => Sort::Walk,
    }
}

/// Sheet k of a seed.
pub fn sheet(seed: u64, k: u64) -> Vec<u8> {
    let mut random = Random::for_sheet(seed, k);
    match sort_of(k) {
        Sort::Empty => Vec::new(),
        Sort::Bytes => plain::random_bytes(&mut random),
        Sort::Events => plain::random_events(&mut random),
        Sort::Openings => openings(&mut random),
        Sort::Walk => {
            let limit = random.pick(&[120, 400, 1_000, 2_500, 6_000]);
            Walk::whole(&mut random, limit)
        }
        Sort::LongWalk => {
            let limit = random.between(20_000, MOST_SHEET as u64) as usize;
            Walk::whole(&mut random, limit)
        }
        Sort::Full => full(&mut random),
        Sort::TooLong => too_long(&mut random),
        Sort::Cut => cut(&mut random, k),
        Sort::Unlisted => unlisted(&mut random),
    }
}

/// Refused openings and calls before the opening, then a short walk or nothing.
fn openings(random: &mut Random) -> Vec<u8> {
    let mut bytes = Vec::new();
    for _ in 0..random.below(12) {
        let kind = if random.one_in(2) { 0x01 } else { random.between(0x02, 0x0C) as u8 };
        let event = if kind == 0x01 {
            plain::refused_open(random)
        } else {
            plain::random_event(random, kind)
        };
        bytes.extend(event.to_bytes());
    }
    if !random.one_in(4) {
        bytes.extend(Walk::whole(random, 300));
    }
    bytes
}

/// Exactly 65,536 bytes: whole events, or (one in three) the last one cut.
fn full(random: &mut Random) -> Vec<u8> {
    if !random.one_in(3) {
        return padded(Walk::whole(random, MOST_SHEET - 2));
    }
    let mut bytes = Walk::whole(random, MOST_SHEET - 1);
    let last = plain::random_event(random, 0x0B).to_bytes();
    let missing = MOST_SHEET - bytes.len();
    if missing >= last.len() {
        return padded(bytes);
    }
    bytes.extend(&last[..missing]);
    bytes
}

/// Fills up to 65,536 bytes with whole events of 2 and 3 bytes; at least 2 are missing.
fn padded(mut bytes: Vec<u8>) -> Vec<u8> {
    while bytes.len() < MOST_SHEET {
        if MOST_SHEET - bytes.len() == 3 {
            bytes.extend([0x02, 0, 3]);
        } else {
            bytes.extend([0x03, (bytes.len() % PADDING_LANES) as u8]);
        }
    }
    bytes
}

/// 65,537 bytes, or now and then more.
fn too_long(random: &mut Random) -> Vec<u8> {
    let mut bytes = padded(Walk::whole(random, 3_000));
    bytes.push(random.pick(&[0x03, 0x00, 0x01]));
    if random.one_in(4) {
        let more = random.pick(&[1, 8, 4_463, 65_535]);
        bytes.resize(MOST_SHEET + more, 0x03);
    }
    bytes
}

/// Every cut of every kind: (kind, bytes kept), the kind byte counted in.
pub fn all_cuts() -> Vec<(u8, usize)> {
    let mut cuts = Vec::new();
    for kind in 0x01..=0x0C {
        let length = body_length(kind).expect("a listed kind");
        cuts.extend((1..=length).map(|kept| (kind, kept)));
    }
    cuts
}

/// A walk (or nothing), then an event cut short; the cuts come in turn.
fn cut(random: &mut Random, k: u64) -> Vec<u8> {
    let cuts = all_cuts();
    let turn = (k / ROUND) * 4 + (k % ROUND - 1);
    let (kind, kept) = cuts[(turn % cuts.len() as u64) as usize];
    let mut bytes = Vec::new();
    if !random.one_in(4) {
        let limit = random.pick(&[8, 60, 400]);
        bytes = Walk::whole(random, limit);
    }
    let event = plain::random_event(random, kind).to_bytes();
    bytes.extend(&event[..kept]);
    bytes
}

/// A walk (or nothing), an unlisted kind, then more events or the end.
fn unlisted(random: &mut Random) -> Vec<u8> {
    let mut bytes = Vec::new();
    if !random.one_in(4) {
        let limit = random.pick(&[8, 60, 400]);
        bytes = Walk::whole(random, limit);
    }
    let kind = match random.below(3) {
        0 => random.pick(&[0x00, 0x0D, 0x0E, 0x10, 0x7F, 0x80, 0xFF]),
        1 => 0x00,
        _ => random.between(0x0D, 0xFF) as u8,
    };
    bytes.push(kind);
    if random.one_in(2) {
        bytes.extend(Walk::whole(random, 200));
    }
    bytes
}

//! Damage to the bytes of a state: the mark, the layout, reserved bytes and entries.

use crate::line::MOST_LANES;
use crate::random::Random;
use crate::state::*;

/// A byte of the state, often of its head or of the entries of the first lanes.
fn some_byte(random: &mut Random) -> usize {
    let end = random.pick(&[AT_RESERVED, AT_ENTRIES + 3 * ENTRY_BYTES, STATE_BYTES]);
    random.below(end as u64) as usize
}

pub fn one_byte(random: &mut Random, bytes: &mut [u8]) {
    let at = some_byte(random);
    let any = random.between(1, 255) as u8;
    let change = random.pick(&[1, 2, 0x80, any]);
    bytes[at] ^= change;
}

/// Two bytes that differ, neighbours or not.
pub fn two_swapped(random: &mut Random, bytes: &mut [u8]) {
    loop {
        let at = some_byte(random);
        let other = if random.one_in(2) { at + 1 } else { some_byte(random) };
        if other < STATE_BYTES && bytes[at] != bytes[other] {
            bytes.swap(at, other);
            return;
        }
    }
}

pub fn mark(random: &mut Random, bytes: &mut [u8]) {
    let at = AT_MARK + random.below(4) as usize;
    bytes[at] ^= random.pick(&[1, 0x20, 0xFF]);
}

pub fn layout(random: &mut Random, bytes: &mut [u8]) {
    let other: u32 = random.pick(&[0, 2, 2, 3, 0x0100_0000, u32::MAX]);
    bytes[AT_LAYOUT..AT_LANES].copy_from_slice(&other.to_be_bytes());
}

/// The last byte is that of layout 1.
pub fn layout_high(random: &mut Random, bytes: &mut [u8]) {
    let at = AT_LAYOUT + random.below(3) as usize;
    bytes[at] = random.pick(&[1, 2, 128]);
}

pub fn reserved(random: &mut Random, bytes: &mut [u8], nth: usize) {
    bytes[AT_RESERVED + nth] = random.pick(&[1, 2, 128, 255]);
}

pub fn reserved_middle(random: &mut Random, bytes: &mut [u8]) {
    let nth = random.pick(&[1, 2]);
    reserved(random, bytes, nth);
}

/// The entry of a lane, one of the line's or another.
fn some_entry<'a>(random: &mut Random, bytes: &'a mut [u8]) -> &'a mut [u8] {
    let lanes = u64::from(bytes[AT_LANES]).clamp(1, MOST_LANES as u64);
    let below = random.pick(&[lanes, lanes, MOST_LANES as u64]);
    entry(bytes, random.below(below) as usize)
}

pub fn entry(bytes: &mut [u8], lane: usize) -> &mut [u8] {
    let at = AT_ENTRIES + ENTRY_BYTES * lane;
    &mut bytes[at..at + ENTRY_BYTES]
}

/// An entry with one of these phases; there must be one.
fn entry_in<'a>(random: &mut Random, bytes: &'a mut [u8], phases: &[u8]) -> &'a mut [u8] {
    let has = |lane: &usize| phases.contains(&bytes[AT_ENTRIES + ENTRY_BYTES * lane]);
    let lanes: Vec<usize> = (0..MOST_LANES).filter(has).collect();
    entry(bytes, random.pick(&lanes))
}

pub fn phase_above(random: &mut Random, bytes: &mut [u8]) {
    let entry = some_entry(random, bytes);
    entry[0] = random.pick(&[7, 8, entry[0] | 0x80, 255]);
}

pub fn purpose_above(random: &mut Random, bytes: &mut [u8]) {
    entry_in(random, bytes, &[1, 2, 3])[1] = random.pick(&[3, 4, 128, 255]);
}

/// Sets one of these bytes of an entry, which were 0.
fn set_one(random: &mut Random, part: &mut [u8]) {
    let at = random.below(part.len() as u64) as usize;
    part[at] = random.pick(&[1, 128, 255]);
}

/// The entry of an idle lane, below N or past it. Where all 128 are at work one is made idle.
fn idle_entry<'a>(random: &mut Random, bytes: &'a mut [u8]) -> &'a mut [u8] {
    if (0..MOST_LANES).all(|lane| entry(bytes, lane)[0] != 0) {
        entry(bytes, MOST_LANES - 1).fill(0);
    }
    let lanes = usize::from(bytes[AT_LANES]);
    let below: Vec<usize> = (0..lanes).filter(|&lane| entry(bytes, lane)[0] == 0).collect();
    if below.is_empty() || random.one_in(3) {
        return entry_in(random, bytes, &[0]);
    }
    entry(bytes, random.pick(&below))
}

pub fn idle_purpose(random: &mut Random, bytes: &mut [u8]) {
    idle_entry(random, bytes)[1] = random.pick(&[1, 2]);
}

pub fn idle_records(random: &mut Random, bytes: &mut [u8]) {
    let idle = idle_entry(random, bytes);
    set_one(random, &mut idle[2..4]);
}

pub fn idle_place(random: &mut Random, bytes: &mut [u8]) {
    let idle = idle_entry(random, bytes);
    set_one(random, &mut idle[4..8]);
}

/// Records in an entry of one of these phases, which then has the last one.
pub fn spare_records(random: &mut Random, bytes: &mut [u8], phases: &[u8], phase: u8) {
    let entry = entry_in(random, bytes, phases);
    entry[0] = phase;
    set_one(random, &mut entry[2..4]);
}

pub fn waiting_place(random: &mut Random, bytes: &mut [u8]) {
    let waiting = entry_in(random, bytes, &[1]);
    set_one(random, &mut waiting[4..8]);
}

pub fn writing_purpose(random: &mut Random, bytes: &mut [u8]) {
    let entry = entry_in(random, bytes, &[4, 5]);
    (entry[0], entry[1]) = (4, random.pick(&[1, 2]));
}

pub fn reading_purpose(random: &mut Random, bytes: &mut [u8]) {
    let entry = entry_in(random, bytes, &[4, 5]);
    (entry[0], entry[1]) = (5, random.pick(&[0, 2]));
}

pub fn gathered_purpose(random: &mut Random, bytes: &mut [u8]) {
    entry_in(random, bytes, &[6])[1] = random.pick(&[1, 2]);
}

pub fn gathered_place(random: &mut Random, bytes: &mut [u8]) {
    let gathered = entry_in(random, bytes, &[6]);
    set_one(random, &mut gathered[4..8]);
}

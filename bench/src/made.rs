//! Made-up sheets and single calls from a seed: random events that take no account of the state of
//! the line. Books and reports to lend with them.

use crate::proved::{Report, Row, LANES};
use crate::single::Calls;

/// Marsaglia's xorshift of 64 bits with a final product.
pub struct Random(u64);

impl Random {
    pub fn new(seed: u64) -> Random {
        Random(seed.wrapping_mul(0x9E37_79B9_7F4A_7C15) | 1)
    }

    fn next(&mut self) -> u64 {
        self.0 ^= self.0 >> 12;
        self.0 ^= self.0 << 25;
        self.0 ^= self.0 >> 27;
        self.0.wrapping_mul(0x2545_F491_4F6C_DD1D) >> 16
    }

    /// A number below a limit.
    pub fn below(&mut self, limit: u64) -> u64 {
        self.next() % limit
    }

    fn one_in(&mut self, limit: u64) -> bool {
        self.below(limit) == 0
    }
}

/// What the events of one sheet are drawn from.
struct Setting {
    lanes: u8,
    capacity: u32,
    /// The kinds that come often here; the others come now and then.
    often: &'static [u8],
}

const OFTEN: [&[u8]; 5] = [
    &[2, 3, 4, 5],
    &[2, 3, 4, 5, 6],
    &[2, 3, 7, 8, 9],
    &[5, 10],
    &[2, 3, 4, 5, 6, 7, 8, 9, 10, 11, 12],
];

fn setting(random: &mut Random) -> Setting {
    let lanes = [1, 2, 2, 3, 3, 5, 12, 64, 65, 127, 128][random.below(11) as usize];
    let capacity = [8, 63, 64, 200, 4_096, 65_535, 65_536][random.below(7) as usize];
    Setting { lanes, capacity, often: OFTEN[random.below(5) as usize] }
}

fn lane(random: &mut Random, setting: &Setting) -> u8 {
    match random.below(40) {
        0 => random.below(256) as u8,
        1 => setting.lanes,
        _ => random.below(setting.lanes as u64) as u8,
    }
}

fn count(random: &mut Random) -> u16 {
    match random.below(20) {
        0 => random.below(65_536) as u16,
        1 => 65_535,
        _ => random.below(4) as u16,
    }
}

fn place(random: &mut Random) -> u32 {
    match random.below(10) {
        0 => random.next() as u32,
        1 => u32::MAX,
        _ => random.below(12) as u32,
    }
}

fn code(random: &mut Random) -> u8 {
    if random.one_in(20) {
        random.below(256) as u8
    } else {
        random.below(3) as u8
    }
}

fn offset(random: &mut Random) -> i32 {
    match random.below(8) {
        0 => random.next() as i32,
        1 => 65_536,
        2 => 65_537,
        _ => random.below(9) as i32 - 3,
    }
}

/// A view's body: most keep the rules; the others have one field out of order.
fn view(random: &mut Random, setting: &Setting) -> Vec<u8> {
    let used = 1 + random.below(8) as usize;
    let mut blocks = [(0u16, 0u16); 8];
    let mut end = 0;
    for block in &mut blocks[..used] {
        *block = (end + random.below(4) as u16, 1 + random.below(3) as u16);
        end = block.0 + block.1;
    }
    let mut extent = end + random.below(4) as u16;
    let mut displacement = random.below(24).min(setting.capacity as u64) as u32;
    let mut used = used as u8;
    match random.below(16) {
        0 => extent = end - 1,
        1 => extent = [0, 1_024, 1_025][random.below(3) as usize],
        2 => displacement = setting.capacity + random.below(2) as u32,
        3 => used = random.below(12) as u8,
        4 => blocks[random.below(8) as usize].1 = random.below(2) as u16,
        5 => blocks[random.below(8) as usize].0 = random.below(40) as u16,
        _ => {}
    }
    let mut body = displacement.to_be_bytes().to_vec();
    body.extend_from_slice(&extent.to_be_bytes());
    body.push(used);
    for (start, length) in blocks {
        body.extend_from_slice(&start.to_be_bytes());
        body.extend_from_slice(&length.to_be_bytes());
    }
    body
}

fn kind(random: &mut Random, setting: &Setting) -> u8 {
    match random.below(200) {
        0 => 1,
        1 => random.below(256) as u8,
        2..=20 => 2 + random.below(11) as u8,
        _ => setting.often[random.below(setting.often.len() as u64) as usize],
    }
}

/// The body of a kind; an unlisted kind has none.
fn body(random: &mut Random, setting: &Setting, kind: u8) -> Vec<u8> {
    let lane = lane(random, setting);
    let record = random.next().to_be_bytes();
    match kind {
        1 => [&[setting.lanes], &setting.capacity.to_be_bytes()[..]].concat(),
        2 => vec![lane, code(random)],
        3 | 6 | 9 => vec![lane],
        4 | 10 => [&[lane], &count(random).to_be_bytes()[..]].concat(),
        5 => [&[lane], &record[..]].concat(),
        7 => [&[lane], &place(random).to_be_bytes()[..], &record].concat(),
        8 => [&[lane], &place(random).to_be_bytes()[..]].concat(),
        11 => view(random, setting),
        12 => [&[code(random)], &offset(random).to_be_bytes()[..]].concat(),
        _ => Vec::new(),
    }
}

/// The events before most lines open: an event too early, or an opening out of range.
fn early(random: &mut Random, sheet: &mut Vec<u8>) {
    if random.one_in(4) {
        sheet.extend_from_slice(&[2, 0, 0]);
    }
    if random.one_in(4) {
        let lanes = [0, 129, 255][random.below(3) as usize];
        sheet.extend_from_slice(&[1, lanes, 0, 0, 0, 64]);
    }
    if random.one_in(4) {
        let capacity = [0u32, 7, 65_537, u32::MAX][random.below(4) as usize];
        sheet.extend_from_slice(&[&[1, 3], &capacity.to_be_bytes()[..]].concat());
    }
}

/// A sheet of some hundreds of events, sometimes with its end cut off.
pub fn sheet(random: &mut Random) -> Vec<u8> {
    let setting = setting(random);
    let mut sheet = Vec::new();
    early(random, &mut sheet);
    sheet.extend(body(random, &setting, 1).iter().fold(vec![1], |mut event, &byte| {
        event.push(byte);
        event
    }));
    for _ in 0..random.below(600) {
        let kind = kind(random, &setting);
        sheet.push(kind);
        sheet.extend(body(random, &setting, kind));
    }
    if random.one_in(4) {
        sheet.truncate(random.below(sheet.len() as u64 + 1) as usize);
    }
    sheet
}

/// Some hundreds of single calls. Now and then a body is cut short, or has bytes after its fields.
pub fn calls(random: &mut Random) -> Calls {
    let setting = setting(random);
    let mut calls = Calls::default();
    if random.one_in(4) {
        calls.add(2, &[0, 0]);
        calls.add(1, &[[0, 129][random.below(2) as usize], 0, 0, 0, 64]);
        calls.add(1, &[3, 0, random.below(2) as u8, 0, 7]);
    }
    calls.add(1, &body(random, &setting, 1));
    for _ in 0..random.below(600) {
        let kind = kind(random, &setting);
        let mut body = body(random, &setting, kind);
        match random.below(50) {
            0 => body.truncate(random.below(body.len() as u64 + 1) as usize),
            1 => body.push(random.below(256) as u8),
            _ => {}
        }
        calls.add(kind, &body);
    }
    calls
}

/// A sheet with some of its bytes changed.
pub fn altered(random: &mut Random, sheet: &[u8]) -> Vec<u8> {
    let mut sheet = sheet.to_vec();
    for _ in 0..1 + random.below(8) {
        let at = random.below(sheet.len() as u64) as usize;
        sheet[at] = random.below(256) as u8;
    }
    sheet
}

/// A book of bytes that an opening has to clear.
pub fn book(random: &mut Random, length: usize) -> Vec<u8> {
    (0..length).map(|_| random.next() as u8).collect()
}

/// A number of a lent report: small, large, or the last that can still grow.
fn reported(random: &mut Random) -> u64 {
    match random.below(8) {
        0 => (1 << 63) - 1,
        1 => random.next() << 15,
        _ => random.below(100),
    }
}

fn row(random: &mut Random) -> Row {
    Row {
        times: reported(random),
        sum: reported(random),
        largest: reported(random),
        unended: reported(random),
    }
}

/// A report whose rows have nothing to do with each other; a run can grow it.
pub fn report(random: &mut Random) -> Report {
    Report { lane: std::array::from_fn(|_| row(random)), all: row(random) }
}

/// The same with one number of one row at 2^63 or above.
pub fn full_report(random: &mut Random) -> Report {
    let mut report = report(random);
    let number = 1 << 63 | if random.one_in(2) { 0 } else { random.next() };
    let at = random.below(LANES as u64 + 1) as usize;
    let row = if at < LANES { &mut report.lane[at] } else { &mut report.all };
    match random.below(4) {
        0 => row.times = number,
        1 => row.sum = number,
        2 => row.largest = number,
        _ => row.unended = number,
    }
    report
}

//! Every rule that state bytes break, by name: those of the header for bytes that are a line, and
//! those of document 01 for a sound one. Written over the bare numbers of the bytes and apart from
//! `state` and `refuse`, so that the two can be held against each other.

use crate::state::*;

type Number = u64;

/// Rules of the header: bytes that break one are no line.
pub const READING_RULES: [&str; 16] = [
    "mark",
    "layout",
    "reserved",
    "phase above 6",
    "purpose above 2",
    "idle with a purpose",
    "idle with records",
    "idle with a place",
    "waiting with records",
    "waiting with a place",
    "woken with records",
    "holding with records",
    "writing with another purpose",
    "reading with another purpose",
    "gathered with a purpose",
    "gathered with a place",
];

/// Rules of document 01's sound line.
pub const SOUND_RULES: [&str; 30] = [
    "unopened with more",
    "N above 128",
    "capacity below 8",
    "capacity above 65,536",
    "book below the capacity",
    "size above the capacity",
    "pointer above 65,536",
    "displacement above the capacity",
    "extent out of range",
    "no blocks",
    "blocks above 8",
    "block of length 0",
    "block below the end before",
    "last block past the extent",
    "unused block not zero",
    "flag neither 0 nor 1",
    "flag not up",
    "flag not down",
    "no lane has the turn",
    "two lanes have the turn",
    "value is not the pointer",
    "gathered beside others",
    "all gathered",
    "gathered total does not fit",
    "busy with none left",
    "region past the pointer",
    "regions share a place",
    "writer does not fit",
    "entry past N",
    "flag past N",
];

/// An entry's numbers.
#[derive(Clone, Copy)]
struct Entry {
    phase: Number,
    purpose: Number,
    records: Number,
    place: Number,
}

/// The bytes' numbers, whatever they are.
struct Numbers {
    n: Number,
    capacity: Number,
    size: Number,
    pointer: Number,
    displacement: Number,
    extent: Number,
    blocks: Number,
    list: Vec<(Number, Number)>,
    entries: Vec<Entry>,
    flags: Vec<u8>,
}

/// The number of so many bytes.
fn number(bytes: &[u8], at: usize, length: usize) -> Number {
    bytes[at..at + length].iter().fold(0, |value, &byte| value * 256 + Number::from(byte))
}

/// The names of all rules that the first 1,216 bytes break with a book of this length. Where one
/// of the header's is broken, those of document 01 are not looked at.
pub fn broken(bytes: &[u8], book_length: usize) -> Vec<&'static str> {
    let numbers = Numbers::of(bytes);
    let reading = numbers.reading_rules(bytes);
    if !reading.is_empty() {
        return names(&reading);
    }
    if numbers.n == 0 {
        return names(&[("unopened with more", numbers.has_more_than_unopened(bytes))]);
    }
    let mut rules = numbers.range_rules(book_length as Number);
    let view_rules = numbers.view_rules();
    let view_good = view_rules.iter().all(|rule| !rule.1);
    rules.extend(view_rules);
    rules.extend(numbers.flag_rules());
    rules.extend(numbers.gathered_rules(view_good));
    rules.extend(numbers.busy_rules(view_good));
    names(&rules)
}

type Rule = (&'static str, bool);

fn names(rules: &[Rule]) -> Vec<&'static str> {
    rules.iter().filter(|rule| rule.1).map(|rule| rule.0).collect()
}

impl Numbers {
    fn of(bytes: &[u8]) -> Numbers {
        let block = |i: usize| (number(bytes, 28 + 4 * i, 2), number(bytes, 30 + 4 * i, 2));
        let entry = |i: usize| Entry {
            phase: number(bytes, 64 + 8 * i, 1),
            purpose: number(bytes, 65 + 8 * i, 1),
            records: number(bytes, 66 + 8 * i, 2),
            place: number(bytes, 68 + 8 * i, 4),
        };
        Numbers {
            n: number(bytes, 8, 1),
            capacity: number(bytes, 9, 4),
            size: number(bytes, 13, 4),
            pointer: number(bytes, 17, 4),
            displacement: number(bytes, 21, 4),
            extent: number(bytes, 25, 2),
            blocks: number(bytes, 27, 1),
            list: (0..8).map(block).collect(),
            entries: (0..128).map(entry).collect(),
            flags: bytes[1_088..STATE_BYTES].to_vec(),
        }
    }

    /// The lanes below N; all of 128 where N is above.
    fn lanes(&self) -> usize {
        self.n.min(128) as usize
    }

    fn live(&self) -> &[Entry] {
        &self.entries[..self.lanes()]
    }

    /// The header's rules that are broken. A purpose above 2 is no purpose of any phase, and is
    /// told once.
    fn reading_rules(&self, bytes: &[u8]) -> Vec<Rule> {
        let any = |is: fn(&Entry) -> bool| self.entries.iter().any(is);
        let rules = [
            ("mark", bytes[..4] != [0x47, 0x55, 0x44, 0x4C]),
            ("layout", bytes[4..8] != [0, 0, 0, 1]),
            ("reserved", bytes[60..64] != [0; 4]),
            ("phase above 6", any(|e| e.phase > 6)),
            ("purpose above 2", any(|e| e.purpose > 2)),
            ("idle with a purpose", any(|e| e.phase == 0 && [1, 2].contains(&e.purpose))),
            ("idle with records", any(|e| e.phase == 0 && e.records != 0)),
            ("idle with a place", any(|e| e.phase == 0 && e.place != 0)),
            ("waiting with records", any(|e| e.phase == 1 && e.records != 0)),
            ("waiting with a place", any(|e| e.phase == 1 && e.place != 0)),
            ("woken with records", any(|e| e.phase == 2 && e.records != 0)),
            ("holding with records", any(|e| e.phase == 3 && e.records != 0)),
            ("writing with another purpose", any(|e| e.phase == 4 && [1, 2].contains(&e.purpose))),
            ("reading with another purpose", any(|e| e.phase == 5 && [0, 2].contains(&e.purpose))),
            ("gathered with a purpose", any(|e| e.phase == 6 && [1, 2].contains(&e.purpose))),
            ("gathered with a place", any(|e| e.phase == 6 && e.place != 0)),
        ];
        rules.into_iter().filter(|rule| rule.1).collect()
    }

    /// The plain view is extent 1 and one block (0, 1); all else of an unopened line is 0.
    fn has_more_than_unopened(&self, bytes: &[u8]) -> bool {
        let is_plain = (self.extent, self.blocks, self.list[0]) == (1, 1, (0, 1));
        let others = [&bytes[8..25], &bytes[32..STATE_BYTES]];
        !is_plain || others.concat().iter().any(|byte| *byte != 0)
    }

    fn range_rules(&self, book_length: Number) -> Vec<Rule> {
        vec![
            ("N above 128", self.n > 128),
            ("capacity below 8", self.capacity < 8),
            ("capacity above 65,536", self.capacity > 65_536),
            ("book below the capacity", book_length < self.capacity),
            ("size above the capacity", self.size > self.capacity),
            ("pointer above 65,536", self.pointer > 65_536),
        ]
    }

    fn view_rules(&self) -> Vec<Rule> {
        let used = &self.list[..self.blocks.min(8) as usize];
        let unused = &self.list[self.blocks.min(8) as usize..];
        let below = used.windows(2).any(|pair| pair[1].0 < pair[0].0 + pair[0].1);
        let past = used.last().is_some_and(|block| block.0 + block.1 > self.extent);
        vec![
            ("displacement above the capacity", self.displacement > self.capacity),
            ("extent out of range", self.extent < 1 || self.extent > 1_024),
            ("no blocks", self.blocks < 1),
            ("blocks above 8", self.blocks > 8),
            ("block of length 0", used.iter().any(|block| block.1 == 0)),
            ("block below the end before", below),
            ("last block past the extent", past),
            ("unused block not zero", unused.iter().any(|block| *block != (0, 0))),
        ]
    }

    fn flag_rules(&self) -> Vec<Rule> {
        let flagged = |entry: &Entry| (1..=3).contains(&entry.phase);
        let pairs = || self.live().iter().zip(&self.flags);
        let turn: Vec<&Entry> =
            self.live().iter().filter(|entry| entry.phase == 2 || entry.phase == 3).collect();
        let up = self.flags.contains(&1);
        let other = |entry: &&Entry| entry.place != self.pointer;
        let past = self.lanes();
        vec![
            ("flag neither 0 nor 1", self.flags.iter().any(|flag| *flag > 1)),
            ("flag not up", pairs().any(|(entry, flag)| flagged(entry) && *flag == 0)),
            ("flag not down", pairs().any(|(entry, flag)| !flagged(entry) && *flag == 1)),
            ("no lane has the turn", up && turn.is_empty()),
            ("two lanes have the turn", up && turn.len() > 1),
            ("value is not the pointer", up && turn.iter().any(other)),
            ("entry past N", self.entries[past..].iter().any(|entry| entry.phase != 0)),
            ("flag past N", self.flags[past..].contains(&1)),
        ]
    }

    fn gathered_rules(&self, view_good: bool) -> Vec<Rule> {
        let gathered: Vec<&Entry> = self.live().iter().filter(|entry| entry.phase == 6).collect();
        if gathered.is_empty() {
            return Vec::new();
        }
        let total = gathered.iter().map(|entry| entry.records).sum();
        let others = self.live().iter().any(|entry| entry.phase != 0 && entry.phase != 6);
        vec![
            ("gathered beside others", others),
            ("all gathered", gathered.len() == self.lanes()),
            ("gathered total does not fit", view_good && !self.fits(self.pointer, total)),
        ]
    }

    fn busy_rules(&self, view_good: bool) -> Vec<Rule> {
        let busy: Vec<&Entry> =
            self.live().iter().filter(|entry| entry.phase == 4 || entry.phase == 5).collect();
        let end = |entry: &Entry| entry.place + entry.records;
        let meet = |a: &Entry, b: &Entry| a.place.max(b.place) < end(a).min(end(b));
        let share = (0..busy.len()).any(|i| (0..i).any(|j| meet(busy[i], busy[j])));
        let unfit = |entry: &&Entry| entry.phase == 4 && !self.fits(entry.place, entry.records);
        vec![
            ("busy with none left", busy.iter().any(|entry| entry.records == 0)),
            ("region past the pointer", busy.iter().any(|entry| end(entry) > self.pointer)),
            ("regions share a place", share),
            ("writer does not fit", view_good && busy.iter().any(unfit)),
        ]
    }

    /// By a view that keeps its rules.
    fn fits(&self, place: Number, records: Number) -> bool {
        if records == 0 {
            return true;
        }
        let used = &self.list[..self.blocks as usize];
        let shown: Vec<Number> =
            used.iter().flat_map(|&(start, length)| start..start + length).collect();
        let last = place + records - 1;
        let (tile, nth) = (last / shown.len() as Number, last as usize % shown.len());
        self.displacement + 8 * (tile * self.extent + shown[nth]) + 8 <= self.capacity
    }
}

//! What a set of sheets has hit: answer words, refusals by kind of event, and sorts of seeks to
//! the end.

use crate::answer::{Answer, WORDS};
use crate::ends::{end_seeks, EndSeek, END_SORTS};
use crate::event::read_event;
use crate::sheet::{list_of, MOST_SHEET, TOO_LONG};
use std::collections::BTreeMap;

/// Which kind can be refused with which number. Kind 00 stands for all unlisted.
/// (1 is left out: a run from an unopened line never meets it.)
pub const CAN_REFUSE: &[(u8, u8)] = &[
    (0x00, 2),
    (0x01, 3),
    (0x01, 5),
    (0x01, 6),
    (0x01, 7),
    (0x02, 3),
    (0x02, 4),
    (0x02, 8),
    (0x02, 9),
    (0x02, 12),
    (0x02, 13),
    (0x03, 3),
    (0x03, 4),
    (0x03, 8),
    (0x03, 13),
    (0x03, 14),
    (0x04, 3),
    (0x04, 4),
    (0x04, 8),
    (0x04, 13),
    (0x04, 15),
    (0x04, 16),
    (0x05, 3),
    (0x05, 4),
    (0x05, 8),
    (0x05, 13),
    (0x06, 3),
    (0x06, 4),
    (0x06, 8),
    (0x06, 13),
    (0x07, 3),
    (0x07, 4),
    (0x07, 8),
    (0x07, 13),
    (0x07, 16),
    (0x08, 3),
    (0x08, 4),
    (0x08, 8),
    (0x08, 13),
    (0x09, 3),
    (0x09, 4),
    (0x09, 8),
    (0x09, 13),
    (0x0A, 3),
    (0x0A, 4),
    (0x0A, 8),
    (0x0A, 11),
    (0x0A, 13),
    (0x0A, 16),
    (0x0B, 3),
    (0x0B, 4),
    (0x0B, 10),
    (0x0B, 11),
    (0x0C, 3),
    (0x0C, 4),
    (0x0C, 9),
    (0x0C, 11),
    (0x0C, 15),
];

/// The kinds of a sheet's events, as a run reads them (it ends after 2 or 3).
pub fn kinds(sheet: &[u8]) -> Vec<u8> {
    let mut kinds = Vec::new();
    let mut at = 0;
    loop {
        let before = at;
        match read_event(sheet, &mut at) {
            Some(Ok(event)) => kinds.push(event.kind()),
            Some(Err(2)) => {
                kinds.push(0);
                return kinds;
            }
            Some(Err(_)) => {
                kinds.push(sheet[before]);
                return kinds;
            }
            None => return kinds,
        }
    }
}

/// Counts over all sheets.
#[derive(Default)]
pub struct Cover {
    pub sheets: u64,
    pub events: u64,
    pub too_long: u64,
    pub words: BTreeMap<&'static str, Hits>,
    pub refused: BTreeMap<(u8, u64), Hits>,
    pub ends: BTreeMap<&'static str, Hits>,
}

/// How many events hit a thing, and in how many sheets.
#[derive(Default, Clone, Copy)]
pub struct Hits {
    pub events: u64,
    pub sheets: u64,
    last_sheet: u64,
}

impl Hits {
    /// One more event; sheets are numbered from 1 here.
    pub(crate) fn hit(&mut self, sheet: u64) {
        self.events += 1;
        if self.last_sheet != sheet {
            self.last_sheet = sheet;
            self.sheets += 1;
        }
    }
}

impl Cover {
    /// Counts one sheet's printed lines; a sentence if they cannot be read.
    pub fn count(&mut self, sheet: &[u8], printed: &[u8]) -> Result<(), String> {
        self.sheets += 1;
        if sheet.len() > MOST_SHEET {
            self.too_long += 1;
            let right = printed == TOO_LONG.as_bytes();
            return if right { Ok(()) } else { Err("not `sheet too long`".to_string()) };
        }
        let text =
            std::str::from_utf8(printed).map_err(|_| "bytes that are no text".to_string())?;
        let lines: Vec<&str> = text.lines().collect();
        let kinds = kinds(sheet);
        if lines.len() != kinds.len() + 1 {
            return Err(format!("{} lines for {} events and an end", lines.len(), kinds.len()));
        }
        let mut answers = Vec::new();
        for (number, (line, kind)) in lines.iter().zip(kinds).enumerate() {
            answers.push(self.count_line(number, line, kind)?);
        }
        end_seeks(&list_of(sheet, &answers)).iter().for_each(|seek| self.count_end(seek));
        Ok(())
    }

    fn count_line(&mut self, number: usize, line: &str, kind: u8) -> Result<Answer, String> {
        let rest = line.strip_prefix(&format!("{number} "));
        let Some(answer) = rest.and_then(Answer::parse) else {
            return Err(format!("line that is no answer: {line}"));
        };
        if !answer.belongs_to(kind) {
            return Err(format!("line `{line}` to an event of kind {kind:02X}"));
        }
        self.events += 1;
        self.words.entry(answer.word()).or_default().hit(self.sheets);
        if let Answer::Refused { number } = answer {
            self.refused.entry((kind, number)).or_default().hit(self.sheets);
        }
        Ok(answer)
    }

    fn count_end(&mut self, seek: &EndSeek) {
        for (name, is_of) in END_SORTS {
            if is_of(seek) {
                self.ends.entry(name).or_default().hit(self.sheets);
            }
        }
    }

    /// What was never hit, and what should never have been.
    pub fn faults(&self) -> Vec<String> {
        let mut faults = Vec::new();
        for word in WORDS {
            if !self.words.contains_key(word) {
                faults.push(format!("answer `{word}` was never hit"));
            }
        }
        for &(kind, number) in CAN_REFUSE {
            if !self.refused.contains_key(&(kind, u64::from(number))) {
                faults.push(format!("refusal {number} of kind {} was never hit", name(kind)));
            }
        }
        for (name, _) in END_SORTS {
            if !self.ends.contains_key(name) {
                faults.push(format!("seek to the end `{name}` was never hit"));
            }
        }
        for &(kind, number) in self.refused.keys() {
            if !CAN_REFUSE.iter().any(|&(k, n)| (k, u64::from(n)) == (kind, number)) {
                faults.push(format!("refusal {number} of kind {} should not occur", name(kind)));
            }
        }
        faults
    }

    /// The counts as text.
    pub fn table(&self) -> String {
        let mut out = format!(
            "{} sheets, {} events, {} sheets too long\n",
            self.sheets, self.events, self.too_long
        );
        let units = ["events", "sheets"];
        out.push_str(&name_table("answer", units, &WORDS, &self.words));
        out.push_str(&refusal_table("events refused", 2, &self.refused, |hits| hits.events));
        out.push_str(&refusal_table("sheets with it", 2, &self.refused, |hits| hits.sheets));
        let sorts = END_SORTS.map(|sort| sort.0);
        out.push_str(&name_table("seek to the end", units, &sorts, &self.ends));
        out
    }
}

/// Kinds by numbers from the first one on; a dot where the kind cannot give the number.
pub(crate) fn refusal_table(
    title: &str,
    first: u8,
    refused: &BTreeMap<(u8, u64), Hits>,
    value: fn(&Hits) -> u64,
) -> String {
    let mut out = format!("{title:<14}");
    for number in first..=16 {
        out.push_str(&format!("{number:>7}"));
    }
    for kind in 0x00..=0x0C {
        out.push_str(&format!("\n{:>14}", name(kind)));
        for number in first..=16 {
            let cell = match refused.get(&(kind, u64::from(number))) {
                Some(hits) => value(hits).to_string(),
                None if number == 1 || CAN_REFUSE.contains(&(kind, number)) => "0".to_string(),
                None => ".".to_string(),
            };
            out.push_str(&format!("{cell:>7}"));
        }
    }
    out.push('\n');
    out
}

/// A line for each name, with its two counts: events and sheets, or calls and cases.
pub(crate) fn name_table(
    title: &str,
    units: [&str; 2],
    names: &[&'static str],
    hit: &BTreeMap<&'static str, Hits>,
) -> String {
    let width = names.iter().map(|name| name.len()).max().unwrap_or(0).max(title.len());
    let mut out = format!("{title:>width$} {:>9} {:>9}\n", units[0], units[1]);
    for name in names {
        let hits = hit.get(name).copied().unwrap_or_default();
        out.push_str(&format!("{name:>width$} {:>9} {:>9}\n", hits.events, hits.sheets));
    }
    out
}

pub(crate) fn name(kind: u8) -> String {
    if kind == 0 {
        "??".to_string()
    } else {
        format!("{kind:02X}")
    }
}

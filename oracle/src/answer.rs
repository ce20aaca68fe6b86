//! The answers, as document 01 prints them, and read back from a printed line.

use crate::event::Record;

#[derive(Clone, Copy, PartialEq, Eq, Debug)]
pub enum Answer {
    Open { lanes: u64, capacity: u64 },
    Holds { pointer: u64 },
    Waits,
    Region { start: u64, count: u64, wakes: Option<u64> },
    Wrote { position: u64 },
    Record { record: Record },
    None,
    Freed { wakes: Option<u64> },
    Gathered,
    Ordered { before: u64, total: u64 },
    View,
    Seek { pointer: u64 },
    Refused { number: u64 },
}

/// The words in the order of document 01.
pub const WORDS: [&str; 13] = [
    "open", "holds", "waits", "region", "wrote", "record", "none", "freed", "gathered", "ordered",
    "view", "seek", "refused",
];

fn wakes_text(wakes: Option<u64>) -> String {
    match wakes {
        Some(lane) => format!("wakes {lane}"),
        None => "wakes none".to_string(),
    }
}

impl Answer {
    pub fn word(&self) -> &'static str {
        match self {
            Answer::Open { .. } => "open",
            Answer::Holds { .. } => "holds",
            Answer::Waits => "waits",
            Answer::Region { .. } => "region",
            Answer::Wrote { .. } => "wrote",
            Answer::Record { .. } => "record",
            Answer::None => "none",
            Answer::Freed { .. } => "freed",
            Answer::Gathered => "gathered",
            Answer::Ordered { .. } => "ordered",
            Answer::View => "view",
            Answer::Seek { .. } => "seek",
            Answer::Refused { .. } => "refused",
        }
    }

    /// The word and its values, single blanks between.
    pub fn text(&self) -> String {
        let word = self.word();
        match self {
            Answer::Open { lanes, capacity } => format!("{word} {lanes} {capacity}"),
            Answer::Holds { pointer } | Answer::Seek { pointer } => format!("{word} {pointer}"),
            Answer::Region { start, count, wakes } => {
                format!("{word} {start} {count} {}", wakes_text(*wakes))
            }
            Answer::Wrote { position } => format!("{word} {position}"),
            Answer::Record { record } => {
                let digits: String = record.iter().map(|byte| format!("{byte:02x}")).collect();
                format!("{word} {digits}")
            }
            Answer::Freed { wakes } => format!("{word} {}", wakes_text(*wakes)),
            Answer::Ordered { before, total } => format!("{word} {before} {total}"),
            Answer::Refused { number } => format!("{word} {number}"),
            Answer::Waits | Answer::None | Answer::Gathered | Answer::View => word.to_string(),
        }
    }

    /// The answer of a printed text; nothing unless it is printed just so.
    pub fn parse(text: &str) -> Option<Answer> {
        let parts: Vec<&str> = text.split(' ').collect();
        let answer = match parts.as_slice() {
            ["open", a, b] => Answer::Open { lanes: number(a)?, capacity: number(b)? },
            ["holds", a] => Answer::Holds { pointer: number(a)? },
            ["waits"] => Answer::Waits,
            ["region", a, b, "wakes", w] => {
                Answer::Region { start: number(a)?, count: number(b)?, wakes: woken(w)? }
            }
            ["wrote", a] => Answer::Wrote { position: number(a)? },
            ["record", digits] => Answer::Record { record: record(digits)? },
            ["none"] => Answer::None,
            ["freed", "wakes", w] => Answer::Freed { wakes: woken(w)? },
            ["gathered"] => Answer::Gathered,
            ["ordered", a, b] => Answer::Ordered { before: number(a)?, total: number(b)? },
            ["view"] => Answer::View,
            ["seek", a] => Answer::Seek { pointer: number(a)? },
            ["refused", a] => Answer::Refused { number: number(a)? },
            _ => return None,
        };
        (answer.text() == text).then_some(answer)
    }

    /// Whether this answer, refusals aside, is one of the kind's own.
    pub fn belongs_to(&self, kind: u8) -> bool {
        match self {
            Answer::Open { .. } => kind == 0x01,
            Answer::Holds { .. } => kind == 0x02 || kind == 0x03,
            Answer::Waits => kind == 0x02,
            Answer::Region { .. } => kind == 0x04,
            Answer::Wrote { .. } => kind == 0x05 || kind == 0x07,
            Answer::Record { .. } | Answer::None => kind == 0x06 || kind == 0x08,
            Answer::Freed { .. } => kind == 0x09,
            Answer::Gathered | Answer::Ordered { .. } => kind == 0x0A,
            Answer::View => kind == 0x0B,
            Answer::Seek { .. } => kind == 0x0C,
            Answer::Refused { .. } => true,
        }
    }
}

fn number(text: &str) -> Option<u64> {
    text.parse().ok()
}

fn woken(text: &str) -> Option<Option<u64>> {
    match text {
        "none" => Some(None),
        _ => Some(Some(number(text)?)),
    }
}

fn record(digits: &str) -> Option<Record> {
    if digits.len() != 16 {
        return None;
    }
    Some(u64::from_str_radix(digits, 16).ok()?.to_be_bytes())
}

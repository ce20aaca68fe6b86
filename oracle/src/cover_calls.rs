//! What a set of cases of single calls has hit: sorts of cases, rules that the state broke alone,
//! statuses, answer words, and refusals by kind.

use crate::answer::{Answer, WORDS};
use crate::answer_bytes::{read_answer, ANSWER_BYTES};
use crate::cases::{bytes_of_hex, Case, ANSWER_FILL};
use crate::cover::{name, name_table, refusal_table, Hits, CAN_REFUSE};
use crate::make::{case_name, case_names};
use crate::rules::{broken, READING_RULES, SOUND_RULES};
use crate::single::{status, ANSWER_TOO_SHORT, STATE_TOO_SHORT};
use crate::state::STATE_BYTES;
use std::collections::BTreeMap;

const UNITS: [&str; 2] = ["calls", "cases"];

/// Counts over all cases.
#[derive(Default)]
pub struct CallCover {
    pub cases: u64,
    pub calls: u64,
    pub sorts: BTreeMap<&'static str, Hits>,
    /// Calls with a state that breaks this one rule.
    pub alone: BTreeMap<&'static str, Hits>,
    pub statuses: BTreeMap<u8, Hits>,
    pub words: BTreeMap<&'static str, Hits>,
    /// By kind, 00 for all unlisted, and number.
    pub refused: BTreeMap<(u8, u64), Hits>,
}

/// Every status that a call can have.
pub fn statuses() -> Vec<u8> {
    (0..=16).chain([STATE_TOO_SHORT, ANSWER_TOO_SHORT]).collect()
}

/// Every refusal that a kind can give: 1, and those of a run.
fn can_refuse() -> Vec<(u8, u64)> {
    let ones = (0x00..=0x0C).map(|kind| (kind, 1));
    ones.chain(CAN_REFUSE.iter().map(|&(kind, number)| (kind, u64::from(number)))).collect()
}

impl CallCover {
    /// Counts one case, which is case k of its seed; a sentence if its lines cannot be.
    pub fn count(&mut self, k: u64, case: &Case, printed: &str) -> Result<(), String> {
        self.cases += 1;
        let lines: Vec<&str> = printed.lines().collect();
        if lines.len() != case.calls.len() + 3 {
            return Err(format!("{} lines for {} calls", lines.len(), case.calls.len()));
        }
        for (line, (kind, _)) in lines[1..].iter().zip(&case.calls) {
            self.count_line(line, *kind)?;
            self.sorts.entry(case_name(k)).or_default().hit(self.cases);
        }
        self.count_rules(case);
        Ok(())
    }

    fn count_line(&mut self, line: &str, kind: u8) -> Result<(), String> {
        let kind = if (0x01..=0x0C).contains(&kind) { kind } else { 0 };
        let (status, answer) = said(line).ok_or_else(|| format!("line that is none: {line}"))?;
        self.calls += 1;
        self.statuses.entry(status).or_default().hit(self.cases);
        let Some(answer) = answer else { return Ok(()) };
        if !answer.belongs_to(kind) {
            return Err(format!("line `{line}` to a call of kind {kind:02X}"));
        }
        self.words.entry(answer.word()).or_default().hit(self.cases);
        if let Answer::Refused { number } = answer {
            self.refused.entry((kind, number)).or_default().hit(self.cases);
        }
        Ok(())
    }

    /// A state that breaks a rule is the same at each call of its case.
    fn count_rules(&mut self, case: &Case) {
        let long = case.state.len() >= STATE_BYTES && case.answer_length >= ANSWER_BYTES as u32;
        if !long {
            return;
        }
        if let [rule] = broken(&case.state, case.book_length as usize)[..] {
            let hits = self.alone.entry(rule).or_default();
            case.calls.iter().for_each(|_| hits.hit(self.cases));
        }
    }

    /// What was never hit, and what should never have been.
    pub fn faults(&self) -> Vec<String> {
        let mut faults = Vec::new();
        let mut ask = |hit: bool, what: String| {
            if !hit {
                faults.push(format!("{what} was never hit"));
            }
        };
        for name in case_names() {
            ask(self.sorts.contains_key(name), format!("case `{name}`"));
        }
        for rule in READING_RULES.iter().chain(&SOUND_RULES) {
            ask(self.alone.contains_key(rule), format!("broken rule `{rule}`, alone,"));
        }
        for status in statuses() {
            ask(self.statuses.contains_key(&status), format!("status {status}"));
        }
        for word in WORDS {
            ask(self.words.contains_key(word), format!("answer `{word}`"));
        }
        for (kind, number) in can_refuse() {
            let hit = self.refused.contains_key(&(kind, number));
            ask(hit, format!("refusal {number} of kind {}", name(kind)));
        }
        for key in self.refused.keys().filter(|key| !can_refuse().contains(key)) {
            faults.push(format!("refusal {} of kind {} should not occur", key.1, name(key.0)));
        }
        faults
    }

    /// The counts as text.
    pub fn table(&self) -> String {
        let mut out = format!("{} cases, {} calls\n", self.cases, self.calls);
        out.push_str(&name_table("sort of case", UNITS, &case_names(), &self.sorts));
        let rules: Vec<&str> = READING_RULES.into_iter().chain(SOUND_RULES).collect();
        out.push_str(&name_table("rule broken alone", UNITS, &rules, &self.alone));
        out.push_str(&format!("{:>9} {:>9} {:>9}\n", "status", UNITS[0], UNITS[1]));
        for status in statuses() {
            let hits = self.statuses.get(&status).copied().unwrap_or_default();
            out.push_str(&format!("{status:>9} {:>9} {:>9}\n", hits.events, hits.sheets));
        }
        out.push_str(&name_table("answer", UNITS, &WORDS, &self.words));
        out.push_str(&refusal_table("calls refused", 1, &self.refused, |hits| hits.events));
        out.push_str(&refusal_table("cases with it", 1, &self.refused, |hits| hits.sheets));
        out
    }
}

/// The status and the answer of a call's line; no answer where a buffer was too short. Nothing
/// where the two do not go together, or bytes were altered that should not be.
fn said(line: &str) -> Option<(u8, Option<Answer>)> {
    let (number, digits) = line.split_once(' ')?;
    let (number, bytes) = (number.parse().ok()?, bytes_of_hex(digits)?);
    let untouched = |bytes: &[u8]| bytes.iter().all(|byte| *byte == ANSWER_FILL);
    if number == STATE_TOO_SHORT || number == ANSWER_TOO_SHORT {
        return untouched(&bytes).then_some((number, None));
    }
    let answer = read_answer(&bytes)?;
    let together = status(&answer) == number && untouched(&bytes[ANSWER_BYTES..]);
    together.then_some((number, Some(answer)))
}

/// The texts of the cases in a printed text: each starts with its line `case K`.
pub fn case_texts(printed: &str) -> Vec<&str> {
    let mut starts = Vec::new();
    let mut at = 0;
    for line in printed.split_inclusive('\n') {
        if line.starts_with("case ") || at == 0 {
            starts.push(at);
        }
        at += line.len();
    }
    starts.push(at);
    starts.windows(2).map(|pair| &printed[pair[0]..pair[1]]).collect()
}

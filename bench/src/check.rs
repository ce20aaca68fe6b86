//! The check before any timing: all programs give the same text and leave the same book and report.

use crate::made::{self, Random};
use crate::proved::Report;
use crate::sheets::MOST_LANES;
use crate::timing::{Program, PROGRAMS};
use crate::{inplace, proved, sheets};
use std::collections::BTreeMap;

/// How many sheets were compared, how often each answer and each refusal came, and what the
/// reports grew by.
pub struct Checked {
    pub sheets: usize,
    pub events: usize,
    pub ended: u64,
    pub unended: u64,
    pub answers: BTreeMap<String, usize>,
}

const MADE_UP: u64 = 800;
const ALTERED: u64 = 40;
const FULL_REPORTS: u64 = 300;

/// All that must have come at least once for the check to say something. Refusal 1 cannot come
/// from an unopened line.
const EXPECTED: [&str; 29] = [
    "open",
    "holds",
    "waits",
    "region",
    "wrote",
    "record",
    "none",
    "freed",
    "gathered",
    "ordered",
    "view",
    "seek",
    "end",
    "refused 2",
    "refused 3",
    "refused 4",
    "refused 5",
    "refused 6",
    "refused 7",
    "refused 8",
    "refused 9",
    "refused 10",
    "refused 11",
    "refused 12",
    "refused 13",
    "refused 14",
    "refused 15",
    "refused 16",
    "refused 17",
];

/// The answer of a printed line: its word, and a refusal's number.
fn answer(line: &str) -> String {
    let words: Vec<&str> = line.split(' ').collect();
    match words.as_slice() {
        ["end", ..] => "end".to_string(),
        [_, "refused", number] => format!("refused {number}"),
        [_, word, ..] => word.to_string(),
        _ => format!("no answer: {line}"),
    }
}

impl Checked {
    fn note(&mut self, text: &[u8]) {
        self.sheets += 1;
        for line in String::from_utf8_lossy(text).lines() {
            *self.answers.entry(answer(line)).or_default() += 1;
            self.events += 1;
        }
        self.events -= 1; // the last line is no event's
    }

    fn note_waits(&mut self, before: &Report, after: &Report) {
        self.ended += after.all.times - before.all.times;
        self.unended += after.all.unended - before.all.unended;
    }

    /// Runs all programs on a sheet, a book and a report, and compares the texts, the books left
    /// and the reports left.
    fn compare(&mut self, sheet: &[u8], book: &[u8], report: &Report) -> Result<(), String> {
        let [proved, others @ ..] = &PROGRAMS;
        let expected = outcome(proved, sheet, book, report)?;
        for other in others {
            let found = outcome(other, sheet, book, report)?;
            if found.text != expected.text {
                return Err(first_difference(&expected.text, &found.text));
            }
            if found.book != expected.book {
                return Err("the books differ".to_string());
            }
            if found.report != expected.report {
                return Err(first_row(&expected.report, &found.report));
            }
        }
        self.note(&expected.text);
        self.note_waits(report, &expected.report);
        Ok(())
    }
}

/// What one program prints for a sheet, and the book and the report that it leaves.
struct Outcome {
    text: Vec<u8>,
    book: Vec<u8>,
    report: Report,
}

fn outcome(
    program: &Program,
    sheet: &[u8],
    book: &[u8],
    report: &Report,
) -> Result<Outcome, String> {
    let mut book = book.to_vec();
    let mut report = report.clone();
    let mut text = vec![0; proved::text_bound(sheet.len())];
    let length = (program.run)(sheet, &mut book, &mut text, &mut report);
    if length > text.len() {
        return Err(format!("{} found no room for its text", program.name));
    }
    text.truncate(length);
    Ok(Outcome { text, book, report })
}

fn first_difference(proved: &[u8], inplace: &[u8]) -> String {
    let (proved, inplace) = (String::from_utf8_lossy(proved), String::from_utf8_lossy(inplace));
    for (a, b) in proved.lines().zip(inplace.lines()) {
        if a != b {
            return format!("proved '{a}', in place '{b}'");
        }
    }
    "one text goes on where the other ends".to_string()
}

fn first_row(proved: &Report, inplace: &Report) -> String {
    for (lane, (a, b)) in proved.lane.iter().zip(&inplace.lane).enumerate() {
        if a != b {
            return format!("lane {lane} of the report: proved {a:?}, in place {b:?}");
        }
    }
    format!("all lanes of the report: proved {:?}, in place {:?}", proved.all, inplace.all)
}

fn on_workloads(checked: &mut Checked, random: &mut Random) -> Result<(), String> {
    for (name, sheet) in sheets::workloads(inplace::MOST_SHEET, MOST_LANES) {
        let in_sheet = |difference| format!("{name}: {difference}");
        let book = made::book(random, 65_536);
        checked.compare(&sheet, &book, &Report::default()).map_err(in_sheet)?;
        for _ in 0..ALTERED {
            let sheet = made::altered(random, &sheet);
            checked.compare(&sheet, &book, &made::report(random)).map_err(in_sheet)?;
        }
    }
    Ok(())
}

fn on_made_up(checked: &mut Checked, random: &mut Random) -> Result<(), String> {
    for number in 0..MADE_UP {
        let sheet = made::sheet(random);
        let length = [65_536, 65_536, 65_540, 64, 5][random.below(5) as usize];
        let book = made::book(random, length);
        checked
            .compare(&sheet, &book, &made::report(random))
            .map_err(|difference| format!("made-up sheet {number}: {difference}"))?;
    }
    Ok(())
}

/// Sheets as long as may be and longer, and reports that cannot grow.
fn on_uncountable(checked: &mut Checked, random: &mut Random) -> Result<(), String> {
    let book = made::book(random, 65_536);
    let report = made::report(random);
    for length in [65_535, 65_536, 65_537, 70_000] {
        let mut sheet = sheets::shared_writes(length, MOST_LANES);
        sheet.resize(length, 0x03); // to the byte; an event may be cut short
        checked
            .compare(&sheet, &book, &report)
            .map_err(|difference| format!("sheet of {length} bytes: {difference}"))?;
    }
    for number in 0..FULL_REPORTS {
        let sheet = made::sheet(random);
        checked
            .compare(&sheet, &book, &made::full_report(random))
            .map_err(|difference| format!("full report {number}: {difference}"))?;
    }
    Ok(())
}

/// Compares them on every workload, on altered ones, on made-up sheets and where 17 comes.
pub fn check() -> Result<Checked, String> {
    let answers = BTreeMap::new();
    let mut checked = Checked { sheets: 0, events: 0, ended: 0, unended: 0, answers };
    let mut random = Random::new(1);
    checked.compare(&[], &[], &Report::default())?;
    on_workloads(&mut checked, &mut random)?;
    on_made_up(&mut checked, &mut random)?;
    on_uncountable(&mut checked, &mut random)?;
    for expected in EXPECTED {
        if !checked.answers.contains_key(expected) {
            return Err(format!("no sheet led to '{expected}'"));
        }
    }
    if checked.ended == 0 || checked.unended == 0 {
        return Err("no report grew by a wait, or by one that did not end".to_string());
    }
    Ok(checked)
}

//! The check of single calls: both programs give the same bytes for every answer and leave the
//! same book, and the lists are what they are said to be.

use super::inplace::InPlace;
use super::lists::{self, Calls, List};
use super::proved::Proved;
use super::timing::NO_KIND;
use super::{Program, BOOK, LANES_TIMED};
use crate::made::{self, Random};
use crate::sheets;
use gudlemi::{Answer, Phase};
use std::collections::BTreeSet;

/// How many lists of calls are made up.
const MADE_UP: u64 = 400;
/// The length of the sheets that are made call by call.
const SHEET: usize = 8_192;

/// How many lists and calls were compared, and how the answers started.
#[derive(Default)]
pub struct Checked {
    pub lists: usize,
    pub calls: usize,
    starts: BTreeSet<[u8; 2]>,
}

/// How the answers start that must have come: the words, each with its number, and the refusals
/// from 2 to 16.
fn expected() -> impl Iterator<Item = [u8; 2]> {
    let numbers = [1, 2, 2, 4, 5, 6, 6, 9, 10, 10, 11, 12];
    let words = (1..).zip(numbers).map(|(word, number)| [word, number]);
    words.chain((2..=16).map(|number| [0, number]))
}

fn shown(answer: &[u8; 16]) -> String {
    match Answer::from_bytes(answer) {
        Some(known) => format!("'{known}' {answer:02x?}"),
        None => format!("no answer {answer:02x?}"),
    }
}

impl Checked {
    /// Makes calls by both programs and compares each answer, and the books when they are made.
    fn compare(
        &mut self,
        proved: &mut Proved,
        inplace: &mut InPlace,
        calls: &Calls,
    ) -> Result<BTreeSet<[u8; 2]>, String> {
        let mut starts = BTreeSet::new();
        for (number, (kind, body)) in calls.each().enumerate() {
            let expected = *proved.call(kind, body);
            let found = inplace.call(kind, body);
            if *found != expected {
                let (proved, found) = (shown(&expected), shown(found));
                let call = format!("call {number}, {kind:02x} {body:02x?}");
                return Err(format!("{call}: proved {proved}, in place {found}"));
            }
            starts.insert([expected[0], expected[1]]);
            check_status(proved)?;
        }
        if proved.book != inplace.book() {
            return Err("the books differ".to_string());
        }
        self.lists += 1;
        self.calls += calls.len();
        self.starts.extend(&starts);
        Ok(starts)
    }

    /// A workload twice from its saved line, as it is timed.
    fn on_list(&mut self, list: &List, book: &[u8]) -> Result<(), String> {
        let (mut book, mut other) = (book.to_vec(), book.to_vec());
        let (mut proved, mut inplace) = (Proved::new(&mut book), InPlace::new(&mut other));
        self.compare(&mut proved, &mut inplace, &list.before)?;
        proved.save();
        inplace.save();
        for _ in 0..2 {
            proved.restart();
            inplace.restart();
            let starts = self.compare(&mut proved, &mut inplace, &list.calls)?;
            if !starts.iter().eq(BTreeSet::from_iter(list.answers)) {
                return Err(format!("its answers start with {starts:?}"));
            }
            if list.busy && !all_busy(&proved) {
                return Err("a lane is not busy at its end".to_string());
            }
        }
        check_probes(&mut proved)
    }

    /// Calls from the unopened line, over a book.
    fn on_calls(&mut self, calls: &Calls, book: &[u8]) -> Result<(), String> {
        let (mut book, mut other) = (book.to_vec(), book.to_vec());
        let (mut proved, mut inplace) = (Proved::new(&mut book), InPlace::new(&mut other));
        self.compare(&mut proved, &mut inplace, calls)?;
        Ok(())
    }

    /// The workloads, and shorter sheets of the other tables call by call.
    fn on_workloads(&mut self, lanes: u8, book: &[u8]) -> Result<(), String> {
        for list in lists::lists(lanes) {
            let named = |fault| format!("{}, {lanes} lanes: {fault}", list.name);
            self.on_list(&list, book).map_err(named)?;
        }
        for (name, sheet) in sheets::workloads(SHEET, lanes) {
            let named = |fault| format!("sheet of {name}, {lanes} lanes: {fault}");
            self.on_calls(&Calls::of_sheet(&sheet), book).map_err(named)?;
        }
        Ok(())
    }

    fn on_made_up(&mut self, random: &mut Random) -> Result<(), String> {
        for number in 0..MADE_UP {
            let length = [65_536, 65_536, 65_540, 64, 5][random.below(5) as usize];
            let book = made::book(random, length);
            let named = |fault| format!("made-up calls {number}: {fault}");
            self.on_calls(&made::calls(random), &book).map_err(named)?;
        }
        Ok(())
    }
}

/// The status of a call is the number of the refusal, or 0.
fn check_status(proved: &Proved) -> Result<(), String> {
    let [word, number, ..] = proved.answer;
    let expected = if word == 0 { number } else { 0 };
    if proved.status != expected {
        return Err(format!("status {} with {}", proved.status, shown(&proved.answer)));
    }
    Ok(())
}

fn all_busy(proved: &Proved) -> bool {
    let line = proved.line();
    let busy =
        |lane| matches!(line.lane(lane), Some(Phase::Writing { .. } | Phase::Reading { .. }));
    (0..line.lanes()).all(busy)
}

/// The calls of one sort that are timed are what they are said to be: 2 for no kind, a sound line,
/// and 1 for bytes that are no line.
fn check_probes(proved: &mut Proved) -> Result<(), String> {
    proved.restart();
    let no_kind = proved.call(NO_KIND, &[0, 0])[1];
    let sound = proved.line().is_sound(BOOK);
    proved.spoil();
    let no_line = proved.call(0x02, &[0, 0])[1];
    if (no_kind, sound, no_line) != (2, true, 1) {
        return Err(format!("the repeated calls: {no_kind}, {sound}, {no_line}"));
    }
    Ok(())
}

/// Compares the programs on every workload and on made-up calls.
pub fn check() -> Result<Checked, String> {
    let mut checked = Checked::default();
    let mut random = Random::new(2);
    let book = made::book(&mut random, BOOK);
    for lanes in LANES_TIMED {
        checked.on_workloads(lanes, &book)?;
    }
    checked.on_list(&lists::history(), &book).map_err(|fault| format!("history: {fault}"))?;
    checked.on_made_up(&mut random)?;
    for [word, number] in expected() {
        if !checked.starts.contains(&[word, number]) {
            return Err(format!("no call was answered with word {word} and number {number}"));
        }
    }
    Ok(checked)
}

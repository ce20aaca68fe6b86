//! A second way to count, as the run goes, and the mistakes that tests plant in it.
//! Its sums wrap, since a mistake must show in the report and not end the test by itself.

use oracle_lib::answer::Answer;
use oracle_lib::event::Event;
use oracle_lib::group::Group;
use oracle_lib::line::{Machine, Search, MOST_LANES};
use oracle_lib::report::{Report, Row, FULL};
use oracle_lib::sheet::{list_of, run, MOST_SHEET};

#[derive(Clone, Copy, PartialEq, Eq, Debug)]
pub enum Mistake {
    None,
    TimesAtTheAnswer,
    WakingReleaseLeftOut,
    UnendedInTheSum,
    UnendedInTheTimes,
    UnendedForgotten,
    UnendedForAllAlone,
    FreesNotCounted,
    RefusedCounted,
    SecondWaitGoesOn,
    LargestIsTheLast,
    AllFromTheRows,
    LostAfter2And3,
    WaitsKeptForTheNextSheet,
    OnlyAbove2To63,
    TimesNotLookedAt,
    SumNotLookedAt,
    LargestNotLookedAt,
    UnendedNotLookedAt,
    FirstRowNotLookedAt,
    LastRowNotLookedAt,
    RowForAllNotLookedAt,
    EmptySheetNotLookedAt,
    LongSheetNotLookedAt,
    FullSheetIsTooLong,
    RowsFrom64NotLookedAt,
    LanesFrom64NotCounted,
}

pub const MISTAKES: [Mistake; 26] = [
    Mistake::TimesAtTheAnswer,
    Mistake::WakingReleaseLeftOut,
    Mistake::UnendedInTheSum,
    Mistake::UnendedInTheTimes,
    Mistake::UnendedForgotten,
    Mistake::UnendedForAllAlone,
    Mistake::FreesNotCounted,
    Mistake::RefusedCounted,
    Mistake::SecondWaitGoesOn,
    Mistake::LargestIsTheLast,
    Mistake::AllFromTheRows,
    Mistake::LostAfter2And3,
    Mistake::WaitsKeptForTheNextSheet,
    Mistake::OnlyAbove2To63,
    Mistake::TimesNotLookedAt,
    Mistake::SumNotLookedAt,
    Mistake::LargestNotLookedAt,
    Mistake::UnendedNotLookedAt,
    Mistake::FirstRowNotLookedAt,
    Mistake::LastRowNotLookedAt,
    Mistake::RowForAllNotLookedAt,
    Mistake::EmptySheetNotLookedAt,
    Mistake::LongSheetNotLookedAt,
    Mistake::FullSheetIsTooLong,
    Mistake::RowsFrom64NotLookedAt,
    Mistake::LanesFrom64NotCounted,
];

/// Which sheets of a group got 17, and the report as it was left.
pub type Outcome = (Vec<bool>, Report);

/// What the library makes of a group.
pub fn outcome(group: &Group) -> Outcome {
    let mut group = group.clone();
    let texts = group.run();
    (texts.iter().map(|text| text.starts_with(b"0 refused 17\n")).collect(), group.report)
}

/// What counting as the run goes makes of it, with one mistake or none.
pub fn counted(group: &Group, mistake: Mistake) -> Outcome {
    let mut counter = Counter::new(group.report.clone(), mistake);
    let refused = group.sheets.iter().map(|sheet| counter.sheet(sheet)).collect();
    (refused, counter.report)
}

/// Counts sheet after sheet over one report, with one mistake or none.
struct Counter {
    report: Report,
    mistake: Mistake,
    /// The releases so far of each lane that waits.
    waiting: [Option<u64>; MOST_LANES],
    /// The releases of each lane's last wait.
    last: [u64; MOST_LANES],
}

impl Counter {
    fn new(report: Report, mistake: Mistake) -> Counter {
        Counter { report, mistake, waiting: [None; MOST_LANES], last: [0; MOST_LANES] }
    }

    fn is(&self, mistake: Mistake) -> bool {
        self.mistake == mistake
    }

    /// Runs a sheet from an unopened line; says whether 17 was given.
    fn sheet(&mut self, sheet: &[u8]) -> bool {
        if self.gives_17(sheet.len()) {
            return true;
        }
        let answers = run(&mut Machine::new(Search::AfterReleaser), sheet);
        let lent = self.report.clone();
        if !self.is(Mistake::WaitsKeptForTheNextSheet) {
            self.waiting = [None; MOST_LANES];
        }
        self.last = [0; MOST_LANES];
        for (event, answer) in list_of(sheet, &answers) {
            self.step(&event, &answer);
        }
        self.end_of_run();
        let cut = matches!(answers.last(), Some(Answer::Refused { number: 2 | 3 }));
        if cut && self.is(Mistake::LostAfter2And3) {
            self.report = lent;
        }
        false
    }

    fn step(&mut self, event: &Event, answer: &Answer) {
        match (event, answer) {
            (Event::Want { lane, .. }, Answer::Waits) => self.told_to_wait(*lane as usize),
            (Event::Take { .. }, Answer::Region { wakes, .. }) => self.release(1, *wakes),
            (Event::Free { .. }, Answer::Freed { wakes }) => {
                self.release(u64::from(!self.is(Mistake::FreesNotCounted)), *wakes)
            }
            (Event::Take { .. } | Event::Free { .. }, Answer::Refused { .. }) => {
                self.release(u64::from(self.is(Mistake::RefusedCounted)), None)
            }
            _ => {}
        }
    }

    fn told_to_wait(&mut self, lane: usize) {
        if lane >= 64 && self.is(Mistake::LanesFrom64NotCounted) {
            return;
        }
        let from = if self.is(Mistake::SecondWaitGoesOn) { self.last[lane] } else { 0 };
        self.waiting[lane] = Some(from);
        if self.is(Mistake::TimesAtTheAnswer) {
            self.rows(lane, |row| add(&mut row.times, 1));
        }
    }

    fn release(&mut self, by: u64, wakes: Option<u64>) {
        for releases in self.waiting.iter_mut().flatten() {
            *releases += by;
        }
        let Some(lane) = wakes else { return };
        let Some(mut releases) = self.waiting[lane as usize].take() else { return };
        self.last[lane as usize] = releases;
        releases -= u64::from(self.is(Mistake::WakingReleaseLeftOut));
        let more = u64::from(!self.is(Mistake::TimesAtTheAnswer));
        let replace = self.is(Mistake::LargestIsTheLast);
        self.rows(lane as usize, |row| {
            add(&mut row.times, more);
            add(&mut row.sum, releases);
            row.largest = if replace { releases } else { row.largest.max(releases) };
        });
    }

    /// The waits that are left are not ended.
    fn end_of_run(&mut self) {
        let waiting = self.waiting;
        for (lane, releases) in waiting.iter().enumerate() {
            let Some(releases) = *releases else { continue };
            match self.mistake {
                Mistake::UnendedForgotten => {}
                Mistake::UnendedForAllAlone => add(&mut self.report.all.unended, 1),
                Mistake::UnendedInTheSum => self.rows(lane, |row| {
                    add(&mut row.unended, 1);
                    add(&mut row.sum, releases);
                }),
                Mistake::UnendedInTheTimes => self.rows(lane, |row| {
                    add(&mut row.unended, 1);
                    add(&mut row.times, 1);
                }),
                _ => self.rows(lane, |row| add(&mut row.unended, 1)),
            }
        }
        if self.is(Mistake::AllFromTheRows) {
            self.report.all = sum_of_rows(&self.report);
        }
    }

    /// The row of the lane and the row for all.
    fn rows(&mut self, lane: usize, change: impl Fn(&mut Row)) {
        change(&mut self.report.lanes[lane]);
        change(&mut self.report.all);
    }

    fn gives_17(&self, bytes: usize) -> bool {
        if bytes == 0 && self.is(Mistake::EmptySheetNotLookedAt) {
            return false;
        }
        let long = bytes > MOST_SHEET && !self.is(Mistake::LongSheetNotLookedAt);
        let full = bytes == MOST_SHEET && self.is(Mistake::FullSheetIsTooLong);
        let mut rows = self.report.rows().enumerate();
        long || full || rows.any(|(row, numbers)| self.looked_at(row) && self.too_large(numbers))
    }

    fn looked_at(&self, row: usize) -> bool {
        let last = MOST_LANES - 1;
        !(row == 0 && self.is(Mistake::FirstRowNotLookedAt)
            || row == last && self.is(Mistake::LastRowNotLookedAt)
            || (64..=last).contains(&row) && self.is(Mistake::RowsFrom64NotLookedAt)
            || row == MOST_LANES && self.is(Mistake::RowForAllNotLookedAt))
    }

    fn too_large(&self, row: &Row) -> bool {
        let least = if self.is(Mistake::OnlyAbove2To63) { FULL + 1 } else { FULL };
        row.times >= least && !self.is(Mistake::TimesNotLookedAt)
            || row.sum >= least && !self.is(Mistake::SumNotLookedAt)
            || row.largest >= least && !self.is(Mistake::LargestNotLookedAt)
            || row.unended >= least && !self.is(Mistake::UnendedNotLookedAt)
    }
}

fn add(number: &mut u64, more: u64) {
    *number = number.wrapping_add(more);
}

fn sum_of_rows(report: &Report) -> Row {
    let mut all = Row::default();
    for row in &report.lanes {
        add(&mut all.times, row.times);
        add(&mut all.sum, row.sum);
        all.largest = all.largest.max(row.largest);
        add(&mut all.unended, row.unended);
    }
    all
}

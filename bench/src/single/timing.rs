//! Timing of single calls: in one process, by turns, each program over its own book; the best.

use super::inplace::InPlace;
use super::lists::{Calls, List};
use super::proved::Proved;
use super::{Program, BOOK};
use std::hint::black_box;
use std::time::{Duration, Instant};

/// The least number of samples of each sort, and the least time for all together.
const SAMPLES: usize = 50;
const LEAST: Duration = Duration::from_millis(2_500);
/// The calls of a sample that makes the same call over and over.
const PROBES: usize = 1_000;
/// How often a sample of the in-place program makes its list, which is over soon.
const TIMES: usize = 10;
/// The first kind that is none.
pub const NO_KIND: u8 = 0x0D;

/// The best times in nanoseconds a call: the list by both programs; and by the proved one a call of
/// no kind, the test whether the line is sound, and a call on bytes that are no line.
pub struct Measured {
    pub calls: usize,
    pub samples: usize,
    pub proved: f64,
    pub inplace: f64,
    pub no_kind: f64,
    pub sound: f64,
    pub no_line: f64,
}

/// The nanoseconds of one of so many.
fn each(times: usize, all: impl FnOnce()) -> f64 {
    let start = Instant::now();
    all();
    start.elapsed().as_nanos() as f64 / times as f64
}

/// Makes the calls that bring the line where a list starts, and saves it.
pub fn prepare(program: &mut impl Program, before: &Calls) {
    for (kind, body) in before.each() {
        program.call(kind, body);
    }
    program.save();
}

/// A list so many times, each from the saved line.
pub fn repeat(program: &mut impl Program, calls: &Calls, times: usize) {
    for _ in 0..times {
        program.restart();
        for (kind, body) in calls.each() {
            black_box(program.call(black_box(kind), body));
        }
    }
}

/// The same call so many times; it is one that is refused.
pub fn probe(program: &mut Proved, kind: u8, times: usize) {
    for _ in 0..times {
        black_box(program.call(black_box(kind), black_box(&[0, 0])));
    }
}

/// The test alone so many times.
pub fn test_sound(program: &Proved, times: usize) {
    let line = program.line();
    for _ in 0..times {
        black_box(black_box(&line).is_sound(BOOK));
    }
}

/// A sample of everything; the best so far of each is kept.
fn sample(measured: &mut Measured, proved: &mut Proved, inplace: &mut InPlace, calls: &Calls) {
    let list = each(calls.len(), || repeat(proved, calls, 1));
    measured.proved = measured.proved.min(list);
    let list = each(TIMES * calls.len(), || repeat(inplace, calls, TIMES));
    measured.inplace = measured.inplace.min(list);
    proved.restart();
    measured.no_kind = measured.no_kind.min(each(PROBES, || probe(proved, NO_KIND, PROBES)));
    measured.sound = measured.sound.min(each(PROBES, || test_sound(proved, PROBES)));
    proved.spoil();
    measured.no_line = measured.no_line.min(each(PROBES, || probe(proved, 0x02, PROBES)));
    measured.samples += 1;
}

/// The best of many samples, taken by turns.
pub fn measure(list: &List) -> Measured {
    let (mut book, mut other) = (vec![0; BOOK], vec![0; BOOK]);
    let (mut proved, mut inplace) = (Proved::new(&mut book), InPlace::new(&mut other));
    prepare(&mut proved, &list.before);
    prepare(&mut inplace, &list.before);
    let none = f64::INFINITY;
    let calls = list.calls.len();
    let (no_kind, sound, no_line) = (none, none, none);
    let mut measured =
        Measured { calls, samples: 0, proved: none, inplace: none, no_kind, sound, no_line };
    let start = Instant::now();
    while measured.samples < SAMPLES || start.elapsed() < LEAST {
        sample(&mut measured, &mut proved, &mut inplace, &list.calls);
    }
    measured
}

/// The best time of replaying a history: the run of its sheet, without a report.
pub fn measure_replay(history: &List) -> f64 {
    let sheet = history.before.sheet();
    let mut book = vec![0; BOOK];
    let mut text = vec![0; crate::proved::text_bound(sheet.len())];
    let mut best = f64::INFINITY;
    let start = Instant::now();
    while start.elapsed() < LEAST {
        best = best.min(each(1, || {
            black_box(gudlemi::run(black_box(sheet), &mut book, &mut text));
        }));
    }
    best
}

//! Timing of the programs on one sheet: in one process, by turns, over the same buffers; the best.

use crate::proved::Report;
use crate::{inplace, proved};
use std::hint::black_box;
use std::time::{Duration, Instant};

type Run = fn(&[u8], &mut [u8], &mut [u8], &mut Report) -> usize;

pub struct Program {
    pub name: &'static str,
    pub run: Run,
}

/// The programs in the order of the tables.
pub const PROGRAMS: [Program; 3] = [
    Program { name: "proved", run: proved::run },
    Program { name: "inplace", run: inplace::run },
    Program { name: "plain-digits", run: inplace::run_with_plain_digits },
];

/// The least number of samples of each program, and the least time for all together.
const SAMPLES: usize = 200;
const LEAST: Duration = Duration::from_millis(2_500);
/// A sample repeats a short sheet until it has about this many events.
const SAMPLE_EVENTS: usize = 4_000;

/// The lent buffers and the lent report, the same for all programs. None is cleared between runs:
/// the sheet's opening zeroes the book, which is part of what is timed, the text is overwritten,
/// and the report grows.
pub struct Buffers {
    book: Vec<u8>,
    text: Vec<u8>,
    report: Report,
}

/// What was measured: the best time of one run of each program, in nanoseconds.
pub struct Measured {
    pub events: usize,
    pub text: usize,
    pub samples: usize,
    best: [f64; 3],
}

impl Buffers {
    pub fn new() -> Buffers {
        let room = proved::text_bound(inplace::MOST_SHEET);
        Buffers { book: vec![0; 65_536], text: vec![0; room], report: Report::default() }
    }

    /// So many runs in a row.
    pub fn repeat(&mut self, run: Run, sheet: &[u8], times: usize) {
        for _ in 0..times {
            black_box(run(black_box(sheet), &mut self.book, &mut self.text, &mut self.report));
        }
    }

    /// The time of one run, from so many in a row.
    fn sample(&mut self, run: Run, sheet: &[u8], times: usize) -> f64 {
        let start = Instant::now();
        self.repeat(run, sheet, times);
        start.elapsed().as_nanos() as f64 / times as f64
    }

    /// The lines of a sheet's text without the last, and the text's length.
    fn events(&mut self, sheet: &[u8]) -> (usize, usize) {
        let length = proved::run(sheet, &mut self.book, &mut self.text, &mut self.report);
        let lines = self.text[..length].iter().filter(|&&byte| byte == b'\n').count();
        (lines - 1, length)
    }

    /// The best of many samples of each program, taken by turns.
    pub fn measure(&mut self, sheet: &[u8]) -> Measured {
        let (events, text) = self.events(sheet);
        let times = (SAMPLE_EVENTS / events.max(1)).max(1);
        let mut measured = Measured { events, text, samples: 0, best: [f64::INFINITY; 3] };
        let start = Instant::now();
        while measured.samples < SAMPLES || start.elapsed() < LEAST {
            for (best, program) in measured.best.iter_mut().zip(&PROGRAMS) {
                *best = best.min(self.sample(program.run, sheet, times));
            }
            measured.samples += 1;
        }
        measured
    }
}

impl Measured {
    /// The best times, in nanoseconds an event.
    pub fn per_event(&self) -> [f64; 3] {
        self.best.map(|time| time / self.events as f64)
    }
}

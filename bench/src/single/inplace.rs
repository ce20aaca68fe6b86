//! The in-place program for single calls: the line and the steps of `inplace.rs`, kept as a Rust
//! struct from call to call. It never tests whether the line is sound and never turns it into bytes.

use super::{Program, Told};
use crate::inplace::{unopened, Line};
use gudlemi::ANSWER_LENGTH;

/// The bytes of an answer as `embed/gudlemi.h` has them. They stand in the line up to the next call.
#[derive(Clone, Copy, Default)]
pub struct Answer([u8; ANSWER_LENGTH]);

impl Answer {
    /// The word, its number, the lane that was woken and the two values.
    #[inline(always)]
    fn store(&mut self, start: [u8; 2], woken: Option<usize>, first: u64, second: u32) {
        let [word, number] = start;
        let lane = woken.unwrap_or(0) as u8;
        self.0[..4].copy_from_slice(&[word, number, woken.is_some() as u8, lane]);
        self.0[4..12].copy_from_slice(&first.to_be_bytes());
        self.0[12..].copy_from_slice(&second.to_be_bytes());
    }
}

impl Told for Answer {
    #[inline(always)]
    fn open(&mut self, lanes: u8, capacity: u32) {
        self.store([1, 0x01], None, lanes as u64, capacity);
    }

    #[inline(always)]
    fn holds(&mut self, pointer: u32) {
        self.store([2, 0x02], None, pointer as u64, 0);
    }

    #[inline(always)]
    fn waits(&mut self) {
        self.store([3, 0x02], None, 0, 0);
    }

    #[inline(always)]
    fn region(&mut self, start: u32, count: u32, woken: Option<usize>) {
        self.store([4, 0x04], woken, start as u64, count);
    }

    #[inline(always)]
    fn wrote(&mut self, position: u32) {
        self.store([5, 0x05], None, position as u64, 0);
    }

    #[inline(always)]
    fn record(&mut self, record: u64) {
        self.store([6, 0x06], None, record, 0);
    }

    #[inline(always)]
    fn none(&mut self) {
        self.store([7, 0x06], None, 0, 0);
    }

    #[inline(always)]
    fn freed(&mut self, woken: Option<usize>) {
        self.store([8, 0x09], woken, 0, 0);
    }

    #[inline(always)]
    fn gathered(&mut self) {
        self.store([9, 0x0A], None, 0, 0);
    }

    #[inline(always)]
    fn ordered(&mut self, before: u32, total: u32) {
        self.store([10, 0x0A], None, before as u64, total);
    }

    #[inline(always)]
    fn view(&mut self) {
        self.store([11, 0x0B], None, 0, 0);
    }

    #[inline(always)]
    fn seek(&mut self, pointer: u32) {
        self.store([12, 0x0C], None, pointer as u64, 0);
    }

    #[inline(always)]
    fn refused(&mut self, number: usize) {
        self.store([0, number as u8], None, 0, 0);
    }

    /// Single calls have no report of waiting.
    #[inline(always)]
    fn end_wait(&mut self, _lane: usize, _releases: u32) {}
}

/// A line over its book, and the line that it starts from.
pub struct InPlace<'a> {
    line: Line<'a, Answer>,
    saved: Line<'a, Answer>,
}

impl<'a> InPlace<'a> {
    pub fn new(book: &'a mut [u8]) -> InPlace<'a> {
        let answer = Answer::default();
        InPlace { line: unopened(book, answer), saved: unopened(&mut [], answer) }
    }

    pub fn book(&self) -> &[u8] {
        self.line.book()
    }
}

impl Program for InPlace<'_> {
    /// Not inlined, as a call of a library is not.
    #[inline(never)]
    fn call(&mut self, kind: u8, body: &[u8]) -> &[u8; ANSWER_LENGTH] {
        if let Err(refusal) = self.line.event(kind, body) {
            self.line.told.refused(refusal.0);
        }
        &self.line.told.0
    }

    fn save(&mut self) {
        self.saved.become_like(&self.line);
    }

    fn restart(&mut self) {
        self.line.become_like(&self.saved);
    }
}

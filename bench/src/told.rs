//! What the steps of the in-place line tell, whoever wants to know it; and the telling of a sheet's
//! run: a printed line for each event, and the waits counted in the lent report.

use crate::proved::Report;
use crate::text::Text;
use crate::waiting;

/// Each step tells one answer. A release that wakes a lane also tells that its wait has ended.
pub trait Told {
    fn open(&mut self, lanes: u8, capacity: u32);
    fn holds(&mut self, pointer: u32);
    fn waits(&mut self);
    fn region(&mut self, start: u32, count: u32, woken: Option<usize>);
    fn wrote(&mut self, position: u32);
    fn record(&mut self, record: u64);
    fn none(&mut self);
    fn freed(&mut self, woken: Option<usize>);
    fn gathered(&mut self);
    fn ordered(&mut self, before: u32, total: u32);
    fn view(&mut self);
    fn seek(&mut self, pointer: u32);
    fn refused(&mut self, number: usize);
    fn end_wait(&mut self, lane: usize, releases: u32);
}

/// The text and the report of a sheet's run.
pub struct Printed<'a, const PLAIN: bool> {
    pub text: Text<'a, PLAIN>,
    pub report: &'a mut Report,
}

impl<const PLAIN: bool> Told for Printed<'_, PLAIN> {
    #[inline(always)]
    fn open(&mut self, lanes: u8, capacity: u32) {
        self.text.two(b"open ", lanes as u32, capacity);
    }

    #[inline(always)]
    fn holds(&mut self, pointer: u32) {
        self.text.one(b"holds ", pointer);
    }

    #[inline(always)]
    fn waits(&mut self) {
        self.text.word(b"waits\n");
    }

    #[inline(always)]
    fn region(&mut self, start: u32, count: u32, woken: Option<usize>) {
        self.text.region(start, count, woken);
    }

    #[inline(always)]
    fn wrote(&mut self, position: u32) {
        self.text.one(b"wrote ", position);
    }

    #[inline(always)]
    fn record(&mut self, record: u64) {
        self.text.record(record);
    }

    #[inline(always)]
    fn none(&mut self) {
        self.text.word(b"none\n");
    }

    #[inline(always)]
    fn freed(&mut self, woken: Option<usize>) {
        self.text.freed(woken);
    }

    #[inline(always)]
    fn gathered(&mut self) {
        self.text.word(b"gathered\n");
    }

    #[inline(always)]
    fn ordered(&mut self, before: u32, total: u32) {
        self.text.two(b"ordered ", before, total);
    }

    #[inline(always)]
    fn view(&mut self) {
        self.text.word(b"view\n");
    }

    #[inline(always)]
    fn seek(&mut self, pointer: u32) {
        self.text.one(b"seek ", pointer);
    }

    #[inline(always)]
    fn refused(&mut self, number: usize) {
        self.text.refused(number);
    }

    #[inline(always)]
    fn end_wait(&mut self, lane: usize, releases: u32) {
        waiting::end_wait(self.report, lane, releases);
    }
}

//! The lent report of the in-place program: its rows grow where they stand, at each wake.

use crate::proved::{Report, Row, LANES};

/// The bit of the numbers that are 2^63 or more.
const FULL: u64 = 1 << 63;

/// The bits of a row's numbers, taken together.
#[inline(always)]
fn bits(row: &Row) -> u64 {
    row.times | row.sum | row.largest | row.unended
}

/// Whether a number of the report is 2^63 or more.
pub fn is_full(report: &Report) -> bool {
    let lanes = report.lane.iter().fold(0, |seen, row| seen | bits(row));
    (lanes | bits(&report.all)) & FULL != 0
}

#[inline(always)]
fn grow(row: &mut Row, releases: u64) {
    row.times += 1;
    row.sum += releases;
    row.largest = row.largest.max(releases);
}

/// A wait of this lane has ended after so many releases.
#[inline(always)]
pub fn end_wait(report: &mut Report, lane: usize, releases: u32) {
    grow(&mut report.lane[lane % LANES], releases as u64);
    grow(&mut report.all, releases as u64);
}

/// A wait of this lane has not ended with the run.
pub fn leave_wait(report: &mut Report, lane: usize) {
    report.lane[lane].unended += 1;
    report.all.unended += 1;
}

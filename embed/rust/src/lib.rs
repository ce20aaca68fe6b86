//! Safe functions over libembed.a, the proved library of the shared book: make single calls on a line (`line`), run a
//! whole sheet, count how long its lanes waited, and find its events.
//!
//! What a sheet and a book are, and each printed line, is in document 01; `embed/gudlemi.h` has the same functions for C.
//!
//! To link: make the library with `embed/build`, then build. Where libembed.a is not in this repository's
//! target/staticlib, name its folder in the environment variable GUDLEMI_LIB, best as an absolute path. A program that
//! depends on this crate needs no link settings of its own.
//!
//! The functions keep no state but in what they are handed, so threads may call them at once.

pub mod line;

pub use line::{answer_length, call_bytes, kind, layout, state_length};
pub use line::{Answer, Block, Line, Phase, Purpose, View, Whence};
pub use line::{ANSWER_LENGTH, ANSWER_TOO_SHORT, LAYOUT, STATE_LENGTH, STATE_TOO_SHORT};

#[cfg(test)]
mod tests;

/// The functions of the library: a slice is a pointer, which is never null, and a length.
mod linked {
    extern "C" {
        pub fn gudlemi_run(
            sheet: *const u8,
            sheet_length: usize,
            book: *mut u8,
            book_length: usize,
            text: *mut u8,
            text_length: usize,
        ) -> usize;
        pub fn gudlemi_run_reported(
            sheet: *const u8,
            sheet_length: usize,
            book: *mut u8,
            book_length: usize,
            text: *mut u8,
            text_length: usize,
            report: *mut super::Report,
        ) -> usize;
        pub fn gudlemi_mean(times: u64, sum: u64) -> u64;
        pub fn gudlemi_remainder(times: u64, sum: u64) -> u64;
        pub fn gudlemi_text_bound(sheet_length: usize) -> usize;
        pub fn gudlemi_event_length(sheet: *const u8, sheet_length: usize, at: usize) -> usize;
        pub fn gudlemi_event_refusal(sheet: *const u8, sheet_length: usize, at: usize) -> u8;
        pub fn gudlemi_version() -> u32;
    }
}

/// The most lanes that a line can have, and the rows of a report that are for one lane each.
pub const LANES: usize = 128;

/// The most bytes of a sheet that is run; a longer one gets 17.
pub const LONGEST_SHEET: usize = 65_536;

/// The library's answer where there is no length to give.
const NO_LENGTH: usize = usize::MAX;

/// What stands at a byte index of a sheet.
#[derive(Clone, Copy, Debug, PartialEq, Eq)]
pub enum EventAt {
    /// An event of this many bytes, its kind byte counted; the next one is that much further on.
    Event { length: usize },
    /// The sheet's end, or an index past it.
    End,
    /// Bytes that are no event: 2 where the kind is not 01 to 0C, 3 where the body is cut short.
    Refused(u8),
}

/// A row of the report of waiting. A lane waits from the answer `waits` to the accepted release that wakes it. How long
/// that was is the number of accepted releases, by any lane, after that answer up to the one that wakes it, that one
/// included.
#[repr(C)]
#[derive(Clone, Copy, Debug, PartialEq, Eq, Default)]
pub struct Row {
    /// The waits that ended.
    pub times: u64,
    /// The releases that they took, added up.
    pub sum: u64,
    /// The most releases that one of them took.
    pub largest: u64,
    /// The waits that had not ended when their sheet's run did; they are in none of the other three.
    pub unended: u64,
}

/// The report of waiting: a row for each lane that a line can have, and one for all lanes, which grows from its own
/// values. The default has no waiting.
#[repr(C)]
#[derive(Clone, Copy, Debug, PartialEq, Eq)]
pub struct Report {
    pub lane: [Row; LANES],
    pub all: Row,
}

impl Row {
    /// The whole part of the mean of the waits that ended; 0 where there is none.
    pub fn mean(&self) -> u64 {
        // SAFETY: two numbers in, a number out.
        unsafe { linked::gudlemi_mean(self.times, self.sum) }
    }

    /// What remains of the sum: `sum - times * mean`; 0 where no wait ended.
    pub fn remainder(&self) -> u64 {
        // SAFETY: as above.
        unsafe { linked::gudlemi_remainder(self.times, self.sum) }
    }
}

impl Default for Report {
    fn default() -> Report {
        Report { lane: [Row::default(); LANES], all: Row::default() }
    }
}

/// Runs a whole sheet from an unopened line over a lent book. The printed lines stand at the start of `text`, and the
/// answer is their length.
///
/// None where `text` is shorter than `text_bound` of the sheet's length: then nothing was run, and neither `book` nor
/// `text` is altered. An opening with a capacity above the book's length is refused, so that none is accepted on an empty
/// book. A sheet above `LONGEST_SHEET` bytes is not run: it prints `0 refused 17` and `end 0 0`, and the book is not
/// altered. (Up to version 1.1.0 of the library a sheet of any length was run.)
pub fn run(sheet: &[u8], book: &mut [u8], text: &mut [u8]) -> Option<usize> {
    // SAFETY: the slices give pointers that are not null with their lengths, and by Rust's rules for references they
    // share no byte and nobody else touches them during the call. The library keeps none of the pointers.
    let length = unsafe {
        linked::gudlemi_run(
            sheet.as_ptr(),
            sheet.len(),
            book.as_mut_ptr(),
            book.len(),
            text.as_mut_ptr(),
            text.len(),
        )
    };
    length_given(length)
}

/// `run` over a lent report, which grows in place by the waits that the sheet tells. Lent to the runs of several sheets,
/// one after the other, it has the waits of all of them.
///
/// Where any number of the report is 2^63 or more, in any row, the sheet is not run, as one that is too long: it prints
/// `0 refused 17` and `end 0 0`, and the book is not altered. In both cases, and for None, the report stays as it is.
pub fn run_reported(
    sheet: &[u8],
    book: &mut [u8],
    text: &mut [u8],
    report: &mut Report,
) -> Option<usize> {
    // SAFETY: as in `run`. The report is a reference too, so it is aligned, set and shares no byte with the slices; it
    // has the library's layout by `repr(C)`, and any numbers in it are a report.
    let length = unsafe {
        linked::gudlemi_run_reported(
            sheet.as_ptr(),
            sheet.len(),
            book.as_mut_ptr(),
            book.len(),
            text.as_mut_ptr(),
            text.len(),
            report,
        )
    };
    length_given(length)
}

/// `run` with a text buffer of its own: the printed lines, or None where no buffer is long enough.
pub fn run_to_string(sheet: &[u8], book: &mut [u8]) -> Option<String> {
    let mut text = vec![0; text_bound(sheet.len())?];
    let length = run(sheet, book, &mut text)?;
    text.truncate(length);
    text.shrink_to_fit();
    Some(String::from_utf8(text).expect("the printed lines are ASCII"))
}

/// The shortest text buffer that a run takes for a sheet of this length; None where no number of 64 bits is enough.
pub fn text_bound(sheet_length: usize) -> Option<usize> {
    // SAFETY: a number in, a number out.
    length_given(unsafe { linked::gudlemi_text_bound(sheet_length) })
}

/// What stands at byte index `at` of a sheet, which may be any number.
pub fn event_at(sheet: &[u8], at: usize) -> EventAt {
    // SAFETY: the slice gives a pointer that is not null with its length; the library only reads there.
    let length = unsafe { linked::gudlemi_event_length(sheet.as_ptr(), sheet.len(), at) };
    if length > 0 {
        return EventAt::Event { length };
    }
    // SAFETY: as above.
    match unsafe { linked::gudlemi_event_refusal(sheet.as_ptr(), sheet.len(), at) } {
        0 => EventAt::End,
        number => EventAt::Refused(number),
    }
}

fn length_given(length: usize) -> Option<usize> {
    (length != NO_LENGTH).then_some(length)
}

/// The version of the library that is linked: 10,000 for its first part, 100 for the second, 1 for the third.
pub fn version() -> u32 {
    // SAFETY: the function takes nothing and answers a number.
    unsafe { linked::gudlemi_version() }
}

//! Seeks to the end of the book (whence 2), and the sorts of them that Wish 4 makes worth seeing.

use crate::answer::Answer;
use crate::event::Event;
use crate::line::{Machine, Search, View, MOST_POINTER, RECORD_BYTES};
use crate::report::Said;

/// One seek to the end: what it met on the line, and its answer.
pub struct EndSeek {
    pub view: View,
    pub size: u32,
    pub offset: i32,
    pub answer: Answer,
}

/// A sort of seek to the end: its name, and whether a seek is of it.
pub type EndSort = (&'static str, fn(&EndSeek) -> bool);

/// "gaps" are those of a view that does not show all of its tile.
pub const END_SORTS: [EndSort; 10] = [
    ("gaps, not size / 8", |seek| seek.through_gaps() && seek.count() != seek.old_count()),
    ("gaps, size no multiple of 8", |seek| seek.through_gaps() && seek.is_no_multiple_of_8()),
    ("gaps, the size lies in one", |seek| seek.through_gaps() && seek.last_end() < seek.size()),
    ("gaps, no place below", |seek| seek.through_gaps() && seek.count() == 0),
    ("plain, size no multiple of 8", |seek| {
        seek.accepted() && seek.is_plain() && seek.is_no_multiple_of_8()
    }),
    ("the last record is cut", |seek| seek.accepted() && seek.last_end() > seek.size()),
    ("displacement at the size", |seek| seek.written() && seek.view.displacement == seek.size),
    ("displacement past the size", |seek| seek.written() && seek.view.displacement > seek.size),
    ("gaps, 15 below 0", |seek| seek.gets_15_through_gaps() && seek.target() < 0),
    ("gaps, 15 above 65,536", |seek| {
        seek.gets_15_through_gaps() && seek.target() > i64::from(MOST_POINTER)
    }),
];

impl EndSeek {
    /// The places whose record starts below the size.
    pub fn count(&self) -> u64 {
        self.view.places_below(self.size)
    }

    /// What whence 2 counted before Wish 4.
    fn old_count(&self) -> u64 {
        self.size() / RECORD_BYTES
    }

    fn size(&self) -> u64 {
        u64::from(self.size)
    }

    fn target(&self) -> i64 {
        self.count() as i64 + i64::from(self.offset)
    }

    fn accepted(&self) -> bool {
        matches!(self.answer, Answer::Seek { .. })
    }

    /// Accepted, on a book that has a record.
    fn written(&self) -> bool {
        self.accepted() && self.size > 0
    }

    fn is_no_multiple_of_8(&self) -> bool {
        !self.size().is_multiple_of(RECORD_BYTES)
    }

    fn is_plain(&self) -> bool {
        self.view == View::plain()
    }

    fn has_gaps(&self) -> bool {
        self.view.shown() < u64::from(self.view.extent)
    }

    /// Accepted, through a view with gaps that begins below the size.
    fn through_gaps(&self) -> bool {
        self.accepted() && self.has_gaps() && self.size > self.view.displacement
    }

    fn gets_15_through_gaps(&self) -> bool {
        self.answer == Answer::Refused { number: 15 } && self.has_gaps()
    }

    /// Where the last record that counts ends; 0 if none does.
    fn last_end(&self) -> u64 {
        match self.count() {
            0 => 0,
            count => self.view.position(count - 1) + RECORD_BYTES,
        }
    }
}

/// The seeks to the end in a sheet's events and answers, on the line as the oracle runs it.
pub fn end_seeks(list: &[Said]) -> Vec<EndSeek> {
    let mut machine = Machine::new(Search::AfterReleaser);
    let mut seeks = Vec::new();
    for &(event, answer) in list {
        if let Event::Seek { whence: 2, offset } = event {
            let (view, size) = (machine.line.view, machine.line.size);
            seeks.push(EndSeek { view, size, offset, answer });
        }
        machine.call(&event);
    }
    seeks
}

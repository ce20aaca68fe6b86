//! What home keeps: the line, the book as lanes have told it, the list of calls, and each lane's last call. `save` makes it
//! last over a power cut, `open` goes on from it.

use crate::call::{calls_in, open_bytes, LARGEST_BOOK, RECORD};
use crate::folder::{named, Folder};
use crate::invalid;
use crate::saved::{Last, Saved};
use gudlemi::{Answer, Line, Phase, Purpose};
use std::fs::{self, File};
use std::io::{self, Write};
use std::ops::Range;
use std::os::unix::fs::FileExt;

pub struct Kept {
    folder: Folder,
    line: Line,
    /// The records that lanes have told. The file may be ahead of it: a lane writes first and then tells.
    book: Vec<u8>,
    /// The calls that were made, as a sheet, and the file that has them.
    list: Vec<u8>,
    calls: File,
    /// How much of the list is saved.
    saved_length: usize,
    last: Vec<Last>,
}

impl Kept {
    /// Goes on from what is saved in the folder, or opens the line where nothing is.
    pub fn open(folder: &Folder, lanes: u8, capacity: u32) -> io::Result<Kept> {
        match Saved::read(folder) {
            Ok(saved) => Kept::go_on(folder, saved, lanes, capacity),
            Err(error) if error.kind() == io::ErrorKind::NotFound => {
                Kept::start(folder, lanes, capacity)
            }
            Err(error) => Err(error),
        }
    }

    /// A line that is just opened, over a book of zeros. Nothing was answered before it is saved, so that a power cut in
    /// between leaves nothing to go on from. A folder that something was written in is not taken for an empty one.
    fn start(folder: &Folder, lanes: u8, capacity: u32) -> io::Result<Kept> {
        let open = open_bytes(lanes, capacity);
        if fs::metadata(folder.calls()).is_ok_and(|file| file.len() > open.len() as u64) {
            return Err(invalid("a list of calls with nothing saved"));
        }
        if fs::read(folder.book()).is_ok_and(|book| book.iter().any(|&byte| byte != 0)) {
            return Err(invalid("a book with records and nothing saved"));
        }
        let mut book = vec![0; capacity.min(LARGEST_BOOK) as usize];
        let mut line = Line::unopened();
        if let Answer::Refused(number) = line.call(&mut book, open[0], &open[1..]) {
            return Err(invalid(&format!("the opening is refused with {number}")));
        }
        // Zeros are written, so that no lane meets a full disk after it has got its places.
        let mut file = named(&folder.book(), File::create(folder.book()))?;
        named(&folder.book(), file.write_all(&book))?;
        named(&folder.book(), file.sync_all())?;
        let calls = named(&folder.calls(), File::create(folder.calls()))?;
        folder.sync()?;
        let last = vec![Last::NONE; lanes.into()];
        let folder = folder.clone();
        let mut kept = Kept { folder, line, book, list: open, calls, saved_length: 0, last };
        kept.save()?;
        Ok(kept)
    }

    /// The saved line, with the list cut to the calls that belong to it. It is saved anew: an earlier home may have ended before
    /// its last save was sure to last, and this one answers from it.
    fn go_on(folder: &Folder, saved: Saved, lanes: u8, capacity: u32) -> io::Result<Kept> {
        if (saved.line.lanes(), saved.line.capacity()) != (lanes, capacity) {
            return Err(invalid("the saved line has other lanes or another capacity"));
        }
        let (list, book) = told_by(folder, &saved)?;
        if let Some(at) = not_as_told(folder, &saved.line, &book, false)?.first() {
            return Err(invalid(&format!("byte {at} of the book is not as it was told")));
        }
        let calls = File::options().write(true).open(folder.calls());
        let calls = named(&folder.calls(), calls)?;
        named(&folder.calls(), calls.set_len(saved.list_length))?;
        named(&folder.calls(), calls.sync_all())?;
        saved.write(folder)?;
        let (folder, saved_length) = (folder.clone(), list.len());
        let Saved { line, last, .. } = saved;
        Ok(Kept { folder, line, book, list, calls, saved_length, last })
    }

    /// Makes a call on the line for a lane, and keeps its answer.
    pub fn make(&mut self, lane: u8, number: u64, call: &[u8]) {
        self.last[usize::from(lane)] = self.make_on_line(number, call);
    }

    /// Makes one call on the whole line that all lanes have asked for, and keeps its answer for each.
    pub fn make_for_all(&mut self, numbers: &[u64], call: &[u8]) {
        let made = self.make_on_line(0, call);
        for (last, &number) in self.last.iter_mut().zip(numbers) {
            *last = Last { number, ..made };
        }
    }

    fn make_on_line(&mut self, number: u64, call: &[u8]) -> Last {
        let at = self.list.len() as u64;
        let answer = self.line.call(&mut self.book, call[0], &call[1..]);
        self.list.extend(call);
        Last { number, at, answer }
    }

    /// Saves the calls that were made since the last time, and then the state that they give. Nothing may be answered
    /// before this has ended well.
    pub fn save(&mut self) -> io::Result<()> {
        if self.saved_length == self.list.len() {
            return Ok(());
        }
        let added = &self.list[self.saved_length..];
        let name = self.folder.calls();
        named(&name, self.calls.write_all_at(added, self.saved_length as u64))?;
        named(&name, self.calls.sync_data())?;
        let list_length = self.list.len() as u64;
        let saved = Saved { list_length, line: self.line.clone(), last: self.last.clone() };
        saved.write(&self.folder)?;
        self.saved_length = self.list.len();
        Ok(())
    }

    pub fn line(&self) -> &Line {
        &self.line
    }

    pub fn lanes(&self) -> u8 {
        self.line.lanes()
    }

    pub fn last(&self, lane: u8) -> Last {
        self.last[usize::from(lane)]
    }

    /// Whether these are the bytes of a lane's last call, as they stand in the list.
    pub fn is_last_call(&self, lane: u8, call: &[u8]) -> bool {
        let Last { number, at, .. } = self.last(lane);
        let from = usize::try_from(at).unwrap_or(usize::MAX);
        number > 0 && self.list.get(from..).is_some_and(|list| list.starts_with(call))
    }
}

/// The list of calls that belongs to a saved state, and the book as it was told. The calls are made again: that gives the book,
/// and must give the state.
fn told_by(folder: &Folder, saved: &Saved) -> io::Result<(Vec<u8>, Vec<u8>)> {
    let mut list = named(&folder.calls(), fs::read(folder.calls()))?;
    let length = usize::try_from(saved.list_length).unwrap_or(usize::MAX);
    if list.len() < length {
        return Err(invalid("the list of calls is cut short"));
    }
    list.truncate(length);
    let mut book = vec![0; saved.line.capacity() as usize];
    if made_again(&list, &mut book).as_ref() != Some(&saved.line) {
        return Err(invalid("the calls give another state than the saved one"));
    }
    Ok((list, book))
}

/// The line that a list of calls gives, from an unopened one; none where its bytes are not calls to their end.
fn made_again(list: &[u8], book: &mut [u8]) -> Option<Line> {
    let mut line = Line::unopened();
    for call in calls_in(list)? {
        let _ = line.call(book, call[0], &call[1..]);
    }
    Some(line)
}

/// The bytes of the book that do not stand in the file as they were told. Left out are those that a lane may be writing now,
/// before it tells: the rest of its region, and all where a lane has the whole book, unless that one has died.
fn not_as_told(
    folder: &Folder,
    line: &Line,
    book: &[u8],
    holder_died: bool,
) -> io::Result<Vec<usize>> {
    let file = named(&folder.book(), fs::read(folder.book()))?;
    if file.len() != book.len() {
        return Err(invalid("the book has another length than the capacity"));
    }
    let phases: Vec<Phase> = (0..line.lanes()).filter_map(|lane| line.lane(lane)).collect();
    if !holder_died && phases.iter().any(has_whole_book) {
        return Ok(Vec::new());
    }
    let mut being_written = vec![false; book.len()];
    for place in phases.iter().flat_map(left_to_write) {
        let position = line.position(place) as usize;
        being_written[position..position + RECORD].fill(true);
    }
    Ok((0..book.len()).filter(|&at| book[at] != file[at] && !being_written[at]).collect())
}

/// Puts the bytes back in the file that a lane which has the whole book has written and not told before it died: a put that was
/// not told was not made.
pub fn put_back(folder: &Folder, saved: &Saved) -> io::Result<()> {
    let (_, book) = told_by(folder, saved)?;
    let file = named(&folder.book(), File::options().write(true).open(folder.book()))?;
    for at in not_as_told(folder, &saved.line, &book, true)? {
        named(&folder.book(), file.write_all_at(&book[at..=at], at as u64))?;
    }
    named(&folder.book(), file.sync_data())
}

fn has_whole_book(phase: &Phase) -> bool {
    matches!(phase, Phase::Holding { purpose: Purpose::WholeBook, .. })
}

/// The places that a lane has yet to write.
fn left_to_write(phase: &Phase) -> Range<u32> {
    match *phase {
        Phase::Writing { left, next } => next..next + u32::from(left),
        _ => 0..0,
    }
}

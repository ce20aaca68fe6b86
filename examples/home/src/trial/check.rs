//! What must be so of a book when its lanes have ended. All is held to what `linebook` prints of home's list of calls.
//!
//! 1. Each lane was answered what `linebook` answers, call by call: none of its calls was made twice or is missing.
//! 2. The places are handed out in order, each once, and each one that is to be written is written once, by its lane.
//! 3. The book is, byte for byte, the one that the list gives: by looks through `linebook` at the records up to the size, and by
//!    the library's run of the list at every byte.

use super::places::Places;
use crate::call::{calls_in, digits, lane_of, Call, RECORD};
use crate::folder::{named, Folder};
use crate::invalid;
use gudlemi::{kind, run_reported, text_bound, Purpose, Report, View, LONGEST_SHEET};
use std::fs;
use std::io::{self, Write};
use std::path::Path;
use std::process::{Command, Stdio};
use std::thread;

/// A call of the list, with its answer as `linebook` prints it.
pub struct Made {
    pub call: Vec<u8>,
    pub answer: String,
}

/// Checks the book of a folder with its lanes' files, and adds its waits to a report. `linebook` is the program; where it is
/// not named the library's own run prints the same.
pub fn check(folder: &Folder, linebook: Option<&Path>, report: &mut Report) -> io::Result<Places> {
    let sheet = named(&folder.calls(), fs::read(folder.calls()))?;
    let file = named(&folder.book(), fs::read(folder.book()))?;
    let mut book = vec![0; file.len()];
    let text = run_of(&sheet, &mut book, report)?;
    if book != file {
        let at = book.iter().zip(&file).position(|(one, other)| one != other).unwrap_or(0);
        return Err(invalid(&format!("the book differs from the one of the calls at byte {at}")));
    }
    let size = end_of(&text)?;
    let told = [sheet.clone(), looks(size)].concat();
    let printed = match linebook {
        Some(program) => printed_by(program, &told)?,
        None => run_of(&told, &mut vec![0; file.len()], &mut Report::default())?,
    };
    let mut made = made_calls(&told, &printed)?;
    let looked = made.split_off(listed(&sheet)?.len());
    hold_looks(&file, size, &looked)?;
    hold_lanes(folder, &made)?;
    let places = Places::of(&made)?;
    places.hold_records(&file)?;
    Ok(places)
}

/// The text that the library's run of a sheet prints, over a book that it fills.
fn run_of(sheet: &[u8], book: &mut [u8], report: &mut Report) -> io::Result<String> {
    if sheet.len() > LONGEST_SHEET {
        return Err(invalid("the list of calls is longer than a sheet"));
    }
    let bound = text_bound(sheet.len()).ok_or_else(|| invalid("no bound"))?;
    let mut text = vec![0; bound];
    let length = run_reported(sheet, book, &mut text, report).ok_or_else(|| invalid("no text"))?;
    text.truncate(length);
    String::from_utf8(text).map_err(|_| invalid("the text is not ASCII"))
}

/// What a program prints of a sheet.
fn printed_by(program: &Path, sheet: &[u8]) -> io::Result<String> {
    let child = Command::new(program).stdin(Stdio::piped()).stdout(Stdio::piped()).spawn();
    let mut child = named(program, child)?;
    let mut sink = child.stdin.take().ok_or_else(|| io::Error::other("no input"))?;
    let bytes = sheet.to_vec();
    let writer = thread::spawn(move || sink.write_all(&bytes));
    let output = child.wait_with_output()?;
    writer.join().map_err(|_| io::Error::other("the sheet was not written"))??;
    if !output.status.success() {
        return Err(io::Error::other(format!("linebook has ended: {}", output.status)));
    }
    String::from_utf8(output.stdout).map_err(|_| invalid("the text is not ASCII"))
}

/// The size in the last line, `end`, size, pointer.
fn end_of(text: &str) -> io::Result<usize> {
    let last: Vec<&str> = text.lines().last().unwrap_or("").split(' ').collect();
    match last[..] {
        ["end", size, _] => size.parse().map_err(|_| invalid("no size at the end")),
        _ => Err(invalid("no end")),
    }
}

/// The calls by which every record is told that ends at or below a size: the plain view, the whole book, a look at each place.
fn looks(size: usize) -> Vec<u8> {
    let mut calls = Call::View(View::PLAIN).bytes(0);
    calls.extend(Call::Want(Purpose::WholeBook).bytes(0));
    for place in 0..size / RECORD {
        calls.extend(Call::Look(place as u32).bytes(0));
    }
    calls
}

fn listed(list: &[u8]) -> io::Result<Vec<&[u8]>> {
    calls_in(list).ok_or_else(|| invalid("the list has bytes that are no call"))
}

/// Each call of a sheet with its answer: line k of the text is `k` and the answer, and `end` follows the last.
fn made_calls(sheet: &[u8], text: &str) -> io::Result<Vec<Made>> {
    let calls = listed(sheet)?;
    let lines: Vec<&str> = text.lines().collect();
    if lines.len() != calls.len() + 1 {
        return Err(invalid("not a line for each call"));
    }
    let pair = |(number, (call, line)): (usize, (&&[u8], &&str))| {
        let answer =
            line.strip_prefix(&format!("{number} ")).ok_or_else(|| invalid("a line is missing"))?;
        Ok(Made { call: call.to_vec(), answer: answer.to_string() })
    };
    calls.iter().zip(&lines).enumerate().map(pair).collect()
}

/// Holds the file to what was looked at: the view and the want, and then a record for each place.
fn hold_looks(file: &[u8], size: usize, looked: &[Made]) -> io::Result<()> {
    let records = looked.get(2..).unwrap_or_default();
    if records.len() != size / RECORD {
        return Err(invalid("not a look for each record"));
    }
    for (record, look) in file.chunks(RECORD).zip(records) {
        let digits = digits(record);
        if look.answer != format!("record {digits}") {
            return Err(invalid(&format!(
                "the book has {digits} where a look answers {}",
                look.answer
            )));
        }
    }
    Ok(())
}

/// Holds each lane's file to its part of the list: its own calls, and those on the whole line.
fn hold_lanes(folder: &Folder, made: &[Made]) -> io::Result<()> {
    let [Made { call: open, .. }, made @ ..] = made else {
        return Err(invalid("an empty list"));
    };
    let [kind::OPEN, lanes, ..] = open[..] else {
        return Err(invalid("the list does not start with an opening"));
    };
    for lane in 0..lanes {
        let is_told = |made: &&Made| lane_of(&made.call).is_none_or(|by| by == lane);
        hold_lane(folder, lane, made.iter().filter(is_told).map(Made::line))?;
    }
    Ok(())
}

/// Holds a lane's file to what stands in the list.
fn hold_lane(folder: &Folder, lane: u8, mut list: impl Iterator<Item = String>) -> io::Result<()> {
    let name = folder.told_to(lane);
    let text = named(&name, fs::read_to_string(&name))?;
    for (number, line) in (1..).zip(text.lines()) {
        let listed = list.next().unwrap_or("nothing".to_string());
        if listed != line {
            let fault = format!(
                "call {number} of lane {lane} was told \"{line}\"; in the list is \"{listed}\""
            );
            return Err(invalid(&fault));
        }
    }
    match list.next() {
        Some(more) => {
            Err(invalid(&format!("the list has a call of lane {lane} that was not told: {more}")))
        }
        None => Ok(()),
    }
}

impl Made {
    /// As a lane notes it: the bytes of the call in hexadecimal digits, and the answer.
    fn line(&self) -> String {
        format!("{} {}", digits(&self.call), self.answer)
    }
}

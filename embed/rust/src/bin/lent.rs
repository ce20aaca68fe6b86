//! `lent < GROUPS > LEFT`: runs each group of a stream in one process over the library, for tests/embed; what goes in and
//! out is that of `oracle lent` (oracle/README.md). A group is a lent report and a stream of sheets. It answers the
//! stream of their printed texts, and the report as left. Every sheet gets the book as the sheet before left it.

mod stream;

use gudlemi::{run_reported, text_bound, Report};
use std::io::{self, BufReader, BufWriter, Read, Write};
use std::process::ExitCode;
use stream::{exit_by, read_bytes, read_item, write_item};

/// The next number of a report: 8 bytes, big-endian.
fn read_number(source: &mut impl Read) -> io::Result<u64> {
    read_bytes(source).map(u64::from_be_bytes)
}

/// A report: the lanes' rows, then the one for all.
fn read_report(source: &mut impl Read) -> io::Result<Report> {
    let mut report = Report::default();
    for row in report.lane.iter_mut().chain([&mut report.all]) {
        row.times = read_number(source)?;
        row.sum = read_number(source)?;
        row.largest = read_number(source)?;
        row.unended = read_number(source)?;
    }
    Ok(report)
}

fn write_report(sink: &mut impl Write, report: &Report) -> io::Result<()> {
    for row in report.lane.iter().chain([&report.all]) {
        for number in [row.times, row.sum, row.largest, row.unended] {
            sink.write_all(&number.to_be_bytes())?;
        }
    }
    Ok(())
}

/// The printed lines of a sheet over the book and the report.
fn printed(sheet: &[u8], book: &mut [u8], report: &mut Report) -> io::Result<Vec<u8>> {
    let none = || io::Error::other("no text is long enough");
    let mut text = vec![0; text_bound(sheet.len()).ok_or_else(none)?];
    let length = run_reported(sheet, book, &mut text, report).ok_or_else(none)?;
    text.truncate(length);
    Ok(text)
}

/// Runs a group; the answer is its texts and the report as left.
fn left_by(mut group: &[u8], book: &mut [u8]) -> io::Result<Vec<u8>> {
    let mut report = read_report(&mut group)?;
    let mut left = Vec::new();
    while let Some(sheet) = read_item(&mut group)? {
        write_item(&mut left, &printed(&sheet, book, &mut report)?)?;
    }
    write_report(&mut left, &report)?;
    Ok(left)
}

fn run_all() -> io::Result<()> {
    let mut source = BufReader::new(io::stdin().lock());
    let mut sink = BufWriter::new(io::stdout().lock());
    let mut book = vec![0xEE; 65_536];
    let mut number = 0;
    while let Some(group) = read_item(&mut source)? {
        let left = left_by(&group, &mut book)
            .map_err(|error| io::Error::other(format!("group {number}: {error}")))?;
        write_item(&mut sink, &left)?;
        number += 1;
    }
    sink.flush()
}

fn main() -> ExitCode {
    exit_by("lent", run_all())
}

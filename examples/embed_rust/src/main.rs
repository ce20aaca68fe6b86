//! `embed_rust SHEET`: prints where each event of a sheet file starts and how long it is, then runs the sheet.
//! `embed_rust report SHEET...`: runs the sheets over one report of waiting, and prints it as a table.
//!
//! Build, after `embed/build`, from the repository's top:
//!     cargo build --release --manifest-path examples/embed_rust/Cargo.toml

use gudlemi::{event_at, run_reported, run_to_string, text_bound};
use gudlemi::{EventAt, Report, Row, LONGEST_SHEET};
use std::fs::File;
use std::io::{self, Read, Write};
use std::process::ExitCode;

const BOOK_LENGTH: usize = 65_536;

/// The bytes of the file; one byte past the longest sheet is enough to see that it is too long.
fn read_sheet(name: &str) -> io::Result<Vec<u8>> {
    let mut sheet = Vec::new();
    let file = File::open(name)?;
    file.take(LONGEST_SHEET as u64 + 1).read_to_end(&mut sheet)?;
    if sheet.len() > LONGEST_SHEET {
        return Err(io::Error::other("sheet too long"));
    }
    Ok(sheet)
}

/// Walks the events: each one's byte index and length, and at last the bytes that are none, if there are such.
fn print_events(out: &mut impl Write, sheet: &[u8]) -> io::Result<()> {
    let mut at = 0;
    loop {
        match event_at(sheet, at) {
            EventAt::Event { length } => {
                writeln!(out, "byte {at}: event of {length} bytes")?;
                at += length;
            }
            EventAt::Refused(number) => {
                return writeln!(out, "byte {at}: no event, refused {number}")
            }
            EventAt::End => return Ok(()),
        }
    }
}

/// Runs the sheet on a book of 65,536 bytes, and prints the text.
fn print_run(out: &mut impl Write, sheet: &[u8]) -> io::Result<()> {
    let mut book = vec![0; BOOK_LENGTH];
    let text =
        run_to_string(sheet, &mut book).ok_or(io::Error::other("no text buffer is long enough"))?;
    out.write_all(text.as_bytes())
}

fn print_sheet(name: &str) -> io::Result<()> {
    let sheet = read_sheet(name)?;
    let mut out = io::BufWriter::new(io::stdout().lock());
    print_events(&mut out, &sheet)?;
    print_run(&mut out, &sheet)?;
    out.flush()
}

/// Runs the sheet over the report, which grows; the text is not looked at.
fn count_sheet(name: &str, report: &mut Report) -> io::Result<()> {
    let sheet = read_sheet(name)?;
    let mut book = vec![0; BOOK_LENGTH];
    let mut text = vec![0; text_bound(sheet.len()).unwrap_or(0)];
    run_reported(&sheet, &mut book, &mut text, report)
        .ok_or(io::Error::other("no text buffer is long enough"))?;
    Ok(())
}

/// A line of the table: the row, with its mean and what remains.
fn print_row(out: &mut impl Write, first: &str, row: &Row) -> io::Result<()> {
    write!(out, "{first:>4} {:>9} {:>9} {:>9}", row.times, row.sum, row.largest)?;
    writeln!(out, " {:>9} {:>9} {:>9}", row.mean(), row.remainder(), row.unended)
}

/// The report as a table: a line for each lane with any wait, then one for all.
fn print_report(report: &Report) -> io::Result<()> {
    let mut out = io::BufWriter::new(io::stdout().lock());
    writeln!(out, "lane     times       sum   largest      mean remainder   unended")?;
    for (lane, row) in report.lane.iter().enumerate() {
        if row.times > 0 || row.unended > 0 {
            print_row(&mut out, &lane.to_string(), row)?;
        }
    }
    print_row(&mut out, "all", &report.all)?;
    out.flush()
}

/// Runs the sheets over one report and prints it; an error comes with the name of what it is about.
fn print_waiting(names: &[String]) -> Result<(), (&str, io::Error)> {
    let mut report = Report::default();
    for name in names {
        count_sheet(name, &mut report).map_err(|error| (name.as_str(), error))?;
    }
    print_report(&report).map_err(|error| ("standard output", error))
}

fn main() -> ExitCode {
    let words: Vec<String> = std::env::args().skip(1).collect();
    let done = match words.as_slice() {
        [name] => print_sheet(name).map_err(|error| (name.as_str(), error)),
        [word, names @ ..] if word == "report" => print_waiting(names),
        _ => {
            eprintln!("use: embed_rust SHEET, or embed_rust report SHEET...");
            return ExitCode::from(2);
        }
    };
    let Err((name, error)) = done else {
        return ExitCode::SUCCESS;
    };
    eprintln!("embed_rust: {name}: {error}");
    ExitCode::from(1)
}

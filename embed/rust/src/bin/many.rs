//! `many < SHEETS > TEXTS`: runs each sheet of a stream in one process and writes the stream of printed texts, for tests/embed.
//! Every sheet gets the book as the sheet before left it, since an opening has to clear it. It also holds the events
//! found in each sheet to the text. A sheet above 65,536 bytes, which the library does not run but refuses with 17,
//! gives `sheet too long` as of linebook.

mod stream;

use gudlemi::{event_at, run_to_string, EventAt, LONGEST_SHEET};
use std::io::{self, BufReader, BufWriter, Write};
use std::process::ExitCode;
use stream::{exit_by, read_item, write_item};

/// The library's text of a sheet that is too long, and linebook's.
const REFUSED_17: &str = "0 refused 17\nend 0 0\n";
const TOO_LONG: &str = "sheet too long\n";

/// How many events stand in a sheet, and what follows the last one.
fn walk(sheet: &[u8]) -> (usize, EventAt) {
    let mut count = 0;
    let mut at = 0;
    loop {
        match event_at(sheet, at) {
            EventAt::Event { length } => at += length,
            last => return (count, last),
        }
        count += 1;
    }
}

/// Whether the text has a line for each event found, then one for bytes that are no event, then `end`.
fn text_has_these_events(sheet: &[u8], text: &str) -> bool {
    let (count, last) = walk(sheet);
    let rest: Vec<&str> = text.lines().skip(count).collect();
    match (last, rest.as_slice()) {
        (EventAt::Refused(number), [refusal, end]) => {
            *refusal == format!("{count} refused {number}") && end.starts_with("end ")
        }
        (EventAt::End, [end]) => end.starts_with("end "),
        _ => false,
    }
}

fn fault(what: &str, number: usize) -> io::Error {
    io::Error::other(format!("sheet {number}: {what}"))
}

/// What is printed of a sheet, once it is held to what the library must say of it.
fn printed(sheet: &[u8], number: usize, book: &mut [u8]) -> io::Result<String> {
    let text = run_to_string(sheet, book).ok_or_else(|| fault("no text is long enough", number))?;
    if sheet.len() > LONGEST_SHEET {
        if text != REFUSED_17 {
            return Err(fault("too long, and not refused with 17", number));
        }
        return Ok(TOO_LONG.to_string());
    }
    if !text_has_these_events(sheet, &text) {
        return Err(fault("the text has other events than event_at finds", number));
    }
    Ok(text)
}

fn run_all() -> io::Result<()> {
    let mut source = BufReader::new(io::stdin().lock());
    let mut sink = BufWriter::new(io::stdout().lock());
    let mut book = vec![0xEE; 65_536];
    let mut number = 0;
    while let Some(sheet) = read_item(&mut source)? {
        write_item(&mut sink, printed(&sheet, number, &mut book)?.as_bytes())?;
        number += 1;
    }
    sink.flush()
}

fn main() -> ExitCode {
    exit_by("many", run_all())
}

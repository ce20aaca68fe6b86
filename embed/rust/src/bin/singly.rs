//! `singly < SHEETS > TEXTS`: prints of each sheet of a stream what `many` prints, made by single calls, for tests/embed. Each
//! event is one call on the line's state bytes. Every sheet gets the book as the sheet before left it. A sheet above
//! 65,536 bytes is not run, and gives `sheet too long`.

mod stream;

use gudlemi::{event_at, Answer, EventAt, Line, LONGEST_SHEET};
use std::io::{self, BufReader, BufWriter, Write};
use std::process::ExitCode;
use stream::{exit_by, read_item, write_item};

/// What is printed of a sheet that is not run.
const TOO_LONG: &str = "sheet too long\n";

/// The bytes of the call at an index of a sheet, or none at its end. Bytes that are no event are one last call, to the
/// sheet's end.
fn call_at(sheet: &[u8], at: usize) -> Option<&[u8]> {
    match event_at(sheet, at) {
        EventAt::Event { length } => Some(&sheet[at..at + length]),
        EventAt::Refused(_) => Some(&sheet[at..]),
        EventAt::End => None,
    }
}

/// What is printed of a sheet, a line for each call and then `end`; refusals 1 to 3 end the run.
fn printed(sheet: &[u8], book: &mut [u8]) -> String {
    if sheet.len() > LONGEST_SHEET {
        return TOO_LONG.to_string();
    }
    let mut line = Line::unopened();
    let mut text = String::new();
    let mut at = 0;
    let mut number = 0;
    while let Some(call) = call_at(sheet, at) {
        let answer = line.call(book, call[0], &call[1..]);
        text.push_str(&answer.line(number));
        if matches!(answer, Answer::Refused(1..=3)) {
            break;
        }
        at += call.len();
        number += 1;
    }
    text.push_str(&format!("end {} {}\n", line.size(), line.pointer()));
    text
}

fn run_all() -> io::Result<()> {
    let mut source = BufReader::new(io::stdin().lock());
    let mut sink = BufWriter::new(io::stdout().lock());
    let mut book = vec![0xEE; 65_536];
    while let Some(sheet) = read_item(&mut source)? {
        write_item(&mut sink, printed(&sheet, &mut book).as_bytes())?;
    }
    sink.flush()
}

fn main() -> ExitCode {
    exit_by("singly", run_all())
}

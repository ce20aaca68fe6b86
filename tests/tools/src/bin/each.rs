//! `each PROGRAM [--pieces N]`: runs a program once for each sheet of a stream on standard input, and writes a stream of what it printed.
//! A stream is a row of byte strings, each preceded by its length as 4 bytes big-endian. With `--pieces N` a sheet is handed over N bytes at a time, with a
//! pause after each of the first eight.

use oracle_lib::stream::{read_item, write_item};
use std::io::{self, Write};
use std::process::{Command, ExitCode, Stdio};
use std::thread;
use std::time::Duration;

/// What the program prints of a sheet, which it gets in pieces of this size. A program that stops reading early is no fault.
fn printed(program: &str, sheet: Vec<u8>, piece: usize) -> io::Result<Vec<u8>> {
    let mut child = Command::new(program).stdin(Stdio::piped()).stdout(Stdio::piped()).spawn()?;
    let mut input = child.stdin.take().expect("a pipe");
    let feeder = thread::spawn(move || {
        for (number, part) in sheet.chunks(piece).enumerate() {
            if input.write_all(part).and_then(|()| input.flush()).is_err() {
                return;
            }
            // so that the program's reads come back short: the pipe would join pieces that follow at once
            if piece < sheet.len() && number < 8 {
                thread::sleep(Duration::from_millis(1));
            }
        }
    });
    let output = child.wait_with_output()?;
    feeder.join().expect("the feeder ends");
    if !output.status.success() {
        return Err(io::Error::other(format!("{program} ended with {}", output.status)));
    }
    Ok(output.stdout)
}

fn run(program: &str, piece: usize) -> io::Result<()> {
    let mut source = io::stdin().lock();
    let mut sink = io::BufWriter::new(io::stdout().lock());
    while let Some(sheet) = read_item(&mut source)? {
        let text = printed(program, sheet, piece)?;
        write_item(&mut sink, &text)?;
    }
    sink.flush()
}

fn main() -> ExitCode {
    let words: Vec<String> = std::env::args().skip(1).collect();
    let arguments = match words.as_slice() {
        [program] => Some((program, usize::MAX)),
        [program, flag, size] if flag == "--pieces" => {
            size.parse().ok().filter(|n| *n > 0).map(|n| (program, n))
        }
        _ => None,
    };
    let Some((program, piece)) = arguments else {
        eprintln!("use: each PROGRAM [--pieces N]");
        return ExitCode::from(2);
    };
    match run(program, piece) {
        Ok(()) => ExitCode::SUCCESS,
        Err(error) => {
            eprintln!("each: {error}");
            ExitCode::from(2)
        }
    }
}

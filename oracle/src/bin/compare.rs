//! `compare A B SHEETS [--seed S] [--skip K] [--any]`: two output streams held
//! against each other, with the sheets they answer.
//! `compare calls A B CASES [--seed S] [--skip K] [--any]`: the same of two printed texts and the
//! cases of single calls.

use oracle_lib::cases::Case;
use oracle_lib::cover::Cover;
use oracle_lib::cover_calls::{case_texts, CallCover};
use oracle_lib::stream::{open_source, read_item};
use std::io;
use std::process::ExitCode;

struct Arguments {
    calls: bool,
    files: Vec<String>,
    seed: Option<String>,
    skip: u64,
    any: bool,
}

fn arguments() -> Option<Arguments> {
    let mut words = std::env::args().skip(1).peekable();
    let calls = words.next_if(|word| word == "calls").is_some();
    let mut arguments = Arguments { calls, files: Vec::new(), seed: None, skip: 0, any: false };
    while let Some(word) = words.next() {
        match word.as_str() {
            "--seed" => arguments.seed = Some(words.next()?),
            "--skip" => arguments.skip = words.next()?.parse().ok()?,
            "--any" => arguments.any = true,
            _ => arguments.files.push(word),
        }
    }
    let inputs = arguments.files.iter().filter(|file| *file == "-").count();
    (arguments.files.len() == 3 && inputs <= 1).then_some(arguments)
}

/// The number of the sheet or case and the arguments that make it again.
fn which(arguments: &Arguments, k: u64) -> String {
    let number = arguments.skip + k;
    let (what, word) = if arguments.calls { ("case", "calls ") } else { ("sheet", "") };
    match &arguments.seed {
        Some(seed) => format!("{what} {number} (generate {word}{seed} 1 --skip {number})"),
        None => {
            format!("{what} {number} (of the seed you gave: generate {word}SEED 1 --skip {number})")
        }
    }
}

/// The first line that differs, as both have it.
fn first_difference(a: &[u8], b: &[u8]) -> String {
    let mut lines_a = a.split_inclusive(|byte| *byte == b'\n');
    let mut lines_b = b.split_inclusive(|byte| *byte == b'\n');
    let mut number = 0;
    loop {
        let (line_a, line_b) = (lines_a.next(), lines_b.next());
        if line_a != line_b {
            return format!("line {number}:\n  A: {}\n  B: {}", show(line_a), show(line_b));
        }
        if line_a.is_none() {
            return "no line".to_string();
        }
        number += 1;
    }
}

fn show(line: Option<&[u8]>) -> String {
    match line {
        Some(line) => format!("{:?}", String::from_utf8_lossy(line)),
        None => "(nothing)".to_string(),
    }
}

/// The next item of a stream, its name and the sheet in the error if it is cut.
fn next(source: &mut impl io::Read, name: &str, which: &str) -> io::Result<Option<Vec<u8>>> {
    read_item(source).map_err(|error| io::Error::other(format!("{which}, {name}: {error}")))
}

/// Holds the streams together; the first fault as a sentence.
fn hold(arguments: &Arguments, cover: &mut Cover) -> io::Result<Option<String>> {
    let mut a = open_source(&arguments.files[0])?;
    let mut b = open_source(&arguments.files[1])?;
    let mut sheets = open_source(&arguments.files[2])?;
    for k in 0.. {
        let which = which(arguments, k);
        let items = (next(&mut a, "A", &which)?, next(&mut b, "B", &which)?);
        let items = (items.0, items.1, next(&mut sheets, "the sheets", &which)?);
        let (Some(a), Some(b), Some(sheet)) = &items else {
            return Ok(match items {
                (None, None, None) => None,
                (None, _, _) => Some(format!("{which}: A has ended, another stream has not")),
                (_, None, _) => Some(format!("{which}: B has ended, another stream has not")),
                (_, _, _) => Some(format!("{which}: the sheets have ended, A and B have not")),
            });
        };
        if a != b {
            return Ok(Some(format!("{which} differs in {}", first_difference(a, b))));
        }
        if let Err(fault) = cover.count(sheet, a) {
            return Ok(Some(format!("{which}: A and B agree, but on a {fault}")));
        }
    }
    unreachable!("the loop ends with a stream")
}

/// A whole text.
fn text_of(name: &str) -> io::Result<String> {
    let mut text = String::new();
    let read = open_source(name)?.read_to_string(&mut text);
    read.map_err(|error| io::Error::other(format!("{name}: {error}")))?;
    Ok(text)
}

/// Holds two printed texts of cases together; the first fault as a sentence.
fn hold_calls(arguments: &Arguments, cover: &mut CallCover) -> io::Result<Option<String>> {
    let (a, b) = (text_of(&arguments.files[0])?, text_of(&arguments.files[1])?);
    let (mut a, mut b) = (case_texts(&a).into_iter(), case_texts(&b).into_iter());
    let mut cases = open_source(&arguments.files[2])?;
    for k in 0.. {
        let which = which(arguments, k);
        let case = Case::read(&mut cases)
            .map_err(|error| io::Error::other(format!("{which}, the cases: {error}")))?;
        let (a, b) = (a.next(), b.next());
        let (Some(a), Some(b), Some(case)) = (a, b, &case) else {
            let ended = (a, b, &case) == (None, None, &None);
            return Ok((!ended).then(|| format!("{which}: one of A, B and the cases has ended")));
        };
        if a != b {
            let difference = first_difference(a.as_bytes(), b.as_bytes());
            return Ok(Some(format!("{which} differs in {difference}")));
        }
        if let Err(fault) = cover.count(arguments.skip + k, case, a) {
            return Ok(Some(format!("{which}: A and B agree, but on a {fault}")));
        }
    }
    unreachable!("the loop ends with the cases")
}

/// The counts as text and their faults, or the first fault as a sentence.
fn held(arguments: &Arguments) -> io::Result<Result<(String, Vec<String>), String>> {
    if arguments.calls {
        let mut cover = CallCover::default();
        let fault = hold_calls(arguments, &mut cover)?;
        return Ok(fault.map_or(Ok((cover.table(), cover.faults())), Err));
    }
    let mut cover = Cover::default();
    let fault = hold(arguments, &mut cover)?;
    Ok(fault.map_or(Ok((cover.table(), cover.faults())), Err))
}

fn main() -> ExitCode {
    let Some(arguments) = arguments() else {
        eprintln!("use: compare A B SHEETS [--seed S] [--skip K] [--any]  (one may be -)");
        eprintln!("     compare calls A B CASES [--seed S] [--skip K] [--any]");
        return ExitCode::from(2);
    };
    let faults = match held(&arguments) {
        Err(error) => {
            eprintln!("compare: {error}");
            return ExitCode::from(2);
        }
        Ok(Err(fault)) => {
            println!("{fault}");
            return ExitCode::from(1);
        }
        Ok(Ok((table, faults))) => {
            print!("{table}");
            faults
        }
    };
    if arguments.any || faults.is_empty() {
        println!("no difference");
        return ExitCode::SUCCESS;
    }
    for fault in faults {
        println!("{fault}");
    }
    ExitCode::from(1)
}

//! `oracle`: one sheet on standard input, its printed lines on standard output.
//! `oracle many`: a stream of sheets in, a stream of printed bytes out.
//! `oracle report FILE...`: the sheets in the files run over one report, as a table.
//! `oracle lent`: a stream of groups in, a stream of printed texts and reports left out.
//! `oracle calls`: cases of single calls in, their answers, states and books as text out.
//! `oracle singly`: as `oracle many`, each event made as a single call over state bytes.

use oracle_lib::cases::Case;
use oracle_lib::group::{left_bytes, Group};
use oracle_lib::line::Search;
use oracle_lib::report::Report;
use oracle_lib::sheet::{print_sheet, print_sheet_with_report, MOST_SHEET};
use oracle_lib::single::{call, print_singly};
use oracle_lib::stream::{open_source, read_item, write_item};
use std::io::{self, BufWriter, Read, Write};
use std::process::ExitCode;

/// Something was left out of the table; it was named on standard error.
const LEFT_OUT: u8 = 1;

const USE: &str =
    "use: oracle | oracle many|singly|lent|calls (standard input) | oracle report FILE...";

fn one() -> io::Result<ExitCode> {
    let mut sheet = Vec::new();
    io::stdin().read_to_end(&mut sheet)?;
    io::stdout().write_all(&print_sheet(&sheet, Search::AfterReleaser))?;
    Ok(ExitCode::SUCCESS)
}

/// A stream of sheets in, a stream of what is printed of each out.
fn many(print: fn(&[u8]) -> Vec<u8>) -> io::Result<ExitCode> {
    let mut source = open_source("-")?;
    let mut out = BufWriter::new(io::stdout().lock());
    while let Some(sheet) = read_item(&mut source)? {
        write_item(&mut out, &print(&sheet))?;
    }
    out.flush()?;
    Ok(ExitCode::SUCCESS)
}

fn calls() -> io::Result<ExitCode> {
    let mut source = open_source("-")?;
    let mut out = BufWriter::new(io::stdout().lock());
    let mut k = 0;
    while let Some(case) = Case::read(&mut source)? {
        out.write_all(case.printed(k, call).as_bytes())?;
        k += 1;
    }
    out.flush()?;
    Ok(ExitCode::SUCCESS)
}

fn lent() -> io::Result<ExitCode> {
    let mut source = open_source("-")?;
    let mut out = BufWriter::new(io::stdout().lock());
    while let Some(bytes) = read_item(&mut source)? {
        let mut group = Group::of_bytes(&bytes)?;
        let printed = group.run();
        write_item(&mut out, &left_bytes(&printed, &group.report)?)?;
    }
    out.flush()?;
    Ok(ExitCode::SUCCESS)
}

/// A file's sheet, or the sentence that says why there is none.
fn sheet_of(name: &str) -> Result<Vec<u8>, String> {
    let source = open_source(name).map_err(|error| error.to_string())?;
    let mut sheet = Vec::new();
    let most = MOST_SHEET as u64;
    let read = source.take(most + 1).read_to_end(&mut sheet);
    read.map_err(|error| format!("{name}: {error}"))?;
    if sheet.len() > MOST_SHEET {
        return Err(format!("{name}: sheet too long"));
    }
    Ok(sheet)
}

/// One report over all files. A file without a sheet is named, and the others still count.
fn report(names: &[&str]) -> io::Result<ExitCode> {
    if names.iter().filter(|name| **name == "-").count() > 1 {
        return Err(io::Error::other("use: oracle report FILE...  (one may be -)"));
    }
    let mut report = Report::no_waiting();
    let mut code = ExitCode::SUCCESS;
    for name in names {
        match sheet_of(name) {
            Ok(sheet) => {
                print_sheet_with_report(&sheet, Search::AfterReleaser, &mut report);
            }
            Err(sentence) => {
                eprintln!("oracle: {sentence}");
                code = ExitCode::from(LEFT_OUT);
            }
        }
    }
    io::stdout().write_all(report.table().as_bytes())?;
    Ok(code)
}

fn main() -> ExitCode {
    let words: Vec<String> = std::env::args().skip(1).collect();
    let words: Vec<&str> = words.iter().map(String::as_str).collect();
    let done = match words.as_slice() {
        [] => one(),
        ["many"] => many(|sheet| print_sheet(sheet, Search::AfterReleaser)),
        ["singly"] => many(print_singly),
        ["lent"] => lent(),
        ["calls"] => calls(),
        ["report", names @ ..] => report(names),
        _ => Err(io::Error::other(USE)),
    };
    match done {
        Ok(code) => code,
        Err(error) => {
            eprintln!("oracle: {error}");
            ExitCode::from(2)
        }
    }
}

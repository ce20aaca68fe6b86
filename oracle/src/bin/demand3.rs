//! `demand3 SHEETS PRINTED`: demand 3, checked over sheets and what was printed.

use oracle_lib::demand3::{check, Tally};
use oracle_lib::stream::{open_source, read_item};
use std::io;
use std::process::ExitCode;

/// Checks all sheets; the first breach as a sentence.
fn hold(sheets: &str, printed: &str, tally: &mut Tally) -> io::Result<Option<String>> {
    let mut sheets = open_source(sheets)?;
    let mut printed = open_source(printed)?;
    for k in 0.. {
        let (sheet, lines) = match (read_item(&mut sheets)?, read_item(&mut printed)?) {
            (Some(sheet), Some(lines)) => (sheet, lines),
            (None, None) => return Ok(None),
            _ => return Ok(Some(format!("sheet {k}: one stream has ended, the other has not"))),
        };
        if let Err(breach) = check(&sheet, &lines, tally) {
            let event = match breach.event {
                Some(number) => format!("event {number}"),
                None => "end".to_string(),
            };
            return Ok(Some(format!("sheet {k}, {event}: {}", breach.sentence)));
        }
    }
    unreachable!("the loop ends with a stream")
}

fn main() -> ExitCode {
    let words: Vec<String> = std::env::args().skip(1).collect();
    let [sheets, printed] = words.as_slice() else {
        eprintln!("use: demand3 SHEETS PRINTED  (one may be -)");
        return ExitCode::from(2);
    };
    let mut tally = Tally::default();
    match hold(sheets, printed, &mut tally) {
        Err(error) => {
            eprintln!("demand3: {error}");
            ExitCode::from(2)
        }
        Ok(Some(breach)) => {
            println!("{breach}");
            ExitCode::from(1)
        }
        Ok(None) => {
            println!("{} sheets, no breach", tally.sheets);
            println!("{} waits, longest d {}", tally.waits, tally.longest_d);
            println!("{} wakes, {} still due at an end", tally.wakes, tally.still_due);
            println!("{} releases, at most {} in a wait", tally.releases, tally.most_releases);
            println!(
                "{} stretches, {} places, {} ordered calls",
                tally.stretches, tally.places, tally.ordered
            );
            ExitCode::SUCCESS
        }
    }
}

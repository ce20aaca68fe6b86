//! A line on real processes. `home serve` is the home process of a line. `home trial` starts it with lanes, which are `home lane`, and
//! kills it meanwhile; `home check` looks at what a trial has left. `home finish` finishes what dead lanes have left.
//!
//! Build, after `embed/build`, from the repository's top:
//!     cargo build --release --manifest-path examples/home/Cargo.toml

mod call;
mod finish;
mod folder;
mod home;
mod kept;
mod lane;
mod message;
mod saved;
mod serve;
#[cfg(test)]
mod tests;
mod trial;

use folder::Folder;
use gudlemi::{layout, Report, LAYOUT};
use std::io::{self, Write};
use std::path::Path;
use std::process::ExitCode;
use trial::plan::Sizes;
use trial::run::Trial;

const USE: &str = "use: home serve FOLDER LANES CAPACITY [attended]
     home trial FOLDER [--lanes 64] [--books 12] [--cuts 120] [--operations 16] [--most 4] [--capacity 65536]
                [--seed 1] [--linebook PROGRAM]
     home check FOLDER [LINEBOOK]
     home finish FOLDER LANE..";

/// What is wrong in what was read.
fn invalid(fault: &str) -> io::Error {
    io::Error::new(io::ErrorKind::InvalidData, fault)
}

/// What is wrong in the command's words.
fn misused(fault: &str) -> io::Error {
    io::Error::new(io::ErrorKind::InvalidInput, fault)
}

fn number<N: std::str::FromStr>(word: &str) -> io::Result<N> {
    word.parse().map_err(|_| misused(&format!("{word} is no number that fits here")))
}

fn run(words: &[&str]) -> io::Result<()> {
    if layout() != LAYOUT {
        return Err(invalid("libembed.a has another layout"));
    }
    match words {
        ["serve", folder, lanes, capacity, attended @ ..]
            if matches!(attended, [] | ["attended"]) =>
        {
            if attended == ["attended"] {
                serve::end_with_input();
            }
            serve::serve(&Folder::new(*folder), number(lanes)?, number(capacity)?)
        }
        ["lane", folder, lane, sizes @ ..] => {
            work(folder, number(lane)?, Sizes::from_words(sizes)?)
        }
        ["trial", folder, sizes @ ..] => Trial::from_words(folder, sizes)?.run(),
        ["check", folder] => check(folder, None),
        ["check", folder, linebook] => check(folder, Some(Path::new(linebook))),
        ["finish", folder, lanes @ ..] if !lanes.is_empty() => finish(folder, lanes),
        _ => Err(misused(USE)),
    }
}

/// The work of a lane of the trial; its last line is for the driver.
fn work(folder: &str, lane: u8, sizes: Sizes) -> io::Result<()> {
    let of_lane = |error: io::Error| io::Error::new(error.kind(), format!("lane {lane}: {error}"));
    let done = trial::work::work(&Folder::new(folder), lane, sizes).map_err(of_lane)?;
    writeln!(io::stdout(), "{}", done.to_line())
}

/// What a trial has left in the folder of a book.
fn check(folder: &str, linebook: Option<&Path>) -> io::Result<()> {
    let places = trial::check::check(&Folder::new(folder), linebook, &mut Report::default())?;
    writeln!(io::stdout(), "{places}")
}

/// Finishes all these lanes at once, as one may wait for another, and prints the calls of each.
fn finish(folder: &str, lanes: &[&str]) -> io::Result<()> {
    let lanes: Vec<u8> = lanes.iter().map(|lane| number(lane)).collect::<io::Result<_>>()?;
    for (lane, made) in finish::finish_all(&Folder::new(folder), &lanes) {
        for (call, answer) in made? {
            writeln!(io::stdout(), "lane {lane}: {call:?}: {answer}")?;
        }
    }
    Ok(())
}

/// Status 1 where something failed or a check did not hold, 2 where the words are refused.
fn main() -> ExitCode {
    let words: Vec<String> = std::env::args().skip(1).collect();
    let words: Vec<&str> = words.iter().map(String::as_str).collect();
    let Err(error) = run(&words) else {
        return ExitCode::SUCCESS;
    };
    eprintln!("home: {error}");
    ExitCode::from(if error.kind() == io::ErrorKind::InvalidInput { 2 } else { 1 })
}

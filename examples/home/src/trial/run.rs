//! The trial: book after book by home and its lanes, with power cuts; each book checked, and how long each lane waited.

use super::check::check;
use super::drive::{drive, Driven};
use super::places::Places;
use super::plan::Sizes;
use super::work::{Done, Waits};
use crate::folder::{named, Folder};
use crate::{misused, number};
use gudlemi::{Report, Row};
use std::fs;
use std::io::{self, Write};
use std::path::PathBuf;
use std::time::Duration;

/// How large a trial is. A book is small: its list of calls must fit a sheet, so a long trial has several.
pub struct Trial {
    folder: PathBuf,
    /// The sizes of each book, but for its number.
    sizes: Sizes,
    books: u16,
    /// How many power cuts home suffers in all.
    cuts: u64,
    /// The program `linebook`; without it the library's own run prints the same.
    linebook: Option<PathBuf>,
}

/// What the books of a trial come to together.
#[derive(Default)]
struct Totals {
    cuts: u64,
    takes: u64,
    written: usize,
    asked_again: u64,
    made_before: u64,
    time: Duration,
    report: Report,
    waits: Vec<Waits>,
}

impl Trial {
    /// The trial of a command's words: pairs of a name and a value, each with a default.
    pub fn from_words(folder: &str, words: &[&str]) -> io::Result<Trial> {
        let sizes =
            Sizes { lanes: 64, capacity: 65_536, operations: 16, most: 4, seed: 1, book: 1 };
        let mut trial =
            Trial { folder: folder.into(), sizes, books: 12, cuts: 120, linebook: None };
        for pair in words.chunks(2) {
            match pair {
                ["--lanes", value] => trial.sizes.lanes = number(value)?,
                ["--capacity", value] => trial.sizes.capacity = number(value)?,
                ["--operations", value] => trial.sizes.operations = number(value)?,
                ["--most", value] => trial.sizes.most = number(value)?,
                ["--seed", value] => trial.sizes.seed = number(value)?,
                ["--books", value] => trial.books = number(value)?,
                ["--cuts", value] => trial.cuts = number(value)?,
                ["--linebook", value] => trial.linebook = Some(value.into()),
                _ => {
                    return Err(misused(&format!(
                        "{} is no size of a trial, or has no value",
                        pair[0]
                    )))
                }
            }
        }
        Ok(trial)
    }

    /// Runs all books, prints a line for each, and then what they come to.
    pub fn run(&self) -> io::Result<()> {
        if self.books == 0 {
            return Err(misused("there are no books"));
        }
        for book in 1..=self.books {
            if let Some(fault) = (Sizes { book, ..self.sizes }).fault() {
                return Err(misused(&fault));
            }
        }
        let mut totals =
            Totals { waits: vec![Waits::default(); self.sizes.lanes.into()], ..Totals::default() };
        for book in 1..=self.books {
            let cuts = self.cuts * u64::from(book) / u64::from(self.books) - totals.cuts;
            self.run_book(book, cuts, &mut totals)?;
        }
        totals.print()?;
        if totals.cuts < self.cuts {
            return Err(io::Error::other("fewer power cuts than asked for: take larger books"));
        }
        Ok(())
    }

    /// One book, in a folder of its own.
    fn run_book(&self, book: u16, cuts: u64, totals: &mut Totals) -> io::Result<()> {
        let path = self.folder.join(format!("book.{book}"));
        named(&self.folder, fs::create_dir_all(&self.folder))?;
        named(&path, fs::create_dir(&path))?;
        let folder = Folder::new(path);
        let driven = drive(&folder, Sizes { book, ..self.sizes }, cuts)?;
        let places = check(&folder, self.linebook.as_deref(), &mut totals.report)?;
        writeln!(
            io::stdout(),
            "book {book}: {places}; {} power cuts; {:.1} s",
            driven.cuts,
            driven.time.as_secs_f64()
        )?;
        totals.add(&driven, &places);
        Ok(())
    }
}

impl Totals {
    fn add(&mut self, driven: &Driven, places: &Places) {
        self.cuts += driven.cuts;
        self.time += driven.time;
        self.takes += places.takes;
        self.written += places.written();
        for (waits, Done { waits: more, asked_again, made_before }) in
            self.waits.iter_mut().zip(&driven.done)
        {
            waits.times += more.times;
            waits.sum += more.sum;
            waits.longest = waits.longest.max(more.longest);
            self.asked_again += asked_again;
            self.made_before += made_before;
        }
    }

    fn print(&self) -> io::Result<()> {
        let mut out = io::stdout().lock();
        let Totals { cuts, takes, written, asked_again, made_before, time, .. } = self;
        writeln!(out, "in all: {takes} takes, {written} records, each written once, by the lane that its place was handed to")?;
        writeln!(out, "in all: {cuts} power cuts; {asked_again} calls asked for again, {made_before} of them made before; {:.1} s", time.as_secs_f64())?;
        writeln!(out, "waits of each lane, in accepted releases and in milliseconds:")?;
        writeln!(out, "lane     waits  releases  mean largest     mean ms  largest ms")?;
        for (lane, waits) in self.waits.iter().enumerate() {
            writeln!(out, "{lane:4} {}", waits_line(&self.report.lane[lane], waits))?;
        }
        Ok(())
    }
}

/// A lane's waits: their number, the releases that they took in all, their mean and largest; and by the clock.
fn waits_line(row: &Row, waits: &Waits) -> String {
    let milliseconds = |time: Duration| time.as_secs_f64() * 1e3;
    let mean = milliseconds(waits.sum) / f64::from(waits.times.max(1));
    let Row { times, sum, largest, .. } = row;
    format!(
        "{times:9} {sum:9} {:5} {largest:7} {mean:11.2} {:11.2}",
        row.mean(),
        milliseconds(waits.longest)
    )
}

//! `line_rust start FILE`: opens a line, makes calls on it, and saves its state and its book in the file.
//! `line_rust go-on FILE`: goes on from the file, in another process: the lane that was woken makes its calls, and the book
//! is printed.
//!
//! Build, after `embed/build`, from the repository's top:
//!     cargo build --release --manifest-path examples/line_rust/Cargo.toml

use gudlemi::{layout, Answer, Line, Phase, Purpose, LAYOUT, STATE_LENGTH};
use std::fs::{self, File};
use std::io::{self, Write};
use std::process::ExitCode;

const LANES: u8 = 4;
const BOOK_LENGTH: usize = 512;
const RECORD: usize = 8;

/// A line with its book, and how many calls this process has made, by which their lines are numbered.
struct LineAndBook {
    line: Line,
    book: [u8; BOOK_LENGTH],
    calls: u64,
}

impl LineAndBook {
    fn new(line: Line, book: [u8; BOOK_LENGTH]) -> LineAndBook {
        LineAndBook { line, book, calls: 0 }
    }

    /// Makes a call and prints its answer. In this program every call must be accepted.
    fn call(&mut self, make: impl FnOnce(&mut Line, &mut [u8]) -> Answer) -> io::Result<()> {
        let answer = make(&mut self.line, &mut self.book);
        let mut out = io::stdout().lock();
        out.write_all(answer.line(self.calls).as_bytes())?;
        self.calls += 1;
        if matches!(answer, Answer::Refused(_)) {
            return Err(io::Error::other("refused"));
        }
        if let Some(lane) = answer.wakes() {
            writeln!(out, "lane {lane} is to be told that it was woken")?;
        }
        Ok(())
    }

    /// Writes state and book to a new file, which then takes the place of the old one: a save that fails leaves that as
    /// it was.
    fn save(&self, name: &str) -> io::Result<()> {
        let new_name = format!("{name}.new");
        let mut file = File::create(&new_name)?;
        file.write_all(self.line.as_bytes())?;
        file.write_all(&self.book)?;
        file.sync_all()?;
        fs::rename(new_name, name)
    }

    /// Reads state and book. Only a line that is sound with its book is gone on from.
    fn load(name: &str) -> io::Result<LineAndBook> {
        let bytes = fs::read(name)?;
        if bytes.len() != STATE_LENGTH + BOOK_LENGTH {
            return Err(io::Error::other("not the length of a saved line"));
        }
        let (state, rest) = bytes.split_at(STATE_LENGTH);
        let mut book = [0; BOOK_LENGTH];
        book.copy_from_slice(rest);
        match Line::from_bytes(state).filter(|line| line.is_sound(BOOK_LENGTH)) {
            Some(line) => Ok(LineAndBook::new(line, book)),
            None => Err(io::Error::other("not a sound line")),
        }
    }

    /// The records of the places that were handed out.
    fn print_book(&self) -> io::Result<()> {
        let mut out = io::stdout().lock();
        for place in 0..self.line.pointer() {
            let position = self.line.position(place) as usize;
            let Some(record) = self.book.get(position..position + RECORD) else {
                return Ok(());
            };
            write!(out, "place {place} at byte {position}: ")?;
            out.write_all(record)?;
            writeln!(out)?;
        }
        Ok(())
    }
}

/// Lane 0 gets the book at once. Lane 1 must wait, and is woken when lane 0 has taken its places.
fn start(name: &str) -> io::Result<()> {
    let mut both = LineAndBook::new(Line::unopened(), [0; BOOK_LENGTH]);
    both.call(|line, book| line.open(book, LANES, BOOK_LENGTH as u32))?;
    both.call(|line, book| line.want(book, 0, Purpose::SharedWrite))?;
    both.call(|line, book| line.want(book, 1, Purpose::SharedWrite))?;
    both.call(|line, book| line.take(book, 0, 2))?;
    both.call(|line, book| line.write(book, 0, *b"lane 0 a"))?;
    both.call(|line, book| line.write(book, 0, *b"lane 0 b"))?;
    both.save(name)?;
    writeln!(io::stdout(), "saved")
}

/// The wake of lane 1 is in the file.
fn go_on(name: &str) -> io::Result<()> {
    let mut both = LineAndBook::load(name)?;
    if !matches!(both.line.lane(1), Some(Phase::Woken { .. })) {
        return Err(io::Error::other("lane 1 was not woken"));
    }
    both.call(|line, book| line.receive(book, 1))?;
    both.call(|line, book| line.take(book, 1, 1))?;
    both.call(|line, book| line.write(book, 1, *b"lane 1 a"))?;
    both.print_book()
}

fn main() -> ExitCode {
    let words: Vec<String> = std::env::args().skip(1).collect();
    let words: Vec<&str> = words.iter().map(String::as_str).collect();
    let (name, done) = match words.as_slice() {
        _ if layout() != LAYOUT => ("libembed.a", Err(io::Error::other("another layout"))),
        ["start", name] => (*name, start(name)),
        ["go-on", name] => (*name, go_on(name)),
        _ => {
            eprintln!("use: line_rust start FILE, or line_rust go-on FILE");
            return ExitCode::from(2);
        }
    };
    let Err(error) = done else {
        return ExitCode::SUCCESS;
    };
    eprintln!("line_rust: {name}: {error}");
    ExitCode::from(1)
}

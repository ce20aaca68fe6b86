//! The work of a lane in a trial: it writes the book with all others, and then reads it with them. Each call and the answer
//! that it got goes to the lane's own file.

use super::plan::{Operation, Sizes, CORRECTS_EVERY, LOOKS, READ_AT_ONCE};
use super::random::Random;
use crate::call::{digits, Call, Record, RECORD};
use crate::folder::{named, record_at, Folder};
use crate::lane::Lane;
use crate::message::{Made, Reply, Request, Run};
use gudlemi::{Answer, Purpose, Whence};
use std::fmt::Write as _;
use std::fs::{self, File};
use std::io::{self, Write as _};
use std::os::unix::fs::FileExt;
use std::os::unix::net::UnixStream;
use std::time::{Duration, Instant};

/// One reply in so many is lost on its way, beside those that a power cut loses.
const LOST_EVERY: u64 = 100;

/// How many of the places before the pointer are looked at more often: lanes are about to write them.
const LAST_PLACES: u32 = 8;

/// Where a record has the number of its corrections.
const CORRECTIONS: usize = 1;

/// The refusal of a take or an enter whose records do not fit: the book is full.
const DOES_NOT_FIT: Answer = Answer::Refused(16);

struct Worker {
    folder: Folder,
    sizes: Sizes,
    lane: Lane,
    book: File,
    random: Random,
    /// How many records this lane has written.
    written: u32,
    /// The calls with their answers, as text.
    told: String,
    done: Done,
}

/// How long a lane waited for its turn, by the clock.
#[derive(Clone, Copy, Debug, Default)]
pub struct Waits {
    pub times: u32,
    pub sum: Duration,
    pub longest: Duration,
}

/// What a lane tells at its end: its waits, how often it asked for a call again, and how often that had been made before.
#[derive(Clone, Copy, Debug, Default)]
pub struct Done {
    pub waits: Waits,
    pub asked_again: u64,
    pub made_before: u64,
}

/// Does all work of a lane, and writes its calls and answers to its file.
pub fn work(folder: &Folder, lane: u8, sizes: Sizes) -> io::Result<Done> {
    // Home makes the book's file before it answers anybody.
    let lane = Lane::resume(folder, lane)?;
    let book = File::options().read(true).write(true).open(folder.book());
    let book = named(&folder.book(), book)?;
    let random = Random::new(sizes.seed, &[sizes.book.into(), lane.lane().into(), 1]);
    let mut worker = Worker {
        folder: folder.clone(),
        sizes,
        lane,
        book,
        random,
        written: 0,
        told: String::new(),
        done: Done::default(),
    };
    worker.write_book()?;
    worker.read_book()?;
    let Worker { lane, told, done, .. } = worker;
    let name = folder.told_to(lane.lane());
    named(&name, fs::write(&name, told))?;
    Ok(Done { asked_again: done.asked_again + lane.asked_again, ..done })
}

impl Worker {
    /// The operations of the plan, in the view of this book.
    fn write_book(&mut self) -> io::Result<()> {
        if let Some(view) = self.sizes.view() {
            self.ask(&Call::View(view))?;
        }
        for operation in self.sizes.plan(self.lane.lane()) {
            match operation {
                Operation::Write(count) => self.write(count)?,
                Operation::Read(count) => self.read(count)?,
                Operation::Correct => self.correct()?,
                Operation::Enter(count) => self.enter(count)?,
            }
        }
        Ok(())
    }

    /// Reads the book from its start, in turn with all others, until nothing is left; with corrections in between.
    fn read_book(&mut self) -> io::Result<()> {
        let end = self.seek(Whence::End)?;
        self.seek(Whence::Start)?;
        for takes in 1.. {
            let pointer = self.turn(Purpose::SharedRead)?;
            let left = end.saturating_sub(pointer);
            let count = READ_AT_ONCE.min(left.try_into().unwrap_or(READ_AT_ONCE));
            let taken = self.ask(&Call::Take(count))?;
            self.read_region(&taken.runs)?;
            if count == 0 {
                return Ok(());
            }
            if takes % CORRECTS_EVERY == 0 {
                self.correct()?;
            }
        }
        Ok(())
    }

    fn seek(&mut self, whence: Whence) -> io::Result<u32> {
        match self.ask(&Call::Seek(whence, 0))?.answer {
            Answer::Seek { pointer } => Ok(pointer),
            other => Err(unexpected("seek", other)),
        }
    }

    /// Gets the turn, and with it the pointer: at once, or when the lane is woken.
    fn turn(&mut self, purpose: Purpose) -> io::Result<u32> {
        let start = Instant::now();
        let mut answer = self.ask(&Call::Want(purpose))?.answer;
        if answer == Answer::Waits {
            answer = self.ask(&Call::Receive)?.answer;
            self.done.waits.add(start.elapsed());
        }
        match answer {
            Answer::Holds { pointer } => Ok(pointer),
            other => Err(unexpected("want", other)),
        }
    }

    /// Takes so many places, or none where the book is full.
    fn take(&mut self, count: u16) -> io::Result<Reply> {
        let reply = self.ask(&Call::Take(count))?;
        if reply.answer == DOES_NOT_FIT {
            return self.ask(&Call::Take(0));
        }
        Ok(reply)
    }

    fn write(&mut self, count: u16) -> io::Result<()> {
        self.turn(Purpose::SharedWrite)?;
        let taken = self.take(count)?;
        self.write_region(&taken.runs)
    }

    fn read(&mut self, count: u16) -> io::Result<()> {
        self.turn(Purpose::SharedRead)?;
        let taken = self.take(count)?;
        self.read_region(&taken.runs)
    }

    fn enter(&mut self, count: u16) -> io::Result<()> {
        let mut reply = self.ask(&Call::Enter(count))?;
        if reply.answer == DOES_NOT_FIT {
            reply = self.ask(&Call::Enter(0))?;
        }
        self.write_region(&reply.runs)
    }

    /// Writes the records of a region into the file where home says, makes them last, and then tells each.
    fn write_region(&mut self, runs: &[Run]) -> io::Result<()> {
        let mut records = Vec::new();
        for run in runs {
            let of_run: Vec<Record> = (0..run.records).map(|_| self.next_record()).collect();
            self.book.write_all_at(&of_run.concat(), run.position)?;
            records.extend(of_run);
        }
        if !records.is_empty() {
            self.book.sync_data()?;
        }
        for (position, record) in Run::positions(runs).zip(records) {
            match self.ask(&Call::Write(record))?.answer {
                Answer::Wrote { position: told } if told == position => (),
                other => return Err(unexpected("write", other)),
            }
        }
        Ok(())
    }

    /// Reads each record of a region from the file, and tells it. Only the number of corrections may be another in the answer,
    /// as the lane that has the whole book can correct a record in between.
    fn read_region(&mut self, runs: &[Run]) -> io::Result<()> {
        for position in Run::positions(runs) {
            let read = record_at(&self.book, position)?;
            match self.ask(&Call::Read)?.answer {
                Answer::None => (),
                Answer::Record(told) if read.map(uncorrected) == Some(uncorrected(told)) => (),
                other => return Err(unexpected("read", other)),
            }
        }
        Ok(())
    }

    /// With the whole book: looks at records below the pointer, one of the last and others anywhere, and puts those back that were
    /// told, with a correction more. A place that a lane has yet to write, as the last ones often are, is left alone.
    fn correct(&mut self) -> io::Result<()> {
        let pointer = self.turn(Purpose::WholeBook)?;
        for look in 0..LOOKS {
            let reach = if look == 0 { pointer.min(LAST_PLACES) } else { pointer };
            let place =
                pointer.saturating_sub(1 + self.random.below(u64::from(reach).max(1)) as u32);
            self.correct_place(place)?;
        }
        match self.ask(&Call::Free)?.answer {
            Answer::Freed { .. } => Ok(()),
            other => Err(unexpected("free", other)),
        }
    }

    fn correct_place(&mut self, place: u32) -> io::Result<()> {
        let looked = self.ask(&Call::Look(place))?;
        match (looked.answer, looked.runs.as_slice()) {
            (Answer::Record(record), [run]) if record != [0; RECORD] => {
                self.correct_record(place, run.position, record)
            }
            _ => Ok(()),
        }
    }

    fn correct_record(&mut self, place: u32, position: u64, mut record: Record) -> io::Result<()> {
        if record_at(&self.book, position)? != Some(record) {
            return Err(io::Error::other(format!("another record in the book at byte {position}")));
        }
        record[CORRECTIONS] = record[CORRECTIONS].wrapping_add(1);
        self.book.write_all_at(&record, position)?;
        self.book.sync_data()?;
        match self.ask(&Call::Put(place, record))?.answer {
            Answer::Wrote { position: told } if told == position => Ok(()),
            other => Err(unexpected("put", other)),
        }
    }

    /// A record that says who wrote it: lane + 1, corrections, book 2, how many records the lane wrote before 4.
    fn next_record(&mut self) -> Record {
        let [b, c] = self.sizes.book.to_be_bytes();
        let [d, e, f, g] = self.written.to_be_bytes();
        self.written += 1;
        [self.lane.lane() + 1, 0, b, c, d, e, f, g]
    }

    /// Asks for a call and notes its answer. Now and then a reply is lost on its way, and the lane asks again.
    fn ask(&mut self, call: &Call) -> io::Result<Reply> {
        if self.random.one_in(LOST_EVERY) {
            self.lose_reply(&self.lane.next_request(call));
        }
        let reply = self.lane.ask(call)?;
        self.done.made_before += u64::from(reply.made == Made::Before);
        let call = digits(&call.bytes(self.lane.lane()));
        let _ = writeln!(self.told, "{call} {}", reply.answer);
        Ok(reply)
    }

    /// Sends a request by a connection of its own, which ends before the reply comes. Where home is not there it is lost, too.
    fn lose_reply(&mut self, request: &Request) {
        self.done.asked_again += 1;
        let connection = UnixStream::connect(self.folder.socket());
        let _ = connection.and_then(|mut home| home.write_all(&request.to_bytes()));
    }
}

impl Waits {
    fn add(&mut self, time: Duration) {
        self.times += 1;
        self.sum += time;
        self.longest = self.longest.max(time);
    }
}

fn uncorrected(mut record: Record) -> Record {
    record[CORRECTIONS] = 0;
    record
}

fn unexpected(call: &str, answer: Answer) -> io::Error {
    io::Error::other(format!("a {call} was answered: {answer}"))
}

//! Finishes what a lane has left whose process has died, by the calls that the line accepts of it next: no other lane is passed
//! over, and no place is handed out anew. A watchdog does this once it is sure that the process is gone.

use crate::call::{Call, RECORD};
use crate::folder::{named, record_at, Folder};
use crate::invalid;
use crate::kept::put_back;
use crate::lane::Lane;
use crate::message::Made;
use crate::saved::Saved;
use gudlemi::{Answer, Line, Phase, Purpose};
use std::fs::File;
use std::io;
use std::thread;

/// Makes, in the lane's name, its receive, which is answered when the lane is woken, its take of 0 or its free, and tells the rest
/// of its region as it stands in the book, until the lane is idle. The answer has these calls. A lane that is gathered stays so
/// until all others have entered, and is finished by another try.
pub fn finish(folder: &Folder, lane: u8) -> io::Result<Vec<(Call, Answer)>> {
    let book = named(&folder.book(), File::open(folder.book()))?;
    // What the lane has written must last before it is told.
    named(&folder.book(), book.sync_data())?;
    let mut made = Vec::new();
    loop {
        let saved = Saved::read(folder)?;
        let Some(call) = next_call(folder, &book, &saved, lane)? else {
            return Ok(made);
        };
        let mut client = Lane::new(folder, lane, saved.last[usize::from(lane)].number);
        let request = client.next_request(&call);
        let reply = client.send(&request)?;
        // Where it was not made, a request that the lane had sent before it died has come in between.
        if reply.made != Made::Not {
            must_be_told(&saved.line, lane, reply.answer)?;
            made.push((call, reply.answer));
        }
    }
}

/// Finishes several lanes at once: a lane that waits is finished when those before it are.
pub fn finish_all(folder: &Folder, lanes: &[u8]) -> Vec<(u8, io::Result<Vec<(Call, Answer)>>)> {
    let start = |&lane: &u8| {
        let folder = folder.clone();
        (lane, thread::spawn(move || finish(&folder, lane)))
    };
    let started: Vec<_> = lanes.iter().map(start).collect();
    let end = |failed| Err(io::Error::other(format!("a lane was not finished: {failed:?}")));
    started.into_iter().map(|(lane, thread)| (lane, thread.join().unwrap_or_else(end))).collect()
}

/// The call that brings a lane on; none where it is idle or gathered. What a lane with the whole book has not told is put back
/// first.
fn next_call(folder: &Folder, book: &File, saved: &Saved, lane: u8) -> io::Result<Option<Call>> {
    let phase =
        saved.line.lane(lane).ok_or_else(|| invalid(&format!("home has no lane {lane}")))?;
    Ok(match phase {
        Phase::Idle | Phase::Gathered { .. } => None,
        Phase::Waiting { .. } | Phase::Woken { .. } => Some(Call::Receive),
        Phase::Holding { purpose: Purpose::WholeBook, .. } => {
            put_back(folder, saved)?;
            Some(Call::Free)
        }
        Phase::Holding { .. } => Some(Call::Take(0)),
        Phase::Writing { next, .. } => {
            let record = record_at(book, saved.line.position(next))?;
            Some(Call::Write(record.unwrap_or([0; RECORD])))
        }
        Phase::Reading { .. } => Some(Call::Read),
    })
}

/// The call must be accepted, and a record told where it was read.
fn must_be_told(line: &Line, lane: u8, answer: Answer) -> io::Result<()> {
    match (line.lane(lane), answer) {
        (_, Answer::Refused(number)) => {
            Err(invalid(&format!("lane {lane} is refused with {number}")))
        }
        (Some(Phase::Writing { next, .. }), Answer::Wrote { position })
            if position != line.position(next) =>
        {
            Err(invalid(&format!(
                "lane {lane} writes at byte {position}, and not at its next place"
            )))
        }
        _ => Ok(()),
    }
}

//! A lane's side of the line: it asks home for one call at a time, and asks again where home was cut off before it answered.

use crate::call::Call;
use crate::folder::{named, Folder};
use crate::message::{Made, Reply, Request};
use gudlemi::Answer;
use std::io::{self, BufReader, ErrorKind, Write};
use std::os::unix::net::UnixStream;
use std::thread;
use std::time::{Duration, Instant};

/// How long a lane tries to reach home before it gives up, and the pause between two tries.
const LONGEST_ABSENCE: Duration = Duration::from_secs(60);
const PAUSE: Duration = Duration::from_millis(2);

/// A lane as home's client. Its calls are numbered from 1 on.
pub struct Lane {
    folder: Folder,
    lane: u8,
    /// The number of the last call that was made.
    number: u64,
    connection: Option<UnixStream>,
    /// How often a call was asked for again.
    pub asked_again: u64,
}

impl Lane {
    /// A lane whose last call has this number: 0 where it has made none.
    pub fn new(folder: &Folder, lane: u8, number: u64) -> Lane {
        Lane { folder: folder.clone(), lane, number, connection: None, asked_again: 0 }
    }

    /// A lane that goes on where an earlier process of it has ended: home tells the number of its last call.
    pub fn resume(folder: &Folder, lane: u8) -> io::Result<Lane> {
        let mut resumed = Lane::new(folder, lane, 0);
        let reply = resumed.send(&Request { lane, number: 0, call: Vec::new() })?;
        if let Answer::Refused(8) = reply.answer {
            return Err(io::Error::other(format!("home has no lane {lane}")));
        }
        resumed.number = reply.number;
        Ok(resumed)
    }

    pub fn lane(&self) -> u8 {
        self.lane
    }

    /// Asks for a call, and waits until home answers it. For a receive that is until the lane is woken, for an ordered call,
    /// a view and a seek until all lanes have asked for it. An error where home did not make it.
    pub fn ask(&mut self, call: &Call) -> io::Result<Reply> {
        let request = self.next_request(call);
        let reply = self.send(&request)?;
        if reply.made == Made::Not {
            let (asked, Reply { number, answer, .. }) = (request.number, reply);
            return Err(io::Error::other(format!(
                "call {asked} was not made; home has {number} as the last one, and answers {answer}"
            )));
        }
        self.number = request.number;
        Ok(reply)
    }

    /// The request by which a call is asked for next.
    pub fn next_request(&self, call: &Call) -> Request {
        Request { lane: self.lane, number: self.number + 1, call: call.bytes(self.lane) }
    }

    /// Sends a request, by a new connection where the last one has ended, until there is a reply.
    pub fn send(&mut self, request: &Request) -> io::Result<Reply> {
        loop {
            self.connect()?;
            match self.try_to_send(request) {
                Err(error) if error.kind() == ErrorKind::InvalidData => return Err(error),
                Err(_) => self.connection = None,
                reply => return reply,
            }
            self.asked_again += 1;
        }
    }

    fn try_to_send(&mut self, request: &Request) -> io::Result<Reply> {
        let connection = self.connection.as_mut().ok_or(ErrorKind::NotConnected)?;
        connection.write_all(&request.to_bytes())?;
        // One reply is under way at most, so that the buffer takes in nothing that belongs to the next.
        Reply::read_from(&mut BufReader::new(connection))
    }

    /// Connects where there is no connection, and waits for home where it is not there.
    fn connect(&mut self) -> io::Result<()> {
        let start = Instant::now();
        while self.connection.is_none() {
            match UnixStream::connect(self.folder.socket()) {
                Ok(connection) => self.connection = Some(connection),
                Err(error) if is_absent(&error) && start.elapsed() < LONGEST_ABSENCE => {
                    thread::sleep(PAUSE);
                }
                Err(error) => return named(&self.folder.socket(), Err(error)),
            }
        }
        Ok(())
    }
}

/// Whether an error says that home is not there now, and may come.
fn is_absent(error: &io::Error) -> bool {
    use ErrorKind::{ConnectionRefused, ConnectionReset, Interrupted, NotFound, WouldBlock};
    matches!(
        error.kind(),
        ConnectionRefused | ConnectionReset | Interrupted | NotFound | WouldBlock
    )
}

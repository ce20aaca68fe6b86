//! The home process: lanes reach it by a local socket, and one thread makes all calls on the line.
//!
//! It is ended by killing it, at any moment: what it has answered is saved, and what it has not answered is asked again.

use crate::folder::{named, Folder};
use crate::home::Home;
use crate::kept::Kept;
use crate::message::{Reply, Request};
use std::fs;
use std::io::{self, BufReader};
use std::os::unix::net::{UnixListener, UnixStream};
use std::sync::mpsc::{self, Sender};
use std::sync::Arc;
use std::thread;
use std::time::Duration;

/// How long home tries to write a reply to a lane that does not read. The lane asks again.
const LONGEST_WRITE: Duration = Duration::from_secs(1);

/// The pause after a connection that failed, as where too many are open.
const AFTER_FAILURE: Duration = Duration::from_millis(20);

/// A request, with the connection that it came by.
type Incoming = (Request, Arc<UnixStream>);

/// Serves the line of a folder till the process is killed. An error ends it before anything is answered that is not saved.
pub fn serve(folder: &Folder, lanes: u8, capacity: u32) -> io::Result<()> {
    let _lock = folder.lock()?;
    let mut home = Home::new(Kept::open(folder, lanes, capacity)?);
    let (sender, inbox) = mpsc::channel();
    let listener = listen(folder)?;
    thread::spawn(move || accept(&listener, &sender));
    // Calls that came meanwhile are saved together with the first one.
    while let Ok(first) = inbox.recv() {
        let together = std::iter::once(first).chain(inbox.try_iter());
        together.for_each(|(request, by)| home.take_in(request, by));
        home.answer()?.into_iter().for_each(|(lane, reply)| send(&lane, &reply));
    }
    Err(io::Error::other("no lane can be accepted any more"))
}

/// Sends a reply. A lane that cannot be written to has gone; it comes back and asks again.
fn send(mut lane: &UnixStream, reply: &Reply) {
    if reply.send(&mut lane).is_err() {
        let _ = lane.shutdown(std::net::Shutdown::Both);
    }
}

/// Ends this process when its standard input does: so does a home whose starter has ended.
pub fn end_with_input() {
    thread::spawn(|| {
        let _ = io::copy(&mut io::stdin(), &mut io::sink());
        std::process::exit(0);
    });
}

/// The socket, in place of the one that an earlier home has left.
fn listen(folder: &Folder) -> io::Result<UnixListener> {
    let name = folder.socket();
    match fs::remove_file(&name) {
        Err(error) if error.kind() != io::ErrorKind::NotFound => named(&name, Err(error)),
        _ => named(&name, UnixListener::bind(&name)),
    }
}

/// Accepts connections, each with a thread that reads its requests.
fn accept(listener: &UnixListener, sender: &Sender<Incoming>) {
    for stream in listener.incoming() {
        let sender = sender.clone();
        match stream {
            Ok(stream) => start_reading(stream, sender),
            Err(error) => {
                eprintln!("home: a connection failed: {error}");
                thread::sleep(AFTER_FAILURE);
            }
        }
    }
}

/// Starts the thread of a connection; without one the connection ends, and the lane comes again.
fn start_reading(stream: UnixStream, sender: Sender<Incoming>) {
    let reader = thread::Builder::new().spawn(move || read_requests(stream, &sender));
    if let Err(error) = reader {
        eprintln!("home: no thread for a connection: {error}");
        thread::sleep(AFTER_FAILURE);
    }
}

/// Hands on the requests of a connection until it ends.
fn read_requests(stream: UnixStream, sender: &Sender<Incoming>) {
    if let Err(error) = stream.set_write_timeout(Some(LONGEST_WRITE)) {
        return eprintln!("home: a connection failed: {error}");
    }
    let stream = Arc::new(stream);
    let mut source = BufReader::new(stream.as_ref());
    while let Ok(Some(request)) = Request::read_from(&mut source) {
        if sender.send((request, Arc::clone(&stream))).is_err() {
            return;
        }
    }
}

//! The folder of a line: the files that home and its lanes share, and how a file is replaced so that a power cut leaves the old one or the new one.

use crate::call::{Record, RECORD};
use std::fs::{self, File, TryLockError};
use std::io::{self, Write};
use std::os::unix::fs::FileExt;
use std::path::{Path, PathBuf};

/// The folder of one line and its book.
#[derive(Clone, Debug)]
pub struct Folder {
    path: PathBuf,
}

impl Folder {
    pub fn new(path: impl Into<PathBuf>) -> Folder {
        Folder { path: path.into() }
    }

    pub fn path(&self) -> &Path {
        &self.path
    }

    /// The book: the lanes write their records here.
    pub fn book(&self) -> PathBuf {
        self.path.join("book")
    }

    /// The calls that were made, one after the other: a sheet.
    pub fn calls(&self) -> PathBuf {
        self.path.join("calls")
    }

    /// What home goes on from after a power cut.
    pub fn saved(&self) -> PathBuf {
        self.path.join("saved")
    }

    /// Where lanes reach home.
    pub fn socket(&self) -> PathBuf {
        self.path.join("socket")
    }

    /// The calls of one lane with the answers that it got, as text.
    pub fn told_to(&self, lane: u8) -> PathBuf {
        self.path.join(format!("lane.{lane}"))
    }

    /// Takes the folder for this process: two homes would hand out the same places. The lock goes when the process ends.
    pub fn lock(&self) -> io::Result<File> {
        let name = self.path.join("lock");
        let file = named(&name, File::create(&name))?;
        match file.try_lock() {
            Ok(()) => Ok(file),
            Err(TryLockError::WouldBlock) => Err(io::Error::other("another home has this folder")),
            Err(TryLockError::Error(error)) => named(&name, Err(error)),
        }
    }

    /// Replaces a file of the folder: the bytes are written to a new file and synced, which then takes the name, and the
    /// folder is synced. Until the name is taken the old file stands; after it the new one is whole.
    pub fn replace(&self, name: &Path, bytes: &[u8]) -> io::Result<()> {
        let new_name = name.with_extension("new");
        let mut file = named(&new_name, File::create(&new_name))?;
        named(&new_name, file.write_all(bytes))?;
        named(&new_name, file.sync_all())?;
        named(name, fs::rename(new_name, name))?;
        self.sync()
    }

    /// Makes the names in the folder last over a power cut.
    pub fn sync(&self) -> io::Result<()> {
        named(&self.path, File::open(&self.path).and_then(|folder| folder.sync_all()))
    }
}

/// The record at a byte of a book's file; none where it ends past the file's end.
pub fn record_at(book: &File, position: u64) -> io::Result<Option<Record>> {
    let mut record = [0; RECORD];
    match book.read_exact_at(&mut record, position) {
        Ok(()) => Ok(Some(record)),
        Err(error) if error.kind() == io::ErrorKind::UnexpectedEof => Ok(None),
        Err(error) => Err(error),
    }
}

/// A result whose error says which file it is about.
pub fn named<T>(name: &Path, result: io::Result<T>) -> io::Result<T> {
    result.map_err(|error| io::Error::new(error.kind(), format!("{}: {error}", name.display())))
}

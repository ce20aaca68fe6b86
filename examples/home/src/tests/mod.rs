//! Tests of home: what goes over a socket, what is saved, the rules by which calls are made and answered, and lanes that die.

mod home;
mod kept;
mod lanes;
mod message;
mod plan;
mod saved;

use crate::folder::Folder;
use crate::kept::Kept;
use std::fs;
use std::io;
use std::ops::Deref;
use std::sync::atomic::{AtomicU32, Ordering};

/// A folder for one test, which goes with it.
struct Temporary(Folder);

impl Temporary {
    fn new() -> Temporary {
        static NUMBER: AtomicU32 = AtomicU32::new(0);
        let number = NUMBER.fetch_add(1, Ordering::Relaxed);
        let name = format!("gudlemi-home-{}-{number}", std::process::id());
        let path = std::env::temp_dir().join(name);
        fs::create_dir(&path).expect("a new folder");
        Temporary(Folder::new(path))
    }

    /// What home keeps of a line with three lanes and room for eight records.
    fn kept(&self) -> io::Result<Kept> {
        Kept::open(&self.0, 3, 64)
    }
}

impl Deref for Temporary {
    type Target = Folder;

    fn deref(&self) -> &Folder {
        &self.0
    }
}

impl Drop for Temporary {
    fn drop(&mut self) {
        let _ = fs::remove_dir_all(self.0.path());
    }
}

/// What an attempt has failed with.
fn fault<T>(attempt: io::Result<T>) -> String {
    match attempt {
        Ok(_) => "nothing".to_string(),
        Err(error) => error.to_string(),
    }
}

//! A stream of byte strings, each preceded by its length as 4 bytes big-endian.

use std::fs::File;
use std::io::{self, BufReader, Read, Write};

pub fn write_item(out: &mut impl Write, bytes: &[u8]) -> io::Result<()> {
    let length = u32::try_from(bytes.len()).map_err(|_| io::Error::other("item too long"))?;
    out.write_all(&length.to_be_bytes())?;
    out.write_all(bytes)
}

/// The next item; nothing at a clean end; an error if the stream is cut.
pub fn read_item(source: &mut impl Read) -> io::Result<Option<Vec<u8>>> {
    let mut head = Vec::new();
    source.by_ref().take(4).read_to_end(&mut head)?;
    if head.is_empty() {
        return Ok(None);
    }
    if head.len() < 4 {
        return Err(io::Error::other("stream cut inside a length"));
    }
    let length = u32::from_be_bytes([head[0], head[1], head[2], head[3]]);
    let mut bytes = Vec::new();
    source.by_ref().take(u64::from(length)).read_to_end(&mut bytes)?;
    if bytes.len() < length as usize {
        return Err(io::Error::other("stream cut inside an item"));
    }
    Ok(Some(bytes))
}

/// A named file, or standard input for "-".
pub fn open_source(name: &str) -> io::Result<Box<dyn Read>> {
    if name == "-" {
        return Ok(Box::new(BufReader::new(io::stdin())));
    }
    match File::open(name) {
        Ok(file) => Ok(Box::new(BufReader::with_capacity(1 << 16, file))),
        Err(error) => Err(io::Error::other(format!("{name}: {error}"))),
    }
}

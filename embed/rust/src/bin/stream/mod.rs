//! Bytes that come one after the other, for the programs here. A stream is a row of items: byte strings, each preceded by
//! its length as 4 bytes big-endian.

use std::io::{self, Read, Write};
use std::process::ExitCode;

/// The next item of a stream, or none at its end.
pub fn read_item(source: &mut impl Read) -> io::Result<Option<Vec<u8>>> {
    let mut length = [0; 4];
    if source.read(&mut length[..1])? == 0 {
        return Ok(None);
    }
    length[1..].copy_from_slice(&read_bytes::<3>(source)?);
    let mut item = vec![0; u32::from_be_bytes(length) as usize];
    source.read_exact(&mut item)?;
    Ok(Some(item))
}

/// The next bytes, as many as the answer has; an error where the input ends before.
pub fn read_bytes<const COUNT: usize>(source: &mut impl Read) -> io::Result<[u8; COUNT]> {
    let mut bytes = [0; COUNT];
    source.read_exact(&mut bytes)?;
    Ok(bytes)
}

pub fn write_item(sink: &mut impl Write, item: &[u8]) -> io::Result<()> {
    let length = u32::try_from(item.len()).map_err(io::Error::other)?;
    sink.write_all(&length.to_be_bytes())?;
    sink.write_all(item)
}

/// The exit of a program: 1 with a line on standard error where something went wrong.
pub fn exit_by(program: &str, done: io::Result<()>) -> ExitCode {
    let Err(error) = done else {
        return ExitCode::SUCCESS;
    };
    eprintln!("{program}: {error}");
    ExitCode::from(1)
}

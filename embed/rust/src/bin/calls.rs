//! `calls < CASES > LINES`: makes single calls over buffers of the lengths that each case names, for tests/embed; what goes
//! in and out is that of `oracle calls` (oracle/README.md).
//!
//! A case is a state (its length 4, the bytes), the book's length 4 and its fill 1, the answer's length 4, the number of
//! calls 4, and of each call its kind 1 and its body (its length 4, the bytes); numbers are big-endian. It prints
//! `case` and its number; of each call the status and the answer's bytes; then the state, and the book's length and digest.

#[allow(dead_code)] // this program writes no items
mod stream;

use gudlemi::call_bytes;
use std::fmt::Write as _;
use std::io::{self, BufReader, BufWriter, Read, Write};
use std::process::ExitCode;
use stream::{exit_by, read_bytes, read_item};

/// What an answer buffer is filled with before each call.
const ANSWER_FILL: u8 = 0xEE;

/// What one case works on.
struct Buffers {
    state: Vec<u8>,
    book: Vec<u8>,
    answer: Vec<u8>,
}

/// The next number: 4 bytes, big-endian.
fn read_number(source: &mut impl Read) -> io::Result<usize> {
    read_bytes(source).map(|bytes| u32::from_be_bytes(bytes) as usize)
}

/// The buffers of a case whose state has been read.
fn read_buffers(source: &mut impl Read, state: Vec<u8>) -> io::Result<Buffers> {
    let book_length = read_number(source)?;
    let [fill] = read_bytes(source)?;
    let answer_length = read_number(source)?;
    Ok(Buffers { state, book: vec![fill; book_length], answer: vec![0; answer_length] })
}

/// Bytes as pairs of hexadecimal digits; `-` where there are none.
fn digits(bytes: &[u8]) -> String {
    if bytes.is_empty() {
        return "-".to_string();
    }
    let mut text = String::with_capacity(2 * bytes.len());
    for byte in bytes {
        write!(text, "{byte:02x}").expect("a string takes all text");
    }
    text
}

/// The 64-bit FNV-1a of bytes.
fn digest(bytes: &[u8]) -> u64 {
    let step = |hash: u64, byte: &u8| (hash ^ u64::from(*byte)).wrapping_mul(0x0100_0000_01b3);
    bytes.iter().fold(0xcbf2_9ce4_8422_2325, step)
}

/// Reads the next call, makes it and prints its line.
fn make_call(
    source: &mut impl Read,
    buffers: &mut Buffers,
    sink: &mut impl Write,
) -> io::Result<()> {
    let [kind] = read_bytes(source)?;
    let body = read_item(source)?.ok_or(io::ErrorKind::UnexpectedEof)?;
    let Buffers { state, book, answer } = buffers;
    answer.fill(ANSWER_FILL);
    let status = call_bytes(state, book, kind, &body, answer);
    writeln!(sink, "{status} {}", digits(answer))
}

/// Makes the calls of a case whose state has been read, and prints what they leave.
fn run_case(source: &mut impl Read, state: Vec<u8>, sink: &mut impl Write) -> io::Result<()> {
    let mut buffers = read_buffers(source, state)?;
    for _ in 0..read_number(source)? {
        make_call(source, &mut buffers, sink)?;
    }
    writeln!(sink, "state {}", digits(&buffers.state))?;
    writeln!(sink, "book {} {:016x}", buffers.book.len(), digest(&buffers.book))
}

fn run_all() -> io::Result<()> {
    let mut source = BufReader::new(io::stdin().lock());
    let mut sink = BufWriter::new(io::stdout().lock());
    let mut number = 0;
    while let Some(state) = read_item(&mut source)? {
        writeln!(sink, "case {number}")?;
        run_case(&mut source, state, &mut sink)
            .map_err(|error| io::Error::other(format!("case {number}: {error}")))?;
        number += 1;
    }
    sink.flush()
}

fn main() -> ExitCode {
    exit_by("calls", run_all())
}

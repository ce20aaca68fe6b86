//! Cases of single calls: a state, a book, and the calls made one after the other; as a stream
//! of bytes, and run and printed.

use crate::stream::{read_item, write_item};
use std::io::{self, Read};

/// What the answer buffer is filled with before each call.
pub const ANSWER_FILL: u8 = 0xEE;

#[derive(Clone, PartialEq, Eq, Debug)]
pub struct Case {
    pub state: Vec<u8>,
    pub book_length: u32,
    /// The byte that the book is full of before the first call.
    pub fill: u8,
    pub answer_length: u32,
    /// Kinds and bodies.
    pub calls: Vec<(u8, Vec<u8>)>,
}

impl Case {
    /// The state with its length, book length 4, fill 1, answer length 4, number of calls 4;
    /// then of each call the kind and the body with its length.
    pub fn to_bytes(&self) -> io::Result<Vec<u8>> {
        let mut bytes = Vec::new();
        write_item(&mut bytes, &self.state)?;
        bytes.extend(self.book_length.to_be_bytes());
        bytes.push(self.fill);
        bytes.extend(self.answer_length.to_be_bytes());
        bytes.extend((self.calls.len() as u32).to_be_bytes());
        for (kind, body) in &self.calls {
            bytes.push(*kind);
            write_item(&mut bytes, body)?;
        }
        Ok(bytes)
    }

    /// The next case of a stream; nothing at a clean end; an error if the stream is cut.
    pub fn read(source: &mut impl Read) -> io::Result<Option<Case>> {
        let Some(state) = read_item(source)? else { return Ok(None) };
        let book_length = u32::from_be_bytes(part(source)?);
        let [fill] = part(source)?;
        let answer_length = u32::from_be_bytes(part(source)?);
        let mut calls = Vec::new();
        for _ in 0..u32::from_be_bytes(part(source)?) {
            let [kind] = part(source)?;
            let body = read_item(source)?.ok_or_else(|| io::Error::other("case cut"))?;
            calls.push((kind, body));
        }
        Ok(Some(Case { state, book_length, fill, answer_length, calls }))
    }

    /// `case K`; of each call the status and the answer buffer; `state` and `book` as left.
    pub fn printed<C>(&self, k: u64, call: C) -> String
    where
        C: Fn(&mut [u8], &mut [u8], u8, &[u8], &mut [u8]) -> u8,
    {
        let mut state = self.state.clone();
        let mut book = vec![self.fill; self.book_length as usize];
        let mut out = format!("case {k}\n");
        for (kind, body) in &self.calls {
            let mut answer = vec![ANSWER_FILL; self.answer_length as usize];
            let status = call(&mut state, &mut book, *kind, body, &mut answer);
            out.push_str(&format!("{status} {}\n", hex(&answer)));
        }
        out.push_str(&format!("state {}\n", hex(&state)));
        out.push_str(&format!("book {} {:016x}\n", book.len(), fnv_1a(&book)));
        out
    }
}

fn part<const N: usize>(source: &mut impl Read) -> io::Result<[u8; N]> {
    let mut bytes = [0; N];
    source.read_exact(&mut bytes).map_err(|_| io::Error::other("case cut"))?;
    Ok(bytes)
}

/// Lowercase digits, or `-` for no bytes.
pub fn hex(bytes: &[u8]) -> String {
    if bytes.is_empty() {
        return "-".to_string();
    }
    let digit = |number: u8| char::from(b"0123456789abcdef"[usize::from(number)]);
    bytes.iter().flat_map(|&byte| [digit(byte >> 4), digit(byte & 15)]).collect()
}

/// The bytes of lowercase digits, or of `-`.
pub fn bytes_of_hex(text: &str) -> Option<Vec<u8>> {
    if text == "-" {
        return Some(Vec::new());
    }
    let mut bytes = Vec::new();
    for at in (0..text.len()).step_by(2) {
        bytes.push(u8::from_str_radix(text.get(at..at + 2)?, 16).ok()?);
    }
    (hex(&bytes) == text).then_some(bytes)
}

/// The 64-bit FNV-1a digest.
pub fn fnv_1a(bytes: &[u8]) -> u64 {
    let step = |digest: u64, byte: &u8| (digest ^ u64::from(*byte)).wrapping_mul(0x100_0000_01b3);
    bytes.iter().fold(0xcbf2_9ce4_8422_2325, step)
}

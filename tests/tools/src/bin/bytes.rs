//! `bytes < TEXT`: the notation to bytes. Pairs of hexadecimal digits; blanks, tabs, commas and line ends are free between pairs, # starts a comment to
//! the line's end, and a byte order mark at the start is skipped. On standard error it tells the first fault in the words of `sheet`.

use std::io::{self, Read, Write};
use std::process::ExitCode;

const FREE: &[u8] = b" \t,\r\n";

/// The bytes of the text, or what is wrong in it first.
fn bytes_of(text: &[u8]) -> Result<Vec<u8>, String> {
    let text = text.strip_prefix(b"\xEF\xBB\xBF").unwrap_or(text);
    let mut bytes = Vec::new();
    let mut at = 0;
    while at < text.len() {
        if FREE.contains(&text[at]) {
            at += 1;
        } else if text[at] == b'#' {
            at += text[at..].iter().take_while(|c| !b"\r\n".contains(c)).count();
        } else {
            let high = digit_at(text, at).ok_or_else(|| fault(text, at, "a hexadecimal digit"))?;
            let low = digit_at(text, at + 1)
                .ok_or_else(|| fault(text, at + 1, "the second digit of a byte"))?;
            bytes.push(high << 4 | low);
            at += 2;
        }
    }
    Ok(bytes)
}

fn digit_at(text: &[u8], at: usize) -> Option<u8> {
    let value = char::from(*text.get(at)?).to_digit(16)?;
    Some(value as u8)
}

/// Where something else stands than was expected, and what.
fn fault(text: &[u8], at: usize, expected: &str) -> String {
    let before: String = text[..at].iter().map(|c| char::from(*c)).collect();
    let lines = before.replace("\r\n", "\n").replace('\r', "\n");
    let line = lines.matches('\n').count() + 1;
    let column = lines.chars().rev().take_while(|c| *c != '\n').count() + 1;
    format!("line {line}, column {column}: expected {expected}, found {}", found(text.get(at)))
}

fn found(byte: Option<&u8>) -> String {
    match byte {
        None => "the end of the text".to_string(),
        Some(b' ') => "a blank".to_string(),
        Some(b'\t') => "a tab".to_string(),
        Some(b',') => "a comma".to_string(),
        Some(b'\r' | b'\n') => "a line end".to_string(),
        Some(b'#') => "a comment".to_string(),
        Some(c) if c.is_ascii_graphic() => format!("'{}'", char::from(*c)),
        Some(c) if (1..13).contains(c) => {
            format!("the byte {c:02x}: the text looks like a sheet's bytes already")
        }
        Some(c) => format!("the byte {c:02x}"),
    }
}

fn main() -> ExitCode {
    let mut text = Vec::new();
    if io::stdin().read_to_end(&mut text).is_err() {
        eprintln!("bytes: the input cannot be read");
        return ExitCode::from(2);
    }
    match bytes_of(&text) {
        Ok(bytes) if io::stdout().write_all(&bytes).is_ok() => ExitCode::SUCCESS,
        Ok(_) => ExitCode::from(2),
        Err(fault) => {
            eprintln!("bytes: {fault}");
            ExitCode::from(1)
        }
    }
}

//! One call over state bytes, as the C header says of `gudlemi_call`, and a sheet made of them.

use crate::answer::Answer;
use crate::answer_bytes::{answer_bytes, read_answer, ANSWER_BYTES};
use crate::event::{body_length, read_call, u32_at};
use crate::line::{Line, Machine, Search, BOOK_BYTES};
use crate::refuse::{call_refusals, refuse_1_line_not_sound};
use crate::sheet::{MOST_SHEET, TOO_LONG};
use crate::state::{read, written, AT_POINTER, AT_SIZE, STATE_BYTES};
use std::ops::DerefMut;

pub const STATE_TOO_SHORT: u8 = 254;
pub const ANSWER_TOO_SHORT: u8 = 255;

/// One call: the status, 0 where it was accepted. Only then are state and book altered.
pub fn call(state: &mut [u8], book: &mut [u8], kind: u8, body: &[u8], answer: &mut [u8]) -> u8 {
    if state.len() < STATE_BYTES {
        return STATE_TOO_SHORT;
    }
    if answer.len() < ANSWER_BYTES {
        return ANSWER_TOO_SHORT;
    }
    let mut said = Answer::Refused { number: 1 };
    if let Some(line) = read(state) {
        let mut machine = Machine { line, book, search: Search::AfterReleaser };
        said = machine.call_of_bytes(kind, body);
        if !matches!(said, Answer::Refused { .. }) {
            state[..STATE_BYTES].copy_from_slice(&written(&machine.line));
        }
    }
    answer[..ANSWER_BYTES].copy_from_slice(&answer_bytes(&said));
    status(&said)
}

/// 0 where the call was accepted, else the number of the refusal.
pub fn status(answer: &Answer) -> u8 {
    match *answer {
        Answer::Refused { number } => number as u8,
        _ => 0,
    }
}

impl<B: DerefMut<Target = [u8]>> Machine<B> {
    /// A call given as bytes: 1 comes first, then 2 and 3, then what the event itself can get.
    pub fn call_of_bytes(&mut self, kind: u8, body: &[u8]) -> Answer {
        if refuse_1_line_not_sound(&self.line, self.book.len()) {
            return Answer::Refused { number: 1 };
        }
        let event = match read_call(kind, body) {
            Ok(event) => event,
            Err(number) => return Answer::Refused { number: u64::from(number) },
        };
        match call_refusals(&self.line, self.book.len(), &event).iter().min() {
            Some(&number) => Answer::Refused { number: u64::from(number) },
            None => self.accept(&event),
        }
    }
}

/// The printed lines of a sheet, each event made as a single call. The body of each call is all
/// that is left of the sheet. Lines come from the answer's bytes, `end` from the state's.
pub fn print_singly(sheet: &[u8]) -> Vec<u8> {
    if sheet.len() > MOST_SHEET {
        return TOO_LONG.as_bytes().to_vec();
    }
    let mut state = written(&Line::unopened());
    let (mut book, mut answer) = (vec![0; BOOK_BYTES], [0; ANSWER_BYTES]);
    let mut out = String::new();
    let (mut at, mut number) = (0, 0);
    while at < sheet.len() {
        let kind = sheet[at];
        let status = call(&mut state, &mut book, kind, &sheet[at + 1..], &mut answer);
        match read_answer(&answer) {
            Some(answer) => out.push_str(&format!("{number} {}\n", answer.text())),
            None => out.push_str(&format!("{number} no answer: {answer:?}\n")),
        }
        if (1..=3).contains(&status) {
            break;
        }
        let Some(length) = body_length(kind) else { break };
        at += 1 + length;
        number += 1;
    }
    let (size, pointer) = (u32_at(&state, AT_SIZE), u32_at(&state, AT_POINTER));
    out.push_str(&format!("end {size} {pointer}\n"));
    out.into_bytes()
}

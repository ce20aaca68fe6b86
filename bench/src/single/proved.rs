//! The proved program for single calls: `gudlemi_call` over a line in state bytes.

use super::Program;
use gudlemi::{call_bytes, Line, ANSWER_LENGTH, STATE_LENGTH};

type State = [u8; STATE_LENGTH];

/// The state of a line, the state that it starts from, its book and the answer.
pub struct Proved<'a> {
    pub state: State,
    saved: State,
    pub book: &'a mut [u8],
    pub answer: [u8; ANSWER_LENGTH],
    /// What the last call gave back: 0, or the number of the refusal.
    pub status: u8,
}

impl<'a> Proved<'a> {
    pub fn new(book: &'a mut [u8]) -> Proved<'a> {
        let state = *Line::unopened().as_bytes();
        Proved { state, saved: state, book, answer: [0; ANSWER_LENGTH], status: 0 }
    }

    /// The line of the state.
    pub fn line(&self) -> Line {
        Line::from_bytes(&self.state).expect("the state is a line")
    }

    /// Makes the state bytes that are no line: the phase in the entry of the last lane is 7.
    pub fn spoil(&mut self) {
        self.state[64 + 8 * 127] = 7;
    }
}

impl Program for Proved<'_> {
    #[inline(always)]
    fn call(&mut self, kind: u8, body: &[u8]) -> &[u8; ANSWER_LENGTH] {
        self.status = call_bytes(&mut self.state, self.book, kind, body, &mut self.answer);
        &self.answer
    }

    fn save(&mut self) {
        self.saved = self.state;
    }

    fn restart(&mut self) {
        self.state = self.saved;
    }
}

//! The library's functions of single calls, each with a thin safe function over slices of any length.

mod declared {
    extern "C" {
        pub fn gudlemi_unopened(state: *mut u8, state_length: usize) -> u8;
        pub fn gudlemi_call(
            state: *mut u8,
            state_length: usize,
            book: *mut u8,
            book_length: usize,
            kind: u8,
            body: *const u8,
            body_length: usize,
            answer: *mut u8,
            answer_length: usize,
        ) -> u8;
        pub fn gudlemi_is_sound(state: *const u8, state_length: usize, book_length: usize) -> u8;
        pub fn gudlemi_lane(state: *const u8, state_length: usize, lane: u8) -> u64;
        pub fn gudlemi_number(state: *const u8, state_length: usize, index: u8) -> u64;
        pub fn gudlemi_position(state: *const u8, state_length: usize, place: u32) -> u64;
        pub fn gudlemi_answer_text(
            answer: *const u8,
            answer_length: usize,
            number: u64,
            text: *mut u8,
            text_length: usize,
        ) -> usize;
        pub fn gudlemi_state_length() -> usize;
        pub fn gudlemi_answer_length() -> usize;
        pub fn gudlemi_layout() -> u32;
    }
}

// For all functions here: a slice gives a pointer that is not null with its length, by Rust's rules for references the
// slices of one call share no byte that is written and nobody else touches them during it, and the library keeps none.

/// One call on the state bytes of a line, over slices of any length; `Line::call` is the same on bytes that are a line.
///
/// The answer is 0 where the call was accepted, else the number of the refusal, 1 to 16. It is `STATE_TOO_SHORT` where
/// `state` is below `STATE_LENGTH`, and else `ANSWER_TOO_SHORT` where `answer` is below `ANSWER_LENGTH`; then nothing is
/// altered. A refused call alters `answer` alone.
pub fn call_bytes(
    state: &mut [u8],
    book: &mut [u8],
    kind: u8,
    body: &[u8],
    answer: &mut [u8],
) -> u8 {
    // SAFETY: as said above.
    unsafe {
        declared::gudlemi_call(
            state.as_mut_ptr(),
            state.len(),
            book.as_mut_ptr(),
            book.len(),
            kind,
            body.as_ptr(),
            body.len(),
            answer.as_mut_ptr(),
            answer.len(),
        )
    }
}

/// Stores the unopened line at the start of `state`: 0, or `STATE_TOO_SHORT`, and then nothing is altered.
pub(crate) fn unopened(state: &mut [u8]) -> u8 {
    // SAFETY: as said above.
    unsafe { declared::gudlemi_unopened(state.as_mut_ptr(), state.len()) }
}

/// 1 where the bytes are a line that keeps all rules with a book of this length, else 0.
pub(crate) fn is_sound(state: &[u8], book_length: usize) -> u8 {
    // SAFETY: as said above; the book's length is a number, and no book is touched.
    unsafe { declared::gudlemi_is_sound(state.as_ptr(), state.len(), book_length) }
}

/// The entry of a lane as one number; none where the bytes are no line or the lane is not below N.
pub(crate) fn lane(state: &[u8], lane: u8) -> Option<u64> {
    // SAFETY: as said above.
    given(unsafe { declared::gudlemi_lane(state.as_ptr(), state.len(), lane) })
}

/// A number of the line; none where the bytes are no line or there is no such index.
pub(crate) fn number(state: &[u8], index: u8) -> Option<u64> {
    // SAFETY: as said above.
    given(unsafe { declared::gudlemi_number(state.as_ptr(), state.len(), index) })
}

/// The position of a place in the line's view; none where the bytes are no line.
pub(crate) fn position(state: &[u8], place: u32) -> Option<u64> {
    // SAFETY: as said above.
    given(unsafe { declared::gudlemi_position(state.as_ptr(), state.len(), place) })
}

/// Prints the line of an answer at the start of `text`: its length, 0 where the bytes are no answer, and the greatest
/// number where `text` is too short.
pub(crate) fn answer_text(answer: &[u8], number: u64, text: &mut [u8]) -> usize {
    let (from, to) = (answer.as_ptr(), text.as_mut_ptr());
    // SAFETY: as said above.
    unsafe { declared::gudlemi_answer_text(from, answer.len(), number, to, text.len()) }
}

/// The length of a state in the library that is linked; it is `STATE_LENGTH`.
pub fn state_length() -> usize {
    // SAFETY: the function takes nothing and answers a number; so do the next two.
    unsafe { declared::gudlemi_state_length() }
}

/// The length of an answer in the library that is linked; it is `ANSWER_LENGTH`.
pub fn answer_length() -> usize {
    // SAFETY: as above.
    unsafe { declared::gudlemi_answer_length() }
}

/// The number of the layout of states and answers in the library that is linked; it is `LAYOUT`.
pub fn layout() -> u32 {
    // SAFETY: as above.
    unsafe { declared::gudlemi_layout() }
}

/// The library answers the greatest number where there is none.
fn given(number: u64) -> Option<u64> {
    (number != u64::MAX).then_some(number)
}

//! The printed lines of the in-place program: words and numbers stored eight or sixteen bytes at
//! a time into a lent buffer, without a test of the room at each of them.

use crate::proved::LANES;
use std::marker::PhantomData;

/// The most bytes that one line takes and that a store may reach past its end, taken together.
pub const MOST_LINE: usize = 56;

/// The least room for the text of a sheet: the bound of the proved program, a line for each byte
/// of the sheet and two lines more. An event has at least a byte and a line at most 56.
pub fn least_room(sheet_length: usize) -> usize {
    (sheet_length + 2) * MOST_LINE
}

/// A word of up to 16 bytes, with its length.
#[derive(Clone, Copy)]
pub struct Word {
    bytes: u128,
    length: usize,
}

impl Word {
    pub const fn new(word: &[u8]) -> Word {
        let mut bytes = [0; 16];
        let mut i = 0;
        while i < word.len() {
            bytes[i] = word[i];
            i += 1;
        }
        Word { bytes: u128::from_le_bytes(bytes), length: word.len() }
    }

    /// The word, a number and a line end.
    const fn with_number(word: &[u8], number: u8) -> Word {
        let mut bytes = [0; 16];
        let mut i = 0;
        while i < word.len() {
            bytes[i] = word[i];
            i += 1;
        }
        if number > 99 {
            bytes[i] = b'0' + number / 100;
            i += 1;
        }
        if number > 9 {
            bytes[i] = b'0' + number / 10 % 10;
            i += 1;
        }
        bytes[i] = b'0' + number % 10;
        bytes[i + 1] = b'\n';
        Word { bytes: u128::from_le_bytes(bytes), length: i + 2 }
    }
}

/// `refused` and each number.
static REFUSED: [Word; 18] = {
    let mut words = [Word::with_number(b"refused ", 0); 18];
    let mut number = 0;
    while number < 18 {
        words[number] = Word::with_number(b"refused ", number as u8);
        number += 1;
    }
    words
};

/// `wakes` and each lane.
static WAKES: [Word; LANES] = {
    let mut words = [Word::with_number(b"wakes ", 0); LANES];
    let mut lane = 0;
    while lane < LANES {
        words[lane] = Word::with_number(b"wakes ", lane as u8);
        lane += 1;
    }
    words
};

/// The eight decimal digits of a number below 100,000,000 as bytes 0 to 9, the first lowest: the
/// number is cut in two, then both halves in two at once, and so on.
#[inline(always)]
fn eight_digits(number: u32) -> u64 {
    let halves = (number / 10_000) as u64 | ((number % 10_000) as u64) << 32;
    let hundreds = ((halves * 10_486) >> 20) & 0x0000_007F_0000_007F;
    let pairs = hundreds | (halves - hundreds * 100) << 16;
    let tens = ((pairs * 103) >> 10) & 0x000F_000F_000F_000F;
    tens | (pairs - tens * 10) << 8
}

/// The four decimal digits of a number below 10,000, in the same way.
#[inline(always)]
fn four_digits(number: u32) -> u64 {
    let hundreds = (number * 5_243) >> 19;
    let pairs = hundreds as u64 | ((number - hundreds * 100) as u64) << 16;
    let tens = ((pairs * 103) >> 10) & 0x000F_000F;
    tens | (pairs - tens * 10) << 8
}

/// The two decimal digits of a number below 100, in the same way.
#[inline(always)]
fn two_digits(number: u32) -> u64 {
    let tens = (number * 103) >> 10;
    (tens | (number - tens * 10) << 8) as u64
}

/// The last `length` of `all` digits as text with a byte after them, and the length of both. At
/// most seven are shown, so that the byte after has its place.
#[inline(always)]
fn last_digits(digits: u64, all: usize, length: usize, after: u8) -> (u64, usize) {
    let text = (digits | 0x3030_3030_3030_3030) >> (8 * (all - length));
    let shown = text & ((1 << (8 * length)) - 1);
    (shown | (after as u64) << (8 * length), length + 1)
}

/// A number below 10,000,000 in decimal with a byte after it, and the length of both. The length
/// is found by branches: neighbouring lines take the same ones, so that neither the digits nor
/// what is stored after them wait for the length. A short number is cut fewer times, too.
#[inline(always)]
fn decimal(number: u32, after: u8) -> (u64, usize) {
    if number < 10 {
        return last_digits(number as u64, 1, 1, after);
    }
    if number < 100 {
        return last_digits(two_digits(number), 2, 2, after);
    }
    if number < 1_000 {
        return last_digits(four_digits(number), 4, 3, after);
    }
    if number < 10_000 {
        return last_digits(four_digits(number), 4, 4, after);
    }
    let digits = eight_digits(number);
    if number < 100_000 {
        return last_digits(digits, 8, 5, after);
    }
    if number < 1_000_000 {
        return last_digits(digits, 8, 6, after);
    }
    last_digits(digits, 8, 7, after)
}

/// The same without branches: the length is read off the digits. It is for the line's number,
/// which is made anew every tenth line; with branches there too, the sheet of refusals took a
/// tenth longer.
#[inline(always)]
fn decimal_without_branches(number: u32, after: u8) -> (u64, usize) {
    let digits = eight_digits(number);
    // Leading zeros are low bytes; the last digit stays.
    let leading = (digits | 1 << 56).trailing_zeros() / 8;
    let shown = (digits | 0x3030_3030_3030_3030) >> (8 * leading);
    let length = 8 - leading;
    // One digit at least is not shown, so the byte after is still zero.
    (shown | (after as u64) << (8 * length), length as usize + 1)
}

/// How many decimal digits a number has.
#[inline(always)]
fn digit_count(number: u32) -> usize {
    let mut count = 1;
    let mut limit = 10;
    while number as u64 >= limit {
        count += 1;
        limit *= 10;
    }
    count
}

/// The eight hexadecimal digits of a number, in lowercase, the first lowest.
#[inline(always)]
fn eight_hex_digits(number: u32) -> u64 {
    let mut x = number as u64;
    x = (x | x << 16) & 0x0000_FFFF_0000_FFFF;
    x = (x | x << 8) & 0x00FF_00FF_00FF_00FF;
    x = (x | x << 4) & 0x0F0F_0F0F_0F0F_0F0F;
    // 1 in each byte that is above 9; a letter stands 39 past where the digits would go on.
    let letters = ((x + 0x0606_0606_0606_0606) >> 4) & 0x0101_0101_0101_0101;
    (x + 0x3030_3030_3030_3030 + letters * 39).swap_bytes()
}

/// The text so far, and the number of the next line ready to be stored. With `PLAIN` every number
/// is divided out digit by digit, to tell what the quick digits bring.
pub struct Text<'a, const PLAIN: bool> {
    start: *mut u8,
    next: *mut u8,
    /// The next line's number and a blank, and their length.
    stamp: u64,
    stamp_length: usize,
    /// A 1 in the byte of the stamp's last digit.
    one: u64,
    /// The lines up to the next one whose number ends in 0, and that number; with `PLAIN` the
    /// number of the next line.
    to_ten: u32,
    ten: u32,
    lent: PhantomData<&'a mut [u8]>,
}

impl<'a, const PLAIN: bool> Text<'a, PLAIN> {
    /// A text at the start of a buffer. The buffer has the least room for the sheet, each event
    /// of the sheet gets one line, and `end` is the last; so every store is within the buffer.
    #[inline(always)]
    pub fn new(buffer: &'a mut [u8]) -> Text<'a, PLAIN> {
        let start = buffer.as_mut_ptr();
        let (stamp, stamp_length) = decimal(0, b' ');
        let ten = if PLAIN { 0 } else { 10 };
        let lent = PhantomData;
        Text { start, next: start, stamp, stamp_length, one: 1, to_ten: 10, ten, lent }
    }

    #[inline(always)]
    fn store8(&mut self, bytes: u64, length: usize) {
        // SAFETY: within the buffer, see `new`: a line starts 112 bytes before its end at the latest.
        unsafe {
            self.next.cast::<u64>().write_unaligned(bytes.to_le());
            self.next = self.next.add(length);
        }
    }

    #[inline(always)]
    fn store16(&mut self, word: Word) {
        // SAFETY: as in `store8`.
        unsafe {
            self.next.cast::<u128>().write_unaligned(word.bytes.to_le());
            self.next = self.next.add(word.length);
        }
    }

    /// The stamp of the line after one whose number ends in 9.
    #[inline(always)]
    fn stamp_ten(&mut self) {
        let (stamp, length) = decimal_without_branches(self.ten, b' ');
        self.stamp = stamp;
        self.stamp_length = length;
        self.one = 1 << (8 * (length - 2));
        self.to_ten = 10;
        self.ten += 10;
    }

    /// The number of the line and a blank. The number is counted up in its digits.
    #[inline(always)]
    fn number_line(&mut self) {
        if PLAIN {
            self.plain_decimal(self.ten, b' ');
            self.ten += 1;
            return;
        }
        self.store8(self.stamp, self.stamp_length);
        self.stamp += self.one;
        self.to_ten -= 1;
        if self.to_ten == 0 {
            self.stamp_ten();
        }
    }

    /// A number and the byte after it, digit by digit from the last.
    #[inline(always)]
    fn plain_decimal(&mut self, number: u32, after: u8) {
        let length = digit_count(number);
        let mut rest = number;
        let mut at = length;
        // SAFETY: as in `store8`; a number has at most 10 digits.
        unsafe {
            while at > 0 {
                at -= 1;
                self.next.add(at).write(b'0' + (rest % 10) as u8);
                rest /= 10;
            }
            self.next.add(length).write(after);
            self.next = self.next.add(length + 1);
        }
    }

    #[inline(always)]
    fn decimal(&mut self, number: u32, after: u8) {
        if PLAIN {
            return self.plain_decimal(number, after);
        }
        let (bytes, length) = decimal(number, after);
        self.store8(bytes, length);
    }

    /// A number that mostly has one digit.
    #[inline(always)]
    fn count(&mut self, number: u32, after: u8) {
        if number < 10 {
            self.store8((b'0' as u64 + number as u64) | (after as u64) << 8, 2);
        } else {
            self.decimal(number, after);
        }
    }

    /// A word of up to 8 bytes.
    #[inline(always)]
    fn short(&mut self, word: &'static [u8]) {
        let word = Word::new(word);
        self.store8(word.bytes as u64, word.length);
    }

    #[inline(always)]
    fn wakes(&mut self, woken: Option<usize>) {
        match woken {
            Some(lane) => self.store16(WAKES[lane % LANES]),
            None => self.store16(Word::new(b"wakes none\n")),
        }
    }

    /// A line of one word, with its line end.
    #[inline(always)]
    pub fn word(&mut self, word: &'static [u8]) {
        self.number_line();
        self.store16(Word::new(word));
    }

    /// A line of a word, with its blank, and a number.
    #[inline(always)]
    pub fn one(&mut self, word: &'static [u8], number: u32) {
        self.number_line();
        self.short(word);
        self.decimal(number, b'\n');
    }

    /// A line of a word, with its blank, and two numbers.
    #[inline(always)]
    pub fn two(&mut self, word: &'static [u8], first: u32, second: u32) {
        self.number_line();
        self.short(word);
        self.decimal(first, b' ');
        self.decimal(second, b'\n');
    }

    #[inline(always)]
    pub fn region(&mut self, start: u32, count: u32, woken: Option<usize>) {
        self.number_line();
        self.short(b"region ");
        self.decimal(start, b' ');
        self.count(count, b' ');
        self.wakes(woken);
    }

    #[inline(always)]
    pub fn freed(&mut self, woken: Option<usize>) {
        self.number_line();
        self.short(b"freed ");
        self.wakes(woken);
    }

    #[inline(always)]
    pub fn record(&mut self, record: u64) {
        self.number_line();
        self.short(b"record ");
        self.store8(eight_hex_digits((record >> 32) as u32), 8);
        self.store8(eight_hex_digits(record as u32), 8);
        self.short(b"\n");
    }

    #[inline(always)]
    pub fn refused(&mut self, number: usize) {
        self.number_line();
        self.store16(REFUSED[number]);
    }

    /// The last line, which has no number; the length of the text.
    pub fn end(mut self, size: u32, pointer: u32) -> usize {
        self.short(b"end ");
        self.decimal(size, b' ');
        self.decimal(pointer, b'\n');
        self.next as usize - self.start as usize
    }
}

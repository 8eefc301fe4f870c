//! Output lines: a letter, then numbers in decimal, each after one space.
//!
//! They are written at their place in one buffer, whole numbers at a time: a
//! choice per digit could not be guessed.

use std::io::{self, Write};

use crate::call::TakesOutcome;
use crate::state::Machine;
use crate::step::{Answer, Refusal};
use crate::trace::Broken;
use crate::variant::ReturnVariant;

/// Room for every line but a fetch's: the longest is `U` and five numbers of
/// ten digits.
const LINE: usize = 64;

/// A byte that is not zero: pages of zeros would be there only once they are
/// written.
const UNUSED: u8 = b'?';

/// Lines one after the other, in a buffer that grows.
#[derive(Clone, Debug, Default)]
pub struct Lines {
    bytes: Vec<u8>,
    used: usize,
}

impl Lines {
    /// No line yet, and room for so many bytes of them.
    pub fn with_room(bytes: usize) -> Lines {
        Lines { bytes: vec![UNUSED; bytes + LINE], used: 0 }
    }

    /// How many bytes of lines there are.
    #[inline(always)]
    pub fn length(&self) -> usize {
        self.used
    }

    pub fn written(&self) -> &[u8] {
        &self.bytes[..self.used]
    }

    /// Forgets the lines and keeps the room.
    pub fn clear(&mut self) {
        self.used = 0;
    }

    /// Writes the lines out and forgets them.
    pub fn flush_to(&mut self, out: &mut impl Write) -> io::Result<()> {
        out.write_all(self.written())?;
        self.clear();
        Ok(())
    }

    /// The line of a step.
    pub fn outcome(&mut self, machine: &Machine, outcome: Result<Answer, Refusal>) {
        match outcome {
            Ok(Answer::Fetched(part)) => self.fetched(machine.bytes(part)),
            Ok(answer) => self.answer(answer),
            Err(refusal) => self.refused(refusal),
        }
    }

    /// The line of an accepted step that is not a fetch.
    #[inline(always)]
    fn answer(&mut self, answer: Answer) {
        let line = self.line();
        let line = match answer {
            Answer::Returned(variant) => line.variant(variant),
            Answer::Delivered { pointer, registers } => {
                line.text(b"U ").number(pointer).numbers(registers)
            }
            Answer::Waiting => line.text(b"W"),
            Answer::Nothing => line.text(b"N"),
            Answer::Exited { code } => line.text(b"E ").number(code),
            Answer::Restarted { code } => line.text(b"R ").number(code),
            Answer::EventTaken => line.text(b"Q"),
            Answer::Deposited => line.text(b"D"),
            Answer::Latched => line.text(b"L"),
            Answer::Fetched(_) => unreachable!("a fetch is no call, and its bytes are an image's"),
        };
        self.used += line.end();
    }

    /// The line of a refused step.
    #[cold]
    pub fn refused(&mut self, refusal: Refusal) {
        self.used += self.line().text(b"X ").number(refusal as u32).end();
    }

    /// The line that ends a run at a broken record.
    #[cold]
    pub fn broken(&mut self, broken: Broken) {
        // An offset may have more than 32 bits, and is written once.
        self.text(format!("B {}\n", broken.offset).as_bytes());
    }

    /// The one line for a trace that is too long.
    pub fn too_long(&mut self) {
        self.text(b"T\n");
    }

    fn fetched(&mut self, bytes: &[u8]) {
        self.used += self.line().text(b"F ").number(bytes.len() as u32).length;
        for &byte in bytes {
            self.used += self.line().text(b" ").number(u32::from(byte)).length;
        }
        self.used += self.line().end();
    }

    fn text(&mut self, text: &[u8]) {
        self.make_room(text.len());
        self.bytes[self.used..][..text.len()].copy_from_slice(text);
        self.used += text.len();
    }

    /// A place for the next line, or for a part of a fetch's.
    #[inline(always)]
    fn line(&mut self) -> Line<'_> {
        self.make_room(LINE);
        let bytes = self.bytes[self.used..].first_chunk_mut().expect("room was made");
        Line { bytes, length: 0 }
    }

    #[inline(always)]
    fn make_room(&mut self, room: usize) {
        if self.bytes.len() - self.used < room {
            self.grow(room);
        }
    }

    #[cold]
    fn grow(&mut self, room: usize) {
        let length = (self.used + room).max(2 * self.bytes.len());
        self.bytes.resize(length, UNUSED);
    }
}

/// A call's line: no call hands back a part of an image.
impl TakesOutcome for &mut Lines {
    type Taken = ();

    #[inline(always)]
    fn take(self, outcome: Result<Answer, Refusal>) {
        match outcome {
            Ok(answer) => self.answer(answer),
            Err(refusal) => self.refused(refusal),
        }
    }
}

/// A line that is being written at its place. It is handed on by value, so
/// that its length stays in a register.
struct Line<'a> {
    bytes: &'a mut [u8; LINE],
    length: usize,
}

impl Line<'_> {
    #[inline(always)]
    fn text<const LENGTH: usize>(mut self, text: &[u8; LENGTH]) -> Self {
        self.bytes[self.length..][..LENGTH].copy_from_slice(text);
        self.length += LENGTH;
        self
    }

    /// The four registers of a variant. Most of the text is known beforehand.
    #[inline(always)]
    fn variant(self, variant: ReturnVariant) -> Self {
        match variant {
            ReturnVariant::SuccessWith2U32(first, second) => {
                self.text(b"A 130 ").number(first).text(b" ").number(second).text(b" 0")
            }
            other => self.text(b"A").numbers(other.registers()),
        }
    }

    /// Numbers, each after a space.
    #[inline(always)]
    fn numbers<const COUNT: usize>(self, numbers: [u32; COUNT]) -> Self {
        numbers.into_iter().fold(self, |line, number| line.text(b" ").number(number))
    }

    #[inline(always)]
    fn number(self, number: u32) -> Self {
        const EIGHT_DIGITS: u32 = 100_000_000;
        if number < EIGHT_DIGITS {
            return self.last_digits(number);
        }
        let line = self.last_digits(number / EIGHT_DIGITS);
        line.text(&text_of(eight_digits(number % EIGHT_DIGITS)))
    }

    /// A number below 100,000,000. Eight bytes are written for any length;
    /// what follows the number overwrites those past its last digit.
    #[inline(always)]
    fn last_digits(self, number: u32) -> Self {
        let digits = eight_digits(number);
        // The last digit is written also where it is 0.
        let leading_zeros = (digits | 1 << 56).trailing_zeros() / 8;
        let length = self.length + 8 - leading_zeros as usize;
        let line = self.text(&text_of(digits >> (8 * leading_zeros)));
        Line { length, ..line }
    }

    /// Ends the line, and gives its length.
    #[inline(always)]
    fn end(self) -> usize {
        self.text(b"\n").length
    }
}

#[inline(always)]
fn text_of(digits: u64) -> [u8; 8] {
    (digits | u64::from_le_bytes([b'0'; 8])).to_le_bytes()
}

/// The eight decimal digits of a number below 100,000,000, the first one in
/// the low byte. Numbers of four digits, then of two, are parted side by side
/// in one word: 10486 / 2^20 and 103 / 2^10 are near enough to 1/100 and 1/10
/// for them.
#[inline(always)]
fn eight_digits(number: u32) -> u64 {
    let halves = u64::from(number / 10_000) | u64::from(number % 10_000) << 32;
    let hundreds = (halves * 10_486) >> 20 & 0x7F_0000_007F;
    let quarters = hundreds | (halves - 100 * hundreds) << 16;
    let tens = (quarters * 103) >> 10 & 0x0F_000F_000F_000F;
    tens | (quarters - 10 * tens) << 8
}

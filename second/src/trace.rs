//! Traces: the board record, step records, and writing them.

use crate::board::{DriverNumber, ProcessIndex, MAX_BOARD_WORDS};
use crate::number::{number_in, MORE};
use crate::step::Step;
use crate::variant::Registers;

pub use crate::number::{read_number, write_number, write_numbers, BadNumber, MAX_GROUPS};

/// Most bytes of a trace that the program takes.
pub const MAX_TRACE_BYTES: usize = 65_536;
/// Most bytes of one deposit record.
pub const MAX_DEPOSIT_BYTES: u32 = 1_024;

/// The largest class that a call record can name.
pub const MAX_CLASS: u32 = 255;

/// The kind number that leads each step.
pub mod kind {
    pub const CALL: u32 = 0;
    pub const EVENT: u32 = 1;
    pub const RESUME: u32 = 2;
    pub const DEPOSIT: u32 = 3;
    pub const FETCH: u32 = 4;
    pub const LATCH: u32 = 5;
}

/// A record that is broken, unknown or cut, by the offset of its first byte.
#[derive(Clone, Copy, Debug, PartialEq, Eq)]
pub struct Broken {
    pub offset: usize,
}

/// Bytes that hold the numbers of any record: a call has seven, each of at most
/// five bytes, and a number is looked at together with the bytes after it,
/// eight in all.
const WINDOW: usize = 6 * MAX_GROUPS + 8;

/// A trace and the place up to which it has been read.
#[derive(Clone, Debug)]
pub struct Reader<'a> {
    trace: &'a [u8],
    place: usize,
    /// The last bytes of the trace again, and zeros after them: a record near
    /// the end is read here, so that only its end has to be looked for.
    tail: [u8; 2 * WINDOW],
}

impl<'a> Reader<'a> {
    pub fn new(trace: &'a [u8]) -> Reader<'a> {
        let last = &trace[trace.len().saturating_sub(WINDOW)..];
        let mut tail = [0; 2 * WINDOW];
        tail[..last.len()].copy_from_slice(last);
        Reader { trace, place: 0, tail }
    }

    /// The offset of the next byte.
    #[inline(always)]
    pub fn place(&self) -> usize {
        self.place
    }

    #[inline(always)]
    pub fn is_at_end(&self) -> bool {
        self.place == self.trace.len()
    }

    /// The board record: a count and that many words. Comes first.
    pub fn board(&mut self) -> Result<Vec<u32>, Broken> {
        let offset = self.place;
        self.board_words().ok_or(Broken { offset })
    }

    /// The next step, or None at the end of the trace.
    pub fn step(&mut self) -> Result<Option<Step<'a>>, Broken> {
        if self.is_at_end() {
            return Ok(None);
        }
        let offset = self.place;
        let step = if self.is_at_call() {
            self.call().map(|(process, class, registers)| Step::Call { process, class, registers })
        } else {
            self.driver_step()
        };
        step.map(Some).ok_or(Broken { offset })
    }

    /// Whether a record that starts here is a call: its kind is one byte.
    #[inline(always)]
    pub fn is_at_call(&self) -> bool {
        self.trace.get(self.place).is_some_and(|&byte| u32::from(byte) == kind::CALL)
    }

    /// The call that starts here. Its second register is mostly a slot.
    #[inline(always)]
    pub fn call(&mut self) -> Option<(ProcessIndex, u8, Registers)> {
        let mut numbers = self.numbers();
        numbers.next_small()?;
        let (process, class) = (numbers.process()?, numbers.class()?);
        let registers = [numbers.next()?, numbers.next_small()?, numbers.next()?, numbers.next()?];
        let read = numbers.read;
        self.pass(read)?;
        Some((process, class, registers))
    }

    /// The step of another kind that starts here.
    pub fn driver_step(&mut self) -> Option<Step<'a>> {
        let mut numbers = self.numbers();
        let step = match numbers.next()? {
            kind::EVENT => Step::Event {
                process: numbers.process()?,
                driver: numbers.driver()?,
                slot: numbers.next()?,
                arguments: [numbers.next()?, numbers.next()?, numbers.next()?],
            },
            kind::RESUME => Step::Resume { process: numbers.process()? },
            kind::DEPOSIT => return self.deposit(),
            kind::FETCH => Step::Fetch {
                process: numbers.process()?,
                driver: numbers.driver()?,
                slot: numbers.next()?,
                offset: numbers.next()?,
                length: numbers.next()?,
            },
            kind::LATCH => Step::Latch { driver: numbers.driver()?, peak: numbers.next()? as i32 },
            _ => return None,
        };
        let read = numbers.read;
        self.pass(read)?;
        Some(step)
    }

    /// A deposit's bytes are handed on as they stand in the trace.
    fn deposit(&mut self) -> Option<Step<'a>> {
        let mut numbers = self.numbers();
        numbers.next()?;
        let (process, driver) = (numbers.process()?, numbers.driver()?);
        let (slot, offset, length) = (numbers.next()?, numbers.next()?, numbers.next()?);
        if length > MAX_DEPOSIT_BYTES {
            return None;
        }
        let read = numbers.read;
        self.pass(read)?;
        let bytes = self.pass(length as usize)?;
        Some(Step::Deposit { process, driver, slot, offset, bytes })
    }

    fn board_words(&mut self) -> Option<Vec<u32>> {
        let count = self.number()? as usize;
        if count > MAX_BOARD_WORDS {
            return None;
        }
        (0..count).map(|_| self.number()).collect()
    }

    /// One number by itself.
    fn number(&mut self) -> Option<u32> {
        let mut numbers = self.numbers();
        let number = numbers.next()?;
        let read = numbers.read;
        self.pass(read)?;
        Some(number)
    }

    /// The numbers from here on. Past the end of the trace they are zeros:
    /// whoever reads them has to pass over what was read.
    #[inline(always)]
    fn numbers(&self) -> Numbers<'_> {
        let window = match self.trace[self.place..].first_chunk() {
            Some(window) => window,
            None => self.window_at_end(),
        };
        Numbers { window, read: 0 }
    }

    #[cold]
    fn window_at_end(&self) -> &[u8; WINDOW] {
        let tail_place = self.trace.len().saturating_sub(WINDOW);
        self.tail[self.place - tail_place..].first_chunk().expect("the tail has two windows")
    }

    /// Goes over so many bytes, if the trace has them.
    #[inline(always)]
    fn pass(&mut self, length: usize) -> Option<&'a [u8]> {
        let passed = self.trace[self.place..].get(..length)?;
        self.place += length;
        Some(passed)
    }
}

/// The numbers of one record, and how many of their bytes are read.
struct Numbers<'w> {
    window: &'w [u8; WINDOW],
    read: usize,
}

impl Numbers<'_> {
    #[inline(always)]
    fn process(&mut self) -> Option<ProcessIndex> {
        self.next_small().map(ProcessIndex)
    }

    fn driver(&mut self) -> Option<DriverNumber> {
        self.next().map(DriverNumber)
    }

    #[inline(always)]
    fn class(&mut self) -> Option<u8> {
        let class = self.next_small()?;
        (class <= MAX_CLASS).then_some(class as u8)
    }

    /// A number that mostly has one byte: that is guessed right, and what
    /// follows need not wait for its length.
    #[inline(always)]
    fn next_small(&mut self) -> Option<u32> {
        let byte = self.window[self.read];
        if byte & MORE != 0 {
            return self.next();
        }
        self.read += 1;
        Some(u32::from(byte))
    }

    #[inline(always)]
    fn next(&mut self) -> Option<u32> {
        let bytes = self.window[self.read..].first_chunk()?;
        let (number, length) = number_in(*bytes).ok()?;
        self.read += length;
        Some(number)
    }
}

/// Appends a board record. More words than a board may have are written too:
/// the generator makes such records.
pub fn write_board(trace: &mut Vec<u8>, words: &[u32]) {
    write_number(trace, words.len() as u32);
    write_numbers(trace, words);
}

/// Appends a step record. A deposit of more bytes than a record may have is
/// written too.
pub fn write_step(trace: &mut Vec<u8>, step: Step) {
    match step {
        Step::Call { process, class, registers } => {
            write_numbers(trace, &[kind::CALL, process.0, u32::from(class)]);
            write_numbers(trace, &registers);
        }
        Step::Event { process, driver, slot, arguments } => {
            write_numbers(trace, &[kind::EVENT, process.0, driver.0, slot]);
            write_numbers(trace, &arguments);
        }
        Step::Resume { process } => write_numbers(trace, &[kind::RESUME, process.0]),
        Step::Deposit { process, driver, slot, offset, bytes } => {
            let length = bytes.len() as u32;
            write_numbers(trace, &[kind::DEPOSIT, process.0, driver.0, slot, offset, length]);
            trace.extend_from_slice(bytes);
        }
        Step::Fetch { process, driver, slot, offset, length } => {
            write_numbers(trace, &[kind::FETCH, process.0, driver.0, slot, offset, length]);
        }
        Step::Latch { driver, peak } => {
            write_numbers(trace, &[kind::LATCH, driver.0, peak as u32]);
        }
    }
}

/// A whole trace: a board and steps.
pub fn write_trace(words: &[u32], steps: &[Step]) -> Vec<u8> {
    let mut trace = Vec::new();
    write_board(&mut trace, words);
    for &step in steps {
        write_step(&mut trace, step);
    }
    trace
}

/// The board's words and the steps of a whole trace. Steps after a board that
/// is not good are read too.
pub fn read_trace(trace: &[u8]) -> Result<(Vec<u32>, Vec<Step<'_>>), Broken> {
    let mut reader = Reader::new(trace);
    let words = reader.board()?;
    let mut steps = Vec::new();
    while let Some(step) = reader.step()? {
        steps.push(step);
    }
    Ok((words, steps))
}

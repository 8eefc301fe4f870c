//! What steps and runs answer.

use core::fmt;

use crate::returned::Values;
use crate::{
    Refusal, Registers, Returned, ANSWER_WORDS, FLASH_BASE, IMAGE_BYTES, MEMORY_BASE, RUN_WORDS,
};

/// One of the two images.
#[derive(Clone, Copy, Debug, PartialEq, Eq, Hash)]
pub enum Image {
    /// The processes' RAM.
    Memory,
    /// The processes' flash.
    Flash,
}

impl Image {
    /// How many bytes each image has.
    pub const BYTES: usize = IMAGE_BYTES;

    /// The address of its first byte.
    ///
    /// ```
    /// use makvluria::{Image, MEMORY_BASE};
    ///
    /// assert_eq!(Image::Memory.base(), MEMORY_BASE);
    /// ```
    pub const fn base(self) -> u32 {
        match self {
            Image::Memory => MEMORY_BASE,
            Image::Flash => FLASH_BASE,
        }
    }
}

impl fmt::Display for Image {
    fn fmt(&self, f: &mut fmt::Formatter) -> fmt::Result {
        f.write_str(match self {
            Image::Memory => "memory",
            Image::Flash => "flash",
        })
    }
}

/// What a step answers. `Display` says it in words, with the names of refusals, return variants and error codes:
///
/// ```
/// use makvluria::{Answer, Image, Refusal};
///
/// let said = |answer: Answer| answer.to_string();
/// assert_eq!(said(Answer::Registers([130, 0x2000_0100, 16, 0])), "Success with 2 u32: 0x20000100, 16");
/// assert_eq!(said(Answer::Registers([0, 9, 0, 0])), "Failure NOMEM");
/// assert_eq!(said(Answer::Refused(Refusal::NoProcess)), "refused 3 (no such process)");
/// let registers = [1, 2, 3, 7];
/// assert_eq!(said(Answer::Delivered { pointer: 0x4_0010, registers }), "upcall at 0x00040010 with 1, 2, 3, 7");
/// let (image, place, length) = (Image::Flash, 0x3FF4, 3);
/// assert_eq!(said(Answer::Fetched { image, place, length }), "fetched 3 bytes of flash at 0x00043FF4");
/// ```
///
/// In the lines of a run over a trace ([`replay`](crate::replay)) each has a letter, which is named below.
#[derive(Clone, Copy, Debug, PartialEq, Eq, Hash)]
pub enum Answer {
    /// `X`: the step is refused, and has changed nothing.
    Refused(Refusal),
    /// `A`: the four return registers of a call. [`Answer::returned`] reads them.
    Registers(Registers),
    /// `U`: an upcall is delivered.
    Delivered {
        /// Where the process's upcall function is.
        pointer: u32,
        /// What it gets: three arguments and the application data.
        registers: Registers,
    },
    /// `W`: the process waits for an upcall.
    Waiting,
    /// `N`: a yield that had nothing to deliver.
    Nothing,
    /// `Q`: an event is queued.
    Taken,
    /// `D`: a driver's bytes are in the buffer.
    Deposited,
    /// `L`: a driver's value is stored.
    Latched,
    /// No line: the table is that of a fresh board.
    Started,
    /// `E`: the process has exited, with its completion code.
    Exited(u32),
    /// `R`: the process has restarted, with its completion code.
    Restarted(u32),
    /// `F`: a fetch, and where its part lies. One of length 0 has the empty part at the start of memory.
    Fetched {
        /// The image that the part lies in.
        image: Image,
        /// The place of its first byte there.
        place: u32,
        /// How many bytes it has.
        length: u32,
    },
}

impl Answer {
    /// Reads an answer's six words; `None` where they are no answer's.
    pub fn decode(words: [u32; ANSWER_WORDS]) -> Option<Answer> {
        let [kind, a, b, c, d, e] = words;
        Some(match kind {
            0 => Answer::Refused(Refusal::from_number(a)?),
            1 => Answer::Registers([a, b, c, d]),
            2 => Answer::Delivered { pointer: a, registers: [b, c, d, e] },
            3 => Answer::Waiting,
            4 => Answer::Nothing,
            5 => Answer::Taken,
            6 => Answer::Deposited,
            7 => Answer::Latched,
            8 => Answer::Started,
            9 => Answer::Exited(a),
            10 => Answer::Restarted(a),
            11 => return Answer::decode_fetched(a, [b, c, d]),
            _ => return None,
        })
    }

    /// A refused fetch is told with its number and the empty part at the start of memory; here it is a refusal like others.
    fn decode_fetched(number: u32, part: [u32; 3]) -> Option<Answer> {
        match (number, part) {
            (0, [0, place, length]) => {
                Some(Answer::Fetched { image: Image::Memory, place, length })
            }
            (0, [1, place, length]) => Some(Answer::Fetched { image: Image::Flash, place, length }),
            (refused, [0, 0, 0]) => Refusal::from_number(refused).map(Answer::Refused),
            _ => None,
        }
    }

    /// The answer of an accepted step, a refusal as an error: for `?`. A call that returns a Failure was accepted.
    ///
    /// # Errors
    ///
    /// The refusal, where the step is refused.
    ///
    /// ```
    /// use makvluria::{Answer, Refusal};
    ///
    /// assert_eq!(Answer::Taken.accepted(), Ok(Answer::Taken));
    /// assert_eq!(Answer::Refused(Refusal::QueueFull).accepted(), Err(Refusal::QueueFull));
    /// ```
    pub const fn accepted(self) -> Result<Answer, Refusal> {
        match self {
            Answer::Refused(refusal) => Err(refusal),
            accepted => Ok(accepted),
        }
    }

    /// A call's return registers, read by their variant; `None` for every other answer.
    pub fn returned(self) -> Option<Returned> {
        match self {
            Answer::Registers(registers) => Returned::read(registers),
            _ => None,
        }
    }

    /// The bytes of a fetched part, in the images that were lent to the fetch; empty for every other answer.
    ///
    /// # Panics
    ///
    /// Where other images are given, which are too short for the part.
    pub fn part<'a>(self, memory: &'a [u8], flash: &'a [u8]) -> &'a [u8] {
        let Answer::Fetched { image, place, length } = self else {
            return &memory[..0];
        };
        let whole = match image {
            Image::Memory => memory,
            Image::Flash => flash,
        };
        &whole[place as usize..][..length as usize]
    }
}

impl fmt::Display for Answer {
    fn fmt(&self, f: &mut fmt::Formatter) -> fmt::Result {
        match *self {
            Answer::Refused(refusal) => write!(f, "{refusal}"),
            Answer::Registers(registers) => match Returned::read(registers) {
                Some(returned) => write!(f, "{returned}"),
                None => write!(f, "registers {}", Values(&registers)),
            },
            Answer::Delivered { pointer, registers } => {
                write!(f, "upcall at 0x{pointer:08X} with {}", Values(&registers))
            }
            Answer::Waiting => f.write_str("waiting"),
            Answer::Nothing => f.write_str("nothing"),
            Answer::Taken => f.write_str("event taken"),
            Answer::Deposited => f.write_str("deposited"),
            Answer::Latched => f.write_str("latched"),
            Answer::Started => f.write_str("started"),
            Answer::Exited(code) => write!(f, "exited with code {code}"),
            Answer::Restarted(code) => write!(f, "restarted with code {code}"),
            Answer::Fetched { length: 0, .. } => f.write_str("fetched 0 bytes"),
            Answer::Fetched { image, place, length } => {
                let bytes = if length == 1 { "byte" } else { "bytes" };
                let address = image.base().wrapping_add(place);
                write!(f, "fetched {length} {bytes} of {image} at 0x{address:08X}")
            }
        }
    }
}

/// How far a run over a trace came, and how many bytes of lines it wrote.
#[derive(Clone, Copy, Debug, PartialEq, Eq)]
#[must_use = "a run may have paused"]
pub enum Progress {
    /// There is nothing more to do.
    Ended {
        /// The bytes of lines.
        written: usize,
    },
    /// There was no room for more.
    Paused {
        /// The place of the trace to go on from. At place 0 nothing was begun.
        at: usize,
        /// The bytes of lines.
        written: usize,
    },
}

impl Progress {
    /// Reads the three words of a run; `None` where they are no run's.
    pub fn decode(words: [u64; RUN_WORDS]) -> Option<Progress> {
        let [kind, at, written] = words;
        let (at, written) = (at.try_into().ok()?, written.try_into().ok()?);
        match (kind, at) {
            (0, 0) => Some(Progress::Ended { written }),
            (1, at) => Some(Progress::Paused { at, written }),
            _ => None,
        }
    }
}

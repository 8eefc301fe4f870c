//! Where a held buffer lies.

use core::fmt;

use crate::{Refusal, ANSWER_WORDS};

/// Where a buffer lies.
#[derive(Clone, Copy, Debug, PartialEq, Eq, Hash)]
pub enum Area {
    /// It has no bytes, so that its address is of no matter.
    Empty,
    /// Wholly in the process's RAM, below its break.
    Ram,
    /// Wholly in the process's flash.
    Flash,
    /// Anywhere else. No buffer that a well-formed table holds lies so.
    Outside,
}

impl Area {
    /// In the order of their numbers.
    const ALL: [Area; 4] = [Area::Empty, Area::Ram, Area::Flash, Area::Outside];
}

impl fmt::Display for Area {
    fn fmt(&self, f: &mut fmt::Formatter) -> fmt::Result {
        f.write_str(match self {
            Area::Empty => "empty",
            Area::Ram => "RAM",
            Area::Flash => "flash",
            Area::Outside => "outside",
        })
    }
}

/// A held buffer: where it lies, its address and how many bytes it has.
#[derive(Clone, Copy, Debug, PartialEq, Eq, Hash)]
pub struct Held {
    /// Where it lies.
    pub area: Area,
    /// The address of its first byte.
    pub address: u32,
    /// How many bytes it has.
    pub size: u32,
}

impl Held {
    /// Reads the six words that tell of a held buffer; `None` where they are no such words.
    pub fn decode(words: [u32; ANSWER_WORDS]) -> Option<Result<Held, Refusal>> {
        match words {
            [0, number, 0, 0, 0, 0] => Some(Err(Refusal::from_number(number)?)),
            [12, area, address, size, 0, 0] => {
                let area = *Area::ALL.get(area as usize)?;
                Some(Ok(Held { area, address, size }))
            }
            _ => None,
        }
    }
}

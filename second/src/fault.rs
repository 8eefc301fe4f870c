//! What can be wrong with the words of a board or of a table, and where.

use std::fmt;

use crate::board::{DRIVER_WORDS, FLASH, MEMORY, PROCESS_WORDS};
use crate::limits::{MAX_DRIVERS, MAX_PROCESSES, MAX_SLOTS, QUEUE_CAPACITY};
use crate::table::TABLE_WORDS;

/// A word of a board.
#[derive(Clone, Copy, Debug, PartialEq, Eq)]
pub enum BoardWord {
    /// P
    ProcessCount,
    /// By its place in the row of the process, S first.
    Process { index: usize, field: usize },
    /// D
    DriverCount,
    /// By its place in the row of the driver, the number first.
    Driver { place: usize, field: usize },
}

/// A rule of boards that does not hold.
#[derive(Clone, Copy, Debug, PartialEq, Eq)]
pub enum BoardReason {
    /// The counts do not fit the length.
    Length {
        found: usize,
    },
    ProcessCount,
    DriverCount,
    BelowMemory,
    AboveMemory,
    NoRam,
    FirstBreakBelowRam,
    GrantBelowFirstBreak,
    GrantAboveRam,
    BelowFlash,
    AboveFlash,
    NoFlash,
    PermitsNoDriver,
    SlotCount,
    Shared,
    SharesRam {
        with: usize,
    },
    SharesFlash {
        with: usize,
    },
    SharesNumber {
        with: usize,
    },
}

/// The first word of a board that is not right, and the rule that it breaks.
#[derive(Clone, Copy, Debug, PartialEq, Eq)]
pub struct BoardFault {
    pub word: BoardWord,
    pub reason: BoardReason,
}

impl BoardFault {
    #[cold]
    pub(crate) fn of_process(index: usize, field: usize, reason: BoardReason) -> BoardFault {
        BoardFault { word: BoardWord::Process { index, field }, reason }
    }

    #[cold]
    pub(crate) fn of_driver(place: usize, field: usize, reason: BoardReason) -> BoardFault {
        BoardFault { word: BoardWord::Driver { place, field }, reason }
    }
}

impl BoardWord {
    /// Where it stands among a board's words, which are without padding.
    pub fn place_in(self, words: &[u32]) -> usize {
        let processes = words.first().map_or(0, |&count| count as usize);
        let drivers = processes.saturating_mul(PROCESS_WORDS).saturating_add(1);
        match self {
            BoardWord::ProcessCount => 0,
            BoardWord::Process { index, field } => 1 + index * PROCESS_WORDS + field,
            BoardWord::DriverCount => drivers,
            BoardWord::Driver { place, field } => {
                drivers.saturating_add(1 + place * DRIVER_WORDS + field)
            }
        }
    }
}

impl fmt::Display for BoardReason {
    fn fmt(&self, out: &mut fmt::Formatter) -> fmt::Result {
        match self {
            BoardReason::Length { found } => {
                write!(out, "{found} words are not 2 + {PROCESS_WORDS} P + {DRIVER_WORDS} D, as a board has")
            }
            BoardReason::ProcessCount => {
                write!(out, "a board has 1 to {MAX_PROCESSES} processes")
            }
            BoardReason::DriverCount => write!(out, "a board has at most {MAX_DRIVERS} drivers"),
            BoardReason::BelowMemory => {
                write!(out, "RAM starts below 0x{:08X}", MEMORY.start)
            }
            BoardReason::AboveMemory => write!(out, "RAM ends above 0x{:08X}", MEMORY.end),
            BoardReason::BelowFlash => {
                write!(out, "flash starts below 0x{:08X}", FLASH.start)
            }
            BoardReason::AboveFlash => write!(out, "flash ends above 0x{:08X}", FLASH.end),
            BoardReason::SlotCount => {
                write!(out, "a driver has at most {MAX_SLOTS} slots of a kind")
            }
            BoardReason::SharesRam { with } => {
                write!(out, "the RAM from S to E overlaps that of process {with}")
            }
            BoardReason::SharesFlash { with } => {
                write!(out, "the flash from F to FE overlaps that of process {with}")
            }
            BoardReason::SharesNumber { with } => {
                write!(out, "the driver at place {with} has the same number")
            }
            other => out.write_str(other.rule()),
        }
    }
}

impl BoardReason {
    /// The rules that no number goes into.
    fn rule(&self) -> &'static str {
        match self {
            BoardReason::NoRam => "RAM has no byte, and S < E has to hold",
            BoardReason::FirstBreakBelowRam => {
                "the first break lies below RAM, and S <= B <= G <= E has to hold"
            }
            BoardReason::GrantBelowFirstBreak => {
                "the grant region starts below the first break, and S <= B <= G <= E has to hold"
            }
            BoardReason::GrantAboveRam => {
                "the grant region starts above RAM, and S <= B <= G <= E has to hold"
            }
            BoardReason::NoFlash => "flash has no byte, and F < FE has to hold",
            BoardReason::PermitsNoDriver => {
                "a bit is set for a driver that the board does not have"
            }
            BoardReason::Shared => "it has to be 1, shared, or 0, not shared",
            // With their numbers, above.
            BoardReason::Length { .. }
            | BoardReason::ProcessCount
            | BoardReason::DriverCount
            | BoardReason::BelowMemory
            | BoardReason::AboveMemory
            | BoardReason::BelowFlash
            | BoardReason::AboveFlash
            | BoardReason::SlotCount
            | BoardReason::SharesRam { .. }
            | BoardReason::SharesFlash { .. }
            | BoardReason::SharesNumber { .. } => "",
        }
    }
}

/// A rule of tables that does not hold.
#[derive(Clone, Copy, Debug, PartialEq, Eq)]
pub enum Reason {
    Length,
    /// In a row that the counts leave unused.
    NotInUse,
    Board(BoardReason),
    Status,
    BreakBelowRam,
    BreakAboveGrant,
    PointerOutside,
    ReadWriteOutside,
    ReadOnlyOutside,
    /// A slot that the board does not have holds something.
    NoSlot,
    QueueCount,
    UpcallNoDriver,
    UpcallNoSlot,
    UpcallNull,
    UpcallPointer,
    UpcallData,
    ExitedBreak,
    ExitedHolds,
    OwnerOfUnshared,
    LatchOfUnshared,
    NoOwner,
    OwnerDenied,
    OwnerExited,
}

/// The first word of a table that is not right, and the rule that it breaks. Of
/// a table that is too short it is the first word that is missing, of one that
/// is too long the first one too many.
#[derive(Clone, Copy, Debug, PartialEq, Eq)]
pub struct Fault {
    pub word: usize,
    pub reason: Reason,
}

impl fmt::Display for Reason {
    fn fmt(&self, out: &mut fmt::Formatter) -> fmt::Result {
        match self {
            Reason::Length => write!(out, "a table has {TABLE_WORDS} words"),
            Reason::QueueCount => {
                write!(out, "at most {QUEUE_CAPACITY} upcalls are queued for a process")
            }
            Reason::Board(reason) => write!(out, "{reason}"),
            other => out.write_str(other.rule()),
        }
    }
}

impl Reason {
    /// The rules that no number goes into.
    fn rule(&self) -> &'static str {
        match self {
            Reason::NotInUse => "the row is not in use, so that its words have to be 0",
            Reason::Status => "a status is 0, running, 1, waiting, or 2, exited",
            Reason::BreakBelowRam => "the break lies below RAM, and S <= break <= G has to hold",
            Reason::BreakAboveGrant => {
                "the break lies above the grant region's start, and S <= break <= G has to hold"
            }
            Reason::PointerOutside => {
                "the upcall's pointer is not 0 and lies outside of the process's flash"
            }
            Reason::ReadWriteOutside => {
                "the buffer lies outside of the process's RAM below its break"
            }
            Reason::ReadOnlyOutside => {
                "the buffer lies outside of the process's RAM below its break and of its flash"
            }
            Reason::NoSlot => "the board does not have this slot, so that it has to hold (0, 0)",
            Reason::UpcallNoDriver => "the board has no driver at this place",
            Reason::UpcallNoSlot => "the driver does not have this subscribe slot",
            Reason::UpcallNull => "an upcall whose pointer is 0 cannot be queued",
            Reason::UpcallPointer => "the upcall's slot holds another pointer",
            Reason::UpcallData => "the upcall's slot holds other data",
            Reason::ExitedBreak => "the process has exited, so that its break has to be the first break",
            Reason::ExitedHolds => {
                "the process has exited, so that it can have no upcall, and (0, 0) alone in its slots"
            }
            Reason::OwnerOfUnshared => "the driver is not shared, so that it can have no owner",
            Reason::LatchOfUnshared => "the driver is not shared, so that its latch has to be 0",
            Reason::NoOwner => "the owner is no process of the board: 0 is nobody, p + 1 is process p",
            Reason::OwnerDenied => "the owner may not call this driver",
            Reason::OwnerExited => "the owner has exited",
            // With their numbers, above.
            Reason::Length | Reason::QueueCount | Reason::Board(_) => "",
        }
    }
}

/// What is wrong where a rule does not hold. It is made only there: the check is
/// timed, and most words are right.
#[inline(always)]
pub(crate) fn ensure<E>(holds: bool, fault: impl FnOnce() -> E) -> Result<(), E> {
    if holds {
        Ok(())
    } else {
        Err(fault())
    }
}

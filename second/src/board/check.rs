//! What makes a board good, and the first word that is not.

use super::{field, DriverWords, ProcessBoard, ProcessWords, FLASH, MEMORY, PROCESS_WORDS};
use crate::fault::{ensure, BoardFault, BoardReason, BoardWord};
use crate::limits::{MAX_DRIVERS, MAX_PROCESSES, MAX_SLOTS};

/// What makes a board with these processes and drivers not good, if anything does:
/// the counts, then each process, each driver, and what two of them share.
pub fn check_board(processes: &[ProcessWords], drivers: &[DriverWords]) -> Result<(), BoardFault> {
    check_process_count(processes.len())?;
    check_driver_count(drivers.len())?;
    for (index, words) in processes.iter().enumerate() {
        ProcessBoard::from_words(words)
            .check(drivers.len())
            .map_err(|(field, reason)| BoardFault::of_process(index, field, reason))?;
    }
    for (place, words) in drivers.iter().enumerate() {
        check_driver(words)
            .map_err(|(field, reason)| BoardFault::of_driver(place, field, reason))?;
    }
    every_pair(processes, |index, process, other_index, other| {
        ProcessBoard::from_words(other)
            .check_beside(index, &ProcessBoard::from_words(process))
            .map_err(|(field, reason)| BoardFault::of_process(other_index, field, reason))
    })?;
    every_pair(drivers, |place, [number, ..], other_place, [other, ..]| {
        ensure(number != other, || {
            let reason = BoardReason::SharesNumber { with: place };
            BoardFault::of_driver(other_place, field::NUMBER, reason)
        })
    })
}

pub fn check_process_count(processes: usize) -> Result<(), BoardFault> {
    ensure((1..=MAX_PROCESSES).contains(&processes), || BoardFault {
        word: BoardWord::ProcessCount,
        reason: BoardReason::ProcessCount,
    })
}

pub fn check_driver_count(drivers: usize) -> Result<(), BoardFault> {
    ensure(drivers <= MAX_DRIVERS, || BoardFault {
        word: BoardWord::DriverCount,
        reason: BoardReason::DriverCount,
    })
}

fn check_driver(words: &DriverWords) -> Result<(), (usize, BoardReason)> {
    let [_, slots @ .., shared] = words;
    for (kind, &slots) in slots.iter().enumerate() {
        ensure(slots <= MAX_SLOTS, || (field::SLOTS + kind, BoardReason::SlotCount))?;
    }
    ensure(*shared <= 1, || (field::SHARED, BoardReason::Shared))
}

impl ProcessBoard {
    /// The field that is not right on a board with so many drivers, and why.
    fn check(&self, drivers: usize) -> Result<(), (usize, BoardReason)> {
        self.check_ram()?;
        self.check_flash()?;
        let named = u64::from(self.permissions) >> drivers == 0;
        ensure(named, || (field::PERMISSIONS, BoardReason::PermitsNoDriver))
    }

    fn check_ram(&self) -> Result<(), (usize, BoardReason)> {
        let ProcessBoard { ram, grant_start, first_break, .. } = *self;
        ensure(MEMORY.start <= ram.start, || (field::S, BoardReason::BelowMemory))?;
        ensure(ram.end <= MEMORY.end, || (field::E, BoardReason::AboveMemory))?;
        ensure(!ram.is_empty(), || (field::E, BoardReason::NoRam))?;
        ensure(ram.start <= first_break, || (field::B, BoardReason::FirstBreakBelowRam))?;
        ensure(first_break <= grant_start, || (field::G, BoardReason::GrantBelowFirstBreak))?;
        ensure(grant_start <= ram.end, || (field::G, BoardReason::GrantAboveRam))
    }

    fn check_flash(&self) -> Result<(), (usize, BoardReason)> {
        ensure(FLASH.start <= self.flash.start, || (field::F, BoardReason::BelowFlash))?;
        ensure(self.flash.end <= FLASH.end, || (field::FE, BoardReason::AboveFlash))?;
        ensure(!self.flash.is_empty(), || (field::FE, BoardReason::NoFlash))
    }

    /// The field of this process whose area overlaps that of another, and why.
    fn check_beside(&self, with: usize, other: &ProcessBoard) -> Result<(), (usize, BoardReason)> {
        let (ram, flash) = (BoardReason::SharesRam { with }, BoardReason::SharesFlash { with });
        ensure(self.ram.is_disjoint_from(other.ram), || (field::S, ram))?;
        ensure(self.flash.is_disjoint_from(other.flash), || (field::F, flash))
    }
}

/// The count that does not fit the length of words that do not split.
pub(super) fn misfit(words: &[u32]) -> BoardFault {
    let processes = words.first().and_then(|&count| PROCESS_WORDS.checked_mul(count as usize));
    let word = match processes {
        // The drivers' count comes after them.
        Some(processes) if processes.saturating_add(1) < words.len() => BoardWord::DriverCount,
        _ => BoardWord::ProcessCount,
    };
    BoardFault { word, reason: BoardReason::Length { found: words.len() } }
}

/// Looks at every two of the items, each with its place.
fn every_pair<T, E>(
    items: &[T],
    check: impl Fn(usize, &T, usize, &T) -> Result<(), E>,
) -> Result<(), E> {
    for (place, item) in items.iter().enumerate() {
        for (other_place, other) in items.iter().enumerate().skip(place + 1) {
            check(place, item, other_place, other)?;
        }
    }
    Ok(())
}

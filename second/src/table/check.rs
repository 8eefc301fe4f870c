//! The check of any words, which finds the first one that is not right.

use std::ops::Range;

use super::{
    board_word_at, pair_at, run_at, ClaimWords, DriverPairs, RunWords, UpcallWords, AREAS_FROM,
    BREAK, CLAIMS_FROM, CLAIM_WORDS, DRIVERS_FROM, EXITED, LATCH, OWNER, QUEUED, QUEUE_FROM,
    RUNS_FROM, RUN_WORDS, SLOTS_FROM, STATUS, TABLE_WORDS, UPCALL_WORDS,
};
use crate::board::{
    check_board, check_driver_count, check_process_count, DriverBoard, DriverPlace, DriverWords,
    ProcessBoard, ProcessWords, SlotKind,
};
use crate::fault::{ensure, BoardFault, Fault, Reason};
use crate::limits::{MAX_DRIVERS, QUEUE_CAPACITY};
use crate::state::{Pair, Slot};

/// Places of the words of an upcall that are checked.
const DRIVER: usize = 0;
const NUMBER: usize = 1;
const POINTER: usize = 5;
const DATA: usize = 6;

/// Whether the words are the image of a state with a good board that document
/// 01 calls well formed.
pub fn is_well_formed(words: &[u32]) -> bool {
    check(words).is_ok()
}

/// The first fault of words that are not such an image: in their length, in the
/// counts and the rows that they leave unused, in the board, in a process's run,
/// in a claim.
pub fn check(words: &[u32]) -> Result<(), Fault> {
    let table = Table::of(words)?;
    check_board(table.areas, table.drivers).map_err(Fault::of_board)?;
    table.check_runs()?;
    table.check_claims()
}

impl Fault {
    #[cold]
    fn at(word: usize, reason: Reason) -> Fault {
        Fault { word, reason }
    }

    #[cold]
    fn of_board(fault: BoardFault) -> Fault {
        Fault { word: board_word_at(fault.word), reason: Reason::Board(fault.reason) }
    }
}

/// The rows of a table that are in use.
struct Table<'a> {
    areas: &'a [ProcessWords],
    drivers: &'a [DriverWords],
    claims: &'a [ClaimWords],
    runs: &'a [RunWords],
}

impl<'a> Table<'a> {
    /// A fault if the length or a count is not right, or if a row that is not
    /// in use is not zero.
    fn of(words: &'a [u32]) -> Result<Table<'a>, Fault> {
        let length = words.len();
        ensure(length == TABLE_WORDS, || Fault::at(length.min(TABLE_WORDS), Reason::Length))?;
        let (processes, drivers) = (words[0] as usize, words[DRIVERS_FROM] as usize);
        check_process_count(processes).map_err(Fault::of_board)?;
        check_driver_count(drivers).map_err(Fault::of_board)?;
        Ok(Table {
            areas: rows(words, AREAS_FROM..DRIVERS_FROM, processes)?,
            drivers: rows(words, DRIVERS_FROM + 1..CLAIMS_FROM, drivers)?,
            claims: rows(words, CLAIMS_FROM..RUNS_FROM, drivers)?,
            runs: rows(words, RUNS_FROM..TABLE_WORDS, processes)?,
        })
    }

    fn check_runs(&self) -> Result<(), Fault> {
        for (index, (areas, words)) in self.areas.iter().zip(self.runs).enumerate() {
            let process = ProcessBoard::from_words(areas);
            // Where the run begins is of matter only where it has a fault.
            Run { words, process, drivers: self.drivers }
                .check()
                .map_err(|Fault { word, reason }| Fault::at(run_at(index) + word, reason))?;
        }
        Ok(())
    }

    fn check_claims(&self) -> Result<(), Fault> {
        for (place, (driver, claim)) in self.drivers.iter().zip(self.claims).enumerate() {
            self.check_claim(place, driver, claim).map_err(|(word, reason)| {
                Fault::at(CLAIMS_FROM + place * CLAIM_WORDS + word, reason)
            })?;
        }
        Ok(())
    }

    /// A fault by the word of the claim.
    fn check_claim(
        &self,
        place: usize,
        driver: &DriverWords,
        &[owner, latch]: &ClaimWords,
    ) -> Result<(), (usize, Reason)> {
        if !DriverBoard::from_words(driver).shared {
            ensure(owner == 0, || (OWNER, Reason::OwnerOfUnshared))?;
            return ensure(latch == 0, || (LATCH, Reason::LatchOfUnshared));
        }
        match owner.checked_sub(1) {
            None => Ok(()),
            Some(process) => self.check_owner(process, place).map_err(|reason| (OWNER, reason)),
        }
    }

    /// A permitted process that has not exited.
    fn check_owner(&self, process: u32, place: usize) -> Result<(), Reason> {
        let process = process as usize;
        let areas = self.areas.get(process).ok_or(Reason::NoOwner)?;
        let permitted = ProcessBoard::from_words(areas).permits(DriverPlace(place));
        ensure(permitted, || Reason::OwnerDenied)?;
        let [status, ..] = self.runs[process];
        ensure(status != EXITED, || Reason::OwnerExited)
    }
}

/// The first rows of a part of the words, so many; a fault if another word of it
/// is not zero. There is room for the rows.
fn rows<const WORDS: usize>(
    words: &[u32],
    part: Range<usize>,
    count: usize,
) -> Result<&[[u32; WORDS]], Fault> {
    let (rows, unused) = words[part.clone()].as_chunks().0.split_at(count);
    let from = part.start + count * WORDS;
    check_zero(unused.as_flattened(), from, Reason::NotInUse)?;
    Ok(rows)
}

/// A fault if a word is not zero; the first of them stands at `from`. All words
/// are taken together: which one it is, is looked for only if there is one.
#[inline(always)]
fn check_zero(words: &[u32], from: usize, reason: Reason) -> Result<(), Fault> {
    ensure(words.iter().fold(0, |all, word| all | word) == 0, || {
        Fault::at(from + words.iter().take_while(|&&word| word == 0).count(), reason)
    })
}

/// The run of a process, and what it is judged by. Faults are by the word of
/// the run.
struct Run<'a> {
    words: &'a RunWords,
    process: ProcessBoard,
    drivers: &'a [DriverWords],
}

impl Run<'_> {
    fn check(&self) -> Result<(), Fault> {
        let &[status, app_break, queued, ..] = self.words;
        let ProcessBoard { ram, grant_start, .. } = self.process;
        ensure(status <= EXITED, || Fault::at(STATUS, Reason::Status))?;
        ensure(ram.start <= app_break, || Fault::at(BREAK, Reason::BreakBelowRam))?;
        ensure(app_break <= grant_start, || Fault::at(BREAK, Reason::BreakAboveGrant))?;
        self.check_slots(SlotKind::Subscribe, app_break)?;
        self.check_slots(SlotKind::ReadWrite, app_break)?;
        self.check_slots(SlotKind::ReadOnly, app_break)?;
        self.check_queue(queued as usize)?;
        if status == EXITED {
            self.check_cleared()?;
        }
        Ok(())
    }

    fn check_cleared(&self) -> Result<(), Fault> {
        let first_break = self.process.first_break;
        ensure(self.words[BREAK] == first_break, || Fault::at(BREAK, Reason::ExitedBreak))?;
        check_zero(&self.words[QUEUED..], QUEUED, Reason::ExitedHolds)
    }

    #[inline(always)]
    fn check_slots(&self, kind: SlotKind, app_break: u32) -> Result<(), Fault> {
        let (installed, others) = self.pairs(kind).split_at(self.drivers.len());
        for (place, (driver, pairs)) in self.drivers.iter().zip(installed).enumerate() {
            let count = DriverBoard::from_words(driver).slots(kind);
            for (number, &pair) in (0..).zip(pairs) {
                let slot = Slot { kind, driver: DriverPlace(place), number };
                if number < count {
                    let accepted = self.process.accepts(app_break, kind, pair);
                    ensure(accepted, || Fault::at(pair_at(slot), not_accepted(kind)))?;
                } else {
                    check_zero(&pair, pair_at(slot), Reason::NoSlot)?;
                }
            }
        }
        let first = Slot { kind, driver: DriverPlace(self.drivers.len()), number: 0 };
        let others = others.as_flattened().as_flattened();
        check_zero(others, pair_at(first), Reason::NoSlot)
    }

    /// The pairs of a kind: of each driver that there could be.
    fn pairs(&self, kind: SlotKind) -> &[DriverPairs; MAX_DRIVERS] {
        let pairs: &[Pair] = self.words[SLOTS_FROM..QUEUE_FROM].as_chunks().0;
        let of_drivers: &[DriverPairs] = pairs.as_chunks().0;
        &of_drivers.as_chunks().0[kind as usize]
    }

    fn check_queue(&self, queued: usize) -> Result<(), Fault> {
        ensure(queued <= QUEUE_CAPACITY, || Fault::at(QUEUED, Reason::QueueCount))?;
        for (place, upcall) in rows(self.words, QUEUE_FROM..RUN_WORDS, queued)?.iter().enumerate() {
            self.check_upcall(upcall).map_err(|(word, reason)| {
                Fault::at(QUEUE_FROM + place * UPCALL_WORDS + word, reason)
            })?;
        }
        Ok(())
    }

    /// The upcall names an existing slot and carries its non-zero pointer and
    /// its data. Else the word of it that is not right, and why.
    fn check_upcall(&self, upcall: &UpcallWords) -> Result<(), (usize, Reason)> {
        let &[place, number, _, _, _, pointer, data] = upcall;
        let driver = self.drivers.get(place as usize).ok_or((DRIVER, Reason::UpcallNoDriver))?;
        let slots = DriverBoard::from_words(driver).slots(SlotKind::Subscribe);
        ensure(number < slots, || (NUMBER, Reason::UpcallNoSlot))?;
        ensure(pointer != 0, || (POINTER, Reason::UpcallNull))?;
        let [held_pointer, held_data] =
            self.pairs(SlotKind::Subscribe)[place as usize][number as usize];
        ensure(pointer == held_pointer, || (POINTER, Reason::UpcallPointer))?;
        ensure(data == held_data, || (DATA, Reason::UpcallData))
    }
}

/// Why a slot of this kind does not hold a pair.
fn not_accepted(kind: SlotKind) -> Reason {
    match kind {
        SlotKind::Subscribe => Reason::PointerOutside,
        SlotKind::ReadWrite => Reason::ReadWriteOutside,
        SlotKind::ReadOnly => Reason::ReadOnlyOutside,
    }
}

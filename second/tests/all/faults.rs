//! The first fault of a table and of a board: the word, by hand from docs/LAYOUT.md,
//! and the rule of document 01 that it breaks.

use second::board::{
    Board, BufferArea, ProcessBoard, FLASH, MAX_DRIVERS, MAX_PROCESSES, MAX_SLOTS, MEMORY,
};
use second::fault::{BoardFault, BoardReason, BoardWord, Fault, Reason};
use second::state::QUEUE_CAPACITY;
use second::table::{check, is_well_formed, TABLE_WORDS};

use crate::common::CASE_BOARD;
use crate::table::{worked, Words};

const QUEUE_FULL: u32 = QUEUE_CAPACITY as u32;

/// Words that are put into the worked table.
type Changes = &'static [(usize, u32)];

#[track_caller]
fn first_fault(name: &str, words: &[u32], word: usize, reason: Reason) {
    assert_eq!(check(words), Err(Fault { word, reason }), "{name}");
    assert!(!is_well_formed(words), "{name}");
}

#[track_caller]
fn faults(cases: &[(&str, Changes, usize, Reason)]) {
    for &(name, changes, word, reason) in cases {
        let Words(mut words) = worked();
        assert_eq!(check(&words), Ok(()));
        for &(at, changed) in changes {
            words[at] = changed;
        }
        first_fault(name, &words, word, reason);
    }
}

#[test]
fn lengths() {
    for (length, word) in [(0, 0), (1, 1), (TABLE_WORDS - 1, TABLE_WORDS - 1)] {
        let Words(mut words) = worked();
        words.resize(length, 0);
        first_fault("too short", &words, word, Reason::Length);
    }
    for length in [TABLE_WORDS + 1, 2 * TABLE_WORDS] {
        let Words(mut words) = worked();
        words.resize(length, 0);
        first_fault("too long", &words, TABLE_WORDS, Reason::Length);
    }
}

#[test]
fn counts_and_words_that_are_not_in_use() {
    const PROCESSES: Reason = Reason::Board(BoardReason::ProcessCount);
    const DRIVERS: Reason = Reason::Board(BoardReason::DriverCount);
    faults(&[
        ("no process", &[(0, 0)], 0, PROCESSES),
        ("too many processes", &[(0, MAX_PROCESSES as u32 + 1)], 0, PROCESSES),
        ("far too many processes", &[(0, u32::MAX)], 0, PROCESSES),
        ("too many drivers", &[(57, MAX_DRIVERS as u32 + 1)], 57, DRIVERS),
        ("process 1 left out, but its areas are there", &[(0, 1)], 8, Reason::NotInUse),
        ("driver 1 left out, but its row is there", &[(57, 1)], 63, Reason::NotInUse),
        ("the first unused area", &[(15, 1)], 15, Reason::NotInUse),
        ("the last unused area", &[(56, 1)], 56, Reason::NotInUse),
        ("the first unused driver", &[(68, 1)], 68, Reason::NotInUse),
        ("the last unused claim", &[(169, 1)], 169, Reason::NotInUse),
        ("the first unused run", &[(1168, 1)], 1168, Reason::NotInUse),
        ("the last word", &[(4161, 1)], 4161, Reason::NotInUse),
    ]);
}

#[test]
fn boards_of_tables() {
    const fn board(reason: BoardReason) -> Reason {
        Reason::Board(reason)
    }
    use BoardReason::*;
    faults(&[
        ("S below the image", &[(1, MEMORY.start - 1)], 1, board(BelowMemory)),
        ("E above the image", &[(9, MEMORY.end + 1)], 9, board(AboveMemory)),
        ("E at S", &[(2, 0x2000_0000)], 2, board(NoRam)),
        ("B below S", &[(4, 0x1FFF_FFFF)], 4, board(FirstBreakBelowRam)),
        ("G below B", &[(3, 0x2000_0FFF)], 3, board(GrantBelowFirstBreak)),
        ("G above E", &[(3, 0x2000_2001)], 3, board(GrantAboveRam)),
        ("F below the image", &[(5, FLASH.start - 1)], 5, board(BelowFlash)),
        ("FE above the image", &[(13, FLASH.end + 1)], 13, board(AboveFlash)),
        ("F at FE", &[(5, 0x4_4000)], 6, board(NoFlash)),
        ("a bit for a third driver", &[(7, 7)], 7, board(PermitsNoDriver)),
        ("the topmost bit", &[(14, 0x8000_0000)], 14, board(PermitsNoDriver)),
        ("too many subscribe slots", &[(59, MAX_SLOTS + 1)], 59, board(SlotCount)),
        ("too many read-only slots", &[(66, MAX_SLOTS + 1)], 66, board(SlotCount)),
        ("shared is 2", &[(62, 2)], 62, board(Shared)),
        ("RAM of two overlaps", &[(2, 0x2000_2001)], 8, board(SharesRam { with: 0 })),
        ("flash of two overlaps", &[(6, 0x4_4001)], 12, board(SharesFlash { with: 0 })),
        ("two of one number", &[(63, 1)], 63, board(SharesNumber { with: 0 })),
    ]);
}

#[test]
fn runs() {
    faults(&[
        ("a fourth status", &[(170, 3)], 170, Reason::Status),
        ("the break below S", &[(171, 0x1FFF_FFFF)], 171, Reason::BreakBelowRam),
        ("the break above G", &[(171, 0x2000_1801)], 171, Reason::BreakAboveGrant),
        ("the break under a buffer", &[(171, 0x2000_0FFF)], 301, Reason::ReadWriteOutside),
        ("a pointer at FE", &[(173, 0x4_4000)], 173, Reason::PointerOutside),
        ("a pointer into another's flash", &[(672, 0x4_3FFF)], 672, Reason::PointerOutside),
        ("a buffer past the break", &[(301, 0x2000_0F01)], 301, Reason::ReadWriteOutside),
        ("a size that wraps", &[(302, u32::MAX)], 301, Reason::ReadWriteOutside),
        ("read-write in flash", &[(301, 0x4_0000), (302, 1)], 301, Reason::ReadWriteOutside),
        ("read-only past flash", &[(430, 2)], 429, Reason::ReadOnlyOutside),
        ("read-only, end wraps", &[(928, u32::MAX), (929, 2)], 928, Reason::ReadOnlyOutside),
        ("a third subscribe slot of driver 0", &[(178, 1)], 178, Reason::NoSlot),
        ("a read-only slot of driver 1", &[(437, 1)], 437, Reason::NoSlot),
        ("a slot of a driver that is not there", &[(189, 1)], 189, Reason::NoSlot),
        ("too many upcalls", &[(172, QUEUE_FULL + 1)], 172, Reason::QueueCount),
        ("one upcall left out", &[(172, QUEUE_FULL - 1)], 663, Reason::NotInUse),
        ("an upcall of driver 2", &[(557, 2)], 557, Reason::UpcallNoDriver),
        ("an upcall of slot 2", &[(558, 2)], 558, Reason::UpcallNoSlot),
        ("a null upcall", &[(562, 0)], 562, Reason::UpcallNull),
        ("another pointer", &[(562, 0x4_0011)], 562, Reason::UpcallPointer),
        ("other data", &[(570, 7)], 570, Reason::UpcallData),
    ]);
}

/// Of processes that have exited, and of claims.
#[test]
fn exits_and_claims() {
    faults(&[
        ("exited with a queue", &[(170, 2)], 172, Reason::ExitedHolds),
        ("exited, its break not the first", &[(669, 2)], 670, Reason::ExitedBreak),
        ("an owner of an unshared driver", &[(138, 1)], 138, Reason::OwnerOfUnshared),
        ("a latch of an unshared driver", &[(139, 1)], 139, Reason::LatchOfUnshared),
        ("a third process for an owner", &[(140, 3)], 140, Reason::NoOwner),
        ("the largest owner", &[(140, u32::MAX)], 140, Reason::NoOwner),
        ("an owner who may not call it", &[(14, 1)], 140, Reason::OwnerDenied),
    ]);
    let Words(mut exited) = worked();
    exited[170..669].fill(0);
    exited[170..172].copy_from_slice(&[2, 0x2000_1000]);
    assert_eq!(check(&exited), Ok(()));
    for (name, at, word, reason) in [
        ("exited and data in a slot", 174, 7, Reason::ExitedHolds),
        ("exited and an empty buffer", 301, 0x2000_0000, Reason::ExitedHolds),
        ("an owner who has exited", 140, 1, Reason::OwnerExited),
    ] {
        let mut words = exited.clone();
        words[at] = word;
        first_fault(name, &words, at, reason);
    }
}

#[test]
fn of_two_faults_the_first_is_told() {
    faults(&[
        ("form before the board", &[(7, 7), (4161, 1)], 4161, Reason::NotInUse),
        (
            "the board before a process",
            &[(170, 3), (62, 2)],
            62,
            Reason::Board(BoardReason::Shared),
        ),
        ("a process before the next", &[(669, 3), (172, QUEUE_FULL + 1)], 172, Reason::QueueCount),
        ("status before the break", &[(171, 0), (170, 3)], 170, Reason::Status),
        ("the break before slots", &[(173, 1), (171, 0)], 171, Reason::BreakBelowRam),
        ("slots before the queue", &[(172, QUEUE_FULL + 1), (437, 1)], 437, Reason::NoSlot),
        ("the queue before an exit", &[(557, 2), (170, 2)], 557, Reason::UpcallNoDriver),
        ("a process before a claim", &[(138, 1), (669, 3)], 669, Reason::Status),
    ]);
}

#[test]
fn boards_as_they_are_lent() {
    use BoardWord::{Driver, DriverCount, Process, ProcessCount};
    let fault = |words: &[u32]| Board::checked(words).expect_err("it is not good");
    let changed = |at: usize, word: u32| {
        let mut words = CASE_BOARD;
        words[at] = word;
        words
    };
    let length = |found| BoardReason::Length { found };
    for (words, word, place, reason) in [
        (&[][..], ProcessCount, 0, length(0)),
        (&CASE_BOARD[..15], ProcessCount, 0, length(15)),
        (&CASE_BOARD[..25], DriverCount, 15, length(25)),
        (&changed(0, u32::MAX), ProcessCount, 0, length(26)),
        (&changed(15, 1), DriverCount, 15, length(26)),
        (&[0, 0], ProcessCount, 0, BoardReason::ProcessCount),
        (&changed(10, 0), Process { index: 1, field: 2 }, 10, BoardReason::GrantBelowFirstBreak),
        (&changed(25, 7), Driver { place: 1, field: 4 }, 25, BoardReason::Shared),
    ] {
        assert_eq!(fault(words), BoardFault { word, reason });
        assert_eq!(word.place_in(words), place);
    }
    assert!(Board::checked(&CASE_BOARD).is_ok());
}

#[test]
fn rules_in_words() {
    let told = |reason: Reason| reason.to_string();
    assert_eq!(told(Reason::Length), format!("a table has {TABLE_WORDS} words"));
    assert_eq!(
        told(Reason::QueueCount),
        format!("at most {QUEUE_CAPACITY} upcalls are queued for a process")
    );
    assert_eq!(
        told(Reason::Board(BoardReason::AboveMemory)),
        format!("RAM ends above 0x{:08X}", MEMORY.end)
    );
    assert_eq!(
        told(Reason::ReadOnlyOutside),
        "the buffer lies outside of the process's RAM below its break and of its flash"
    );
}

/// A process with RAM up to 0x20001000, and its break at 0x20000800.
#[test]
fn where_a_buffer_lies() {
    let words = [0x2000_0000, 0x2000_1000, 0x2000_0C00, 0x2000_0400, 0x4_0000, 0x4_0100, 0];
    let process = ProcessBoard::from_words(&words);
    for (address, size, expected) in [
        (0, 0, BufferArea::Empty),
        (u32::MAX, 0, BufferArea::Empty),
        (0x2000_0000, 1, BufferArea::Ram),
        (0x2000_0000, 0x800, BufferArea::Ram),
        (0x2000_07FF, 1, BufferArea::Ram),
        (0x2000_07FF, 2, BufferArea::Outside),
        (0x2000_0800, 1, BufferArea::Outside),
        (0x1FFF_FFFF, 2, BufferArea::Outside),
        (0x4_0000, 0x100, BufferArea::Flash),
        (0x4_00FF, 1, BufferArea::Flash),
        (0x4_00FF, 2, BufferArea::Outside),
        (0x3_FFFF, 1, BufferArea::Outside),
        (u32::MAX, 2, BufferArea::Outside),
        (0x2000_0000, u32::MAX, BufferArea::Outside),
    ] {
        let found = process.area_of(0x2000_0800, [address, size]);
        assert_eq!(found, expected, "{address:#x} {size}");
    }
    let names = [BufferArea::Empty, BufferArea::Ram, BufferArea::Flash, BufferArea::Outside];
    assert_eq!(names.map(|area| area.to_string()), ["empty", "RAM", "flash", "outside"]);
}

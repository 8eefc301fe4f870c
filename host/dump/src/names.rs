//! What each word of a table is called.

use second::board::{
    DriverPlace, SlotKind, DRIVER_WORDS, MAX_DRIVERS, MAX_SLOTS, PROCESS_WORDS, SLOT_KINDS,
};
use second::state::Slot;
use second::table::{
    AREAS_FROM, BREAK, CLAIMS_FROM, CLAIM_WORDS, DRIVERS_FROM, PAIR_WORDS, QUEUED, QUEUE_FROM,
    RUNS_FROM, RUN_WORDS, SLOTS_FROM, STATUS, TABLE_WORDS, UPCALL_WORDS,
};

/// The words of a process on a board, and what a letter stands for.
pub const PROCESS: [(&str, &str); PROCESS_WORDS] = [
    ("S", "RAM starts"),
    ("E", "RAM ends"),
    ("G", "grant region starts"),
    ("B", "first break"),
    ("F", "flash starts"),
    ("FE", "flash ends"),
    ("permissions", ""),
];

/// The words of a driver on a board.
pub const DRIVER: [&str; DRIVER_WORDS] =
    ["number", "subscribe slots", "read-write slots", "read-only slots", "shared"];

const CLAIM: [&str; CLAIM_WORDS] = ["owner", "latch"];

const UPCALL: [&str; UPCALL_WORDS] =
    ["driver", "slot", "argument 0", "argument 1", "argument 2", "pointer", "data"];

const KINDS: [&str; SLOT_KINDS] = ["subscribe", "read-write", "read-only"];

pub fn kind(kind: SlotKind) -> &'static str {
    KINDS[kind as usize]
}

/// A slot with its driver by the place on the board.
pub fn slot(Slot { kind: of, driver, number }: Slot) -> String {
    format!("{} slot {number} of driver {}", kind(of), driver.0)
}

/// What the two words of a slot are.
fn pair(of: SlotKind) -> [&'static str; PAIR_WORDS] {
    match of {
        SlotKind::Subscribe => ["pointer", "data"],
        SlotKind::ReadWrite | SlotKind::ReadOnly => ["address", "size"],
    }
}

/// The name of the word at this place, whatever table it is a word of.
pub fn word(at: usize) -> String {
    match at {
        0 => String::from("P, processes"),
        DRIVERS_FROM => String::from("D, drivers"),
        _ if at < DRIVERS_FROM => {
            let (process, field) = row_and_field(at - AREAS_FROM, PROCESS_WORDS);
            format!("process {process}, {}", PROCESS[field].0)
        }
        _ if at < CLAIMS_FROM => {
            let (driver, field) = row_and_field(at - DRIVERS_FROM - 1, DRIVER_WORDS);
            format!("driver {driver}, {}", DRIVER[field])
        }
        _ if at < RUNS_FROM => {
            let (driver, field) = row_and_field(at - CLAIMS_FROM, CLAIM_WORDS);
            format!("claim on driver {driver}, {}", CLAIM[field])
        }
        _ if at < TABLE_WORDS => {
            let (process, field) = row_and_field(at - RUNS_FROM, RUN_WORDS);
            format!("process {process}, {}", run_word(field))
        }
        _ => String::from("past the end"),
    }
}

fn row_and_field(at: usize, width: usize) -> (usize, usize) {
    (at / width, at % width)
}

/// The name of a word of a process's run.
fn run_word(at: usize) -> String {
    match at {
        STATUS => String::from("status"),
        BREAK => String::from("break"),
        QUEUED => String::from("queued upcalls"),
        _ if at < QUEUE_FROM => {
            let (index, field) = row_and_field(at - SLOTS_FROM, PAIR_WORDS);
            let named = slot_at(index);
            format!("{}, {}", slot(named), pair(named.kind)[field])
        }
        _ => {
            let (upcall, field) = row_and_field(at - QUEUE_FROM, UPCALL_WORDS);
            format!("upcall {upcall}, {}", UPCALL[field])
        }
    }
}

/// The slot whose pair has this index among the pairs of a run.
pub fn slot_at(index: usize) -> Slot {
    let (drivers_slots, number) = row_and_field(index, MAX_SLOTS as usize);
    let (kind, driver) = row_and_field(drivers_slots, MAX_DRIVERS);
    // Past the last kind there is no slot; the last one stands for it.
    let kind = SlotKind::ALL.get(kind).copied().unwrap_or(SlotKind::ReadOnly);
    Slot { kind, driver: DriverPlace(driver), number: number as u32 }
}

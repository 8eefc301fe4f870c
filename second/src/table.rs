//! The table, word by word as docs/LAYOUT.md says: a state written as words,
//! and the check whether words are the image of a well-formed state.

mod check;

use crate::board::{
    DriverBoard, DriverPlace, ProcessBoard, DRIVER_WORDS, PROCESS_WORDS, SLOT_KINDS,
};
use crate::fault::BoardWord;
use crate::limits::{MAX_DRIVERS, MAX_PROCESSES, MAX_SLOTS, QUEUE_CAPACITY};
use crate::state::{Activity, DriverState, Machine, Pair, Process, QueuedUpcall, Slot};

pub use check::{check, is_well_formed};

/// Where the parts of a table begin. The two counts stand before their rows.
pub const AREAS_FROM: usize = 1;
pub const DRIVERS_FROM: usize = AREAS_FROM + MAX_PROCESSES * PROCESS_WORDS;
pub const CLAIMS_FROM: usize = DRIVERS_FROM + 1 + MAX_DRIVERS * DRIVER_WORDS;
pub const RUNS_FROM: usize = CLAIMS_FROM + MAX_DRIVERS * CLAIM_WORDS;
/// How many words every table has.
pub const TABLE_WORDS: usize = RUNS_FROM + MAX_PROCESSES * RUN_WORDS;

/// Where the parts of a process's run begin. Before the slots are its status,
/// its break and how many upcalls are queued.
pub const STATUS: usize = 0;
pub const BREAK: usize = 1;
pub const QUEUED: usize = 2;
pub const SLOTS_FROM: usize = 3;
pub const QUEUE_FROM: usize = SLOTS_FROM + SLOT_COUNT * PAIR_WORDS;
/// How many words the run of a process has.
pub const RUN_WORDS: usize = QUEUE_FROM + QUEUE_CAPACITY * UPCALL_WORDS;

/// Slots of a run, those that the board does not have among them.
pub const SLOT_COUNT: usize = SLOT_KINDS * MAX_DRIVERS * MAX_SLOTS as usize;
/// Words of a slot, of a claim and of a queued upcall.
pub const PAIR_WORDS: usize = 2;
pub const CLAIM_WORDS: usize = 2;
pub const UPCALL_WORDS: usize = 7;

/// A driver's slots of one kind, and those that it could have.
type DriverPairs = [Pair; MAX_SLOTS as usize];
type RunWords = [u32; RUN_WORDS];
type ClaimWords = [u32; CLAIM_WORDS];
type UpcallWords = [u32; UPCALL_WORDS];

/// Places of the words of a claim.
pub const OWNER: usize = 0;
pub const LATCH: usize = 1;

/// What a status is written as.
pub const RUNNING: u32 = 0;
pub const WAITING: u32 = 1;
pub const EXITED: u32 = 2;

/// Where the run of a process begins.
pub fn run_at(process: usize) -> usize {
    RUNS_FROM + process * RUN_WORDS
}

/// Where a slot's pair stands in a run.
pub fn pair_at(slot: Slot) -> usize {
    let Slot { kind, driver, number } = slot;
    let place = (kind as usize * MAX_DRIVERS + driver.0) * MAX_SLOTS as usize + number as usize;
    SLOTS_FROM + place * PAIR_WORDS
}

/// The state as a table.
pub fn image(machine: &Machine) -> Vec<u32> {
    let (processes, drivers) = (machine.board.processes(), machine.board.drivers());
    let mut words = vec![0; TABLE_WORDS];
    words[0] = processes.len() as u32;
    put_rows(&mut words[AREAS_FROM..], processes.iter().map(ProcessBoard::words));
    words[DRIVERS_FROM] = drivers.len() as u32;
    put_rows(&mut words[DRIVERS_FROM + 1..], drivers.iter().map(DriverBoard::words));
    put_rows(&mut words[CLAIMS_FROM..], machine.drivers.iter().map(claim_words));
    let runs = machine.processes.iter().map(|process| run_words(machine, process));
    put_rows(&mut words[RUNS_FROM..], runs);
    words
}

fn put_rows<const WORDS: usize>(words: &mut [u32], rows: impl Iterator<Item = [u32; WORDS]>) {
    for (place, row) in words.as_chunks_mut().0.iter_mut().zip(rows) {
        *place = row;
    }
}

fn claim_words(driver: &DriverState) -> ClaimWords {
    let owner = driver.owner.map_or(0, |process| process.0 + 1);
    [owner, driver.latch as u32]
}

fn run_words(machine: &Machine, process: &Process) -> RunWords {
    let mut words = [0; RUN_WORDS];
    words[STATUS] = match process.activity {
        Activity::Running => RUNNING,
        Activity::Waiting => WAITING,
        Activity::Exited => EXITED,
    };
    words[BREAK] = process.app_break;
    words[QUEUED] = process.queue.len() as u32;
    for slot in machine.slots() {
        let at = pair_at(slot);
        words[at..at + PAIR_WORDS].copy_from_slice(&process.pair(slot));
    }
    put_rows(&mut words[QUEUE_FROM..], process.queue.iter().map(upcall_words));
    words
}

fn upcall_words(queued: &QueuedUpcall) -> UpcallWords {
    let QueuedUpcall { driver: DriverPlace(driver), slot, arguments: [a, b, c], upcall } = *queued;
    [driver as u32, slot, a, b, c, upcall.pointer, upcall.data]
}

/// Where a word of the board stands in a table.
pub fn board_word_at(word: BoardWord) -> usize {
    match word {
        BoardWord::ProcessCount => 0,
        BoardWord::Process { index, field } => AREAS_FROM + index * PROCESS_WORDS + field,
        BoardWord::DriverCount => DRIVERS_FROM,
        BoardWord::Driver { place, field } => DRIVERS_FROM + 1 + place * DRIVER_WORDS + field,
    }
}

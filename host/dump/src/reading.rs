//! A table's words taken apart, with no regard to whether they are well formed.

use std::ops::Range;

use second::board::{
    field, DriverBoard, DriverPlace, ProcessBoard, SlotKind, DRIVER_WORDS, MAX_DRIVERS,
    MAX_PROCESSES, PROCESS_WORDS,
};
use second::state::{Pair, Slot, QUEUE_CAPACITY};
use second::table::{
    pair_at, run_at, AREAS_FROM, BREAK, DRIVERS_FROM, QUEUED, SLOT_COUNT, TABLE_WORDS,
};

use crate::fold::{Entry, Piece};
use crate::layout::JOINED;
use crate::names;

/// Stands behind what is not zero where only zeros may be.
const ONLY_ZEROS: &str = "  ! only 0 may stand here";

/// What is said behind a value, in one line.
pub fn mark(text: &str) -> String {
    let (spaces, words) = text.split_at(text.len() - text.trim_start().len());
    String::from(spaces) + &words.replace(' ', &String::from(JOINED))
}

/// What stands where in words of any length: those that are missing are read as zeros, those past the end are left out.
pub struct Reading {
    words: Vec<u32>,
    /// How many of them there are.
    there: usize,
    /// By the proved check.
    pub well_formed: bool,
}

impl Reading {
    pub fn new(words: &[u32]) -> Reading {
        let mut table = vec![0; TABLE_WORDS];
        let there = words.len().min(TABLE_WORDS);
        table[..there].copy_from_slice(&words[..there]);
        Reading { words: table, there, well_formed: makvluria::is_well_formed(words) }
    }

    /// All words of a table.
    pub fn words(&self) -> &[u32] {
        &self.words
    }

    /// The words of a row that begins there.
    pub fn row<const WORDS: usize>(&self, at: usize) -> [u32; WORDS] {
        std::array::from_fn(|word| self.words[at + word])
    }

    /// How many processes have rows in use.
    pub fn processes(&self) -> usize {
        (self.words[0] as usize).min(MAX_PROCESSES)
    }

    /// Whether the words go on past this place.
    pub fn has_word(&self, at: usize) -> bool {
        at < self.there
    }

    /// How many drivers have rows in use.
    pub fn drivers(&self) -> usize {
        (self.words[DRIVERS_FROM] as usize).min(MAX_DRIVERS)
    }

    pub fn process(&self, index: usize) -> ProcessBoard {
        ProcessBoard::from_words(&self.row(AREAS_FROM + index * PROCESS_WORDS))
    }

    pub fn driver(&self, place: usize) -> DriverBoard {
        DriverBoard::from_words(&self.row(DRIVERS_FROM + 1 + place * DRIVER_WORDS))
    }

    /// A driver by its place, and its number if the board has one there and the words go so far.
    pub fn driver_name(&self, place: u32) -> String {
        let row = DRIVERS_FROM + 1 + (place as usize).saturating_mul(DRIVER_WORDS);
        if place as usize >= self.drivers() {
            format!("driver {place} (none on the board)")
        } else if self.has_word(row) {
            format!("driver {place} (0x{:X})", self.driver(place as usize).number.0)
        } else {
            format!("driver {place}")
        }
    }

    /// Whether a driver's word says that it is shared. Only 1 may stand there for that; any other number but 0 is taken for it.
    pub fn is_shared(&self, place: usize) -> bool {
        self.row::<DRIVER_WORDS>(DRIVERS_FROM + 1 + place * DRIVER_WORDS)[field::SHARED] != 0
    }

    /// Whether the board has this slot.
    pub fn has(&self, Slot { kind, driver: DriverPlace(place), number }: Slot) -> bool {
        place < self.drivers() && number < self.driver(place).slots(kind)
    }

    /// Every slot of a kind, those that the board does not have among them, in the order of the words.
    pub fn slots_of(kind: SlotKind) -> impl Iterator<Item = Slot> {
        (0..SLOT_COUNT).map(names::slot_at).filter(move |slot| slot.kind == kind)
    }

    /// Where a slot's pair stands in the table.
    pub fn pair_place(process: usize, slot: Slot) -> usize {
        run_at(process) + pair_at(slot)
    }

    pub fn pair(&self, process: usize, slot: Slot) -> Pair {
        self.row(Reading::pair_place(process, slot))
    }

    pub fn app_break(&self, process: usize) -> u32 {
        self.words[run_at(process) + BREAK]
    }

    /// How many rows of a process's queue are in use.
    pub fn queued(&self, process: usize) -> usize {
        (self.words[run_at(process) + QUEUED] as usize).min(QUEUE_CAPACITY)
    }

    pub fn is_zero(&self, words: Range<usize>) -> bool {
        self.words[words].iter().all(|&word| word == 0)
    }

    /// Words by their name. A mark stands behind them if they are not in use and not zero.
    pub fn piece(
        &self,
        words: Range<usize>,
        name: impl Into<String>,
        value: String,
        in_use: bool,
    ) -> Piece {
        let marked = !in_use && !self.is_zero(words.clone());
        let mark = if marked { mark(ONLY_ZEROS) } else { String::new() };
        Piece::Entry(Entry::named(words, name, value + &mark))
    }

    /// One word by its name.
    pub fn word_piece(&self, at: usize, name: &str, value: String, in_use: bool) -> Piece {
        self.piece(at..at + 1, name, value, in_use)
    }
}

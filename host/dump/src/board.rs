//! The board's part of a table, and the claims.

use second::board::{field, DRIVER_WORDS, MAX_SLOTS, PROCESS_WORDS};
use second::table::{AREAS_FROM, CLAIMS_FROM, CLAIM_WORDS, DRIVERS_FROM};
use second::text::names::Style;
use second::text::value::show;

use crate::fold::{Entry, Piece, Zeros};
use crate::layout::{limited, JOINED};
use crate::names;
use crate::reading::{mark, Reading};

/// A count, which can be beyond what there are rows for.
pub fn count_word(reading: &Reading, at: usize, most: usize) -> Piece {
    reading.word_piece(at, &names::word(at), limited(reading.words()[at], most), true)
}

pub fn process_row(reading: &Reading, process: usize, pieces: &mut Vec<Piece>) {
    let from = AREAS_FROM + process * PROCESS_WORDS;
    let words = from..from + PROCESS_WORDS;
    let in_use = process < reading.processes();
    if !in_use && reading.is_zero(words.clone()) {
        return pieces.push(Piece::Entry(Entry::zeros(words, Zeros::Processes)));
    }
    let which = if in_use { " on the board" } else { ", which the board does not have" };
    pieces.push(Piece::heading(format!("process {process}{which}")));
    for (at, (short, what)) in words.zip(names::PROCESS) {
        let name = if what.is_empty() { String::from(short) } else { format!("{short}, {what}") };
        let value = match at - from {
            field::PERMISSIONS => permissions(reading, reading.words()[at]),
            _ => show(Style::Address, reading.words()[at]),
        };
        pieces.push(reading.word_piece(at, &name, value, in_use));
    }
}

/// The mask and, if the words go as far as to say which there are, the driver of each bit, and the bits that are no driver's.
fn permissions(reading: &Reading, mask: u32) -> String {
    if !reading.has_word(DRIVERS_FROM) {
        return format!("0x{mask:X}");
    }
    let set = (0..u32::BITS).filter(|place| mask >> place & 1 == 1);
    let (drivers, others): (Vec<u32>, Vec<u32>) =
        set.partition(|&place| (place as usize) < reading.drivers());
    let list = |places: &[u32], name: &dyn Fn(u32) -> String| {
        places.iter().map(|&place| name(place)).collect::<Vec<_>>().join(", ")
    };
    let drivers = match drivers.as_slice() {
        [] => String::from("no driver"),
        drivers => list(drivers, &|place| reading.driver_name(place)),
    };
    match others.as_slice() {
        [] => format!("0x{mask:X}, {drivers}"),
        others => {
            let others = list(others, &|place| place.to_string());
            format!("0x{mask:X}, {drivers}{}{JOINED}{others}", mark("  ! no driver at"))
        }
    }
}

pub fn driver_row(reading: &Reading, place: usize) -> Piece {
    let from = DRIVERS_FROM + 1 + place * DRIVER_WORDS;
    let words = from..from + DRIVER_WORDS;
    let in_use = place < reading.drivers();
    if !in_use && reading.is_zero(words.clone()) {
        return Piece::Entry(Entry::zeros(words, Zeros::Drivers));
    }
    let [number, slots @ .., shared] = reading.row::<DRIVER_WORDS>(from);
    let [subscribe, read_write, read_only] = slots.map(slot_count);
    let value = [
        format!("number 0x{number:X}"),
        format!("subscribe {subscribe}"),
        format!("read-write {read_write}"),
        format!("read-only {read_only}"),
        format!("shared {shared}"),
    ]
    .map(|field| mark(&field))
    .join(" ");
    reading.piece(words, format!("driver {place}"), value, in_use)
}

fn slot_count(slots: u32) -> String {
    if slots > MAX_SLOTS {
        format!("{slots} (beyond {MAX_SLOTS})")
    } else {
        slots.to_string()
    }
}

pub fn claim_row(reading: &Reading, place: usize) -> Piece {
    let from = CLAIMS_FROM + place * CLAIM_WORDS;
    let words = from..from + CLAIM_WORDS;
    let in_use = place < reading.drivers();
    let shared = in_use && reading.is_shared(place);
    if !shared && reading.is_zero(words.clone()) {
        let zeros = if in_use { Zeros::Unclaimable } else { Zeros::Claims };
        return Piece::Entry(Entry::zeros(words, zeros));
    }
    let [owner, latch] = reading.row(from);
    let value = format!("owner {}, latch {}", owner_name(reading, owner), signed(latch));
    reading.piece(words, reading.driver_name(place as u32), value, shared)
}

/// Nobody, or a process with the word that stands for it.
fn owner_name(reading: &Reading, owner: u32) -> String {
    match owner.checked_sub(1) {
        None => String::from("nobody"),
        Some(process) if (process as usize) < reading.processes() => {
            format!("process {process} (word {owner})")
        }
        Some(process) => format!("process {process} (word {owner}), which the board does not have"),
    }
}

/// A number in two's complement, and its word if that looks different.
fn signed(word: u32) -> String {
    match word as i32 {
        number if number < 0 => format!("{number} (0x{word:08X})"),
        number => number.to_string(),
    }
}

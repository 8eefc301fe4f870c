//! A process's run: status, break, slots and queue.

use second::board::SlotKind;
use second::state::{Buffer, Slot, QUEUE_CAPACITY};
use second::table::{
    run_at, BREAK, EXITED, PAIR_WORDS, QUEUED, QUEUE_FROM, RUNNING, RUN_WORDS, STATUS,
    UPCALL_WORDS, WAITING,
};
use second::text::names::Style;
use second::text::value::show;

use crate::fold::{Entry, Piece, Zeros};
use crate::layout::limited;
use crate::reading::Reading;
use crate::{buffers, names};

/// All words of a process's run.
pub fn run(reading: &Reading, process: usize, pieces: &mut Vec<Piece>) {
    let words = run_at(process)..run_at(process) + RUN_WORDS;
    let in_use = process < reading.processes();
    if !in_use && reading.is_zero(words.clone()) {
        let run = Entry::zeros(words, Zeros::Runs);
        // One heading for all that stand side by side.
        if !matches!(pieces.last(), Some(Piece::Entry(last)) if last.said == run.said) {
            pieces.push(Piece::heading("other processes"));
        }
        return pieces.push(Piece::Entry(run));
    }
    let which = if in_use { "" } else { ", which the board does not have" };
    pieces.push(Piece::heading(format!("process {process}{which}")));
    head(reading, process, in_use, pieces);
    for kind in SlotKind::ALL {
        pieces.extend(Reading::slots_of(kind).map(|slot| pair(reading, process, in_use, slot)));
    }
    for row in 0..QUEUE_CAPACITY {
        upcall(reading, process, in_use && row < reading.queued(process), row, pieces);
    }
}

/// Status, break and how many upcalls are queued.
fn head(reading: &Reading, process: usize, in_use: bool, pieces: &mut Vec<Piece>) {
    let from = run_at(process);
    let [status, app_break, queued] = reading.row(from);
    let status = match status {
        RUNNING => format!("{status}, running"),
        WAITING => format!("{status}, waiting"),
        EXITED => format!("{status}, exited"),
        _ => format!("{status}, which is no status"),
    };
    let queued = limited(queued, QUEUE_CAPACITY);
    let app_break = show(Style::Address, app_break);
    pieces.push(reading.word_piece(from + STATUS, "status", status, in_use));
    pieces.push(reading.word_piece(from + BREAK, "break", app_break, in_use));
    pieces.push(reading.word_piece(from + QUEUED, "queued upcalls", queued, in_use));
}

/// What a slot holds.
fn pair(reading: &Reading, process: usize, in_use: bool, slot: Slot) -> Piece {
    let from = Reading::pair_place(process, slot);
    let words = from..from + PAIR_WORDS;
    let on_board = in_use && reading.has(slot);
    let pair @ [first, second] = reading.pair(process, slot);
    if pair == [0, 0] {
        return Piece::Entry(Entry::zeros(words, Zeros::Slots { kind: slot.kind, on_board }));
    }
    let value = match slot.kind {
        _ if !on_board => format!("0x{first:08X}, {}", show(Style::Word, second)),
        SlotKind::Subscribe => upcall_text(pair),
        _ => buffers::text(Buffer::from(pair), buffers::area(reading, process, slot)),
    };
    let mut name = names::slot(slot);
    if reading.has(slot) {
        name += &format!(" (0x{:X})", reading.driver(slot.driver.0).number.0);
    }
    reading.piece(words, name, value, on_board)
}

fn upcall_text([pointer, data]: [u32; 2]) -> String {
    let null = if pointer == 0 { " (null)" } else { "" };
    format!("pointer 0x{pointer:08X}{null}, data {}", show(Style::Word, data))
}

/// A row of the queue, in two entries: they are too much for one line.
fn upcall(reading: &Reading, process: usize, in_use: bool, row: usize, pieces: &mut Vec<Piece>) {
    let from = run_at(process) + QUEUE_FROM + row * UPCALL_WORDS;
    let words = from..from + UPCALL_WORDS;
    if !in_use && reading.is_zero(words.clone()) {
        return pieces.push(Piece::Entry(Entry::zeros(words, Zeros::Upcalls)));
    }
    // The driver and the slot.
    const NAMED: usize = 2;
    let [driver, slot, arguments @ .., pointer, data] = reading.row::<UPCALL_WORDS>(from);
    let place = format!("{}, slot {slot}", reading.driver_name(driver));
    let arguments = arguments.map(|argument| show(Style::Word, argument)).join(", ");
    let (place_words, rest) = (from..from + NAMED, from + NAMED..words.end);
    pieces.push(reading.piece(place_words, format!("upcall {row}"), place, in_use));
    let arguments = format!("  arguments {arguments}");
    pieces.push(reading.piece(rest, arguments, upcall_text([pointer, data]), in_use));
}

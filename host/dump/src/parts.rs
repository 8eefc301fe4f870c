//! All parts of a table, in the order of the words; and what is past its end, or cut off.

use std::ops::Range;

use second::board::{MAX_DRIVERS, MAX_PROCESSES};
use second::table::{run_at, DRIVERS_FROM, RUN_WORDS, TABLE_WORDS};
use second::text::names::Style;
use second::text::value::show;

use crate::board::{claim_row, count_word, driver_row, process_row};
use crate::fold::{Entry, Piece, Zeros};
use crate::reading::Reading;
use crate::run::run;
use crate::{names, picture};

/// The entries of a whole table, under headings, with a picture after each process's run that is there to its end.
pub fn pieces(reading: &Reading, length: usize) -> Vec<Piece> {
    let mut pieces = vec![Piece::heading("board"), count_word(reading, 0, MAX_PROCESSES)];
    for process in 0..MAX_PROCESSES {
        process_row(reading, process, &mut pieces);
    }
    pieces.extend([Piece::heading("drivers"), count_word(reading, DRIVERS_FROM, MAX_DRIVERS)]);
    pieces.extend((0..MAX_DRIVERS).map(|place| driver_row(reading, place)));
    pieces.push(Piece::heading("claims"));
    pieces.extend((0..MAX_DRIVERS).map(|place| claim_row(reading, place)));
    for process in 0..MAX_PROCESSES {
        run(reading, process, &mut pieces);
        if process < reading.processes() && run_at(process) + RUN_WORDS <= length {
            pieces.push(Piece::Lines(picture::of_process(reading, process)));
        }
    }
    pieces
}

/// The words of entries that the table does not have are left out, and a row that its end cuts is said word by word.
pub fn cut(pieces: Vec<Piece>, words: &[u32]) -> Vec<Piece> {
    let there = |piece: Piece| match piece {
        Piece::Entry(entry) => entry_to_end(entry, words),
        other => vec![other],
    };
    pieces.into_iter().flat_map(there).collect()
}

fn entry_to_end(entry: Entry, words: &[u32]) -> Vec<Piece> {
    let Range { start, end } = entry.words;
    if end <= words.len() {
        return vec![Piece::Entry(entry)];
    }
    let each = (start..words.len()).map(|at| match words[at] {
        0 => Entry::zeros(at..at + 1, Zeros::Cut),
        word => Entry::named(at..at + 1, names::word(at), show(Style::Word, word)),
    });
    each.map(Piece::Entry).collect()
}

/// Words past the end of a table: zeros side by side together, and the first few others.
pub fn extra(words: &[u32]) -> Vec<Piece> {
    const MOST_SHOWN: usize = 8;
    let mut pieces = vec![Piece::heading(format!("past the end, which is at word {TABLE_WORDS}"))];
    let (mut at, mut shown) = (TABLE_WORDS, 0);
    let (_, past) = words.split_at_checked(TABLE_WORDS).unwrap_or_default();
    for alike in past.chunk_by(|one, next| [one, next] == [&0, &0]) {
        let these = at..at + alike.len();
        at = these.end;
        if alike[0] == 0 {
            pieces.push(Piece::Entry(Entry::zeros(these, Zeros::Extra)));
        } else if shown < MOST_SHOWN {
            shown += 1;
            let (name, value) = (names::word(these.start), show(Style::Word, alike[0]));
            pieces.push(Piece::Entry(Entry::named(these, name, value)));
        } else {
            let rest = these.start..words.len();
            let value = format!("{}, not shown", rest.len());
            pieces.push(Piece::Entry(Entry::named(rest, "more words", value)));
            break;
        }
    }
    pieces
}

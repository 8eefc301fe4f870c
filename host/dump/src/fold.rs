//! The entries of a dump, and zeros said together.

use std::ops::Range;

use second::board::SlotKind;

use crate::layout::{count, labelled, NAME};
use crate::names;

/// What stands between two headings.
pub enum Piece {
    Heading(String),
    Entry(Entry),
    /// Lines that stand as they are.
    Lines(String),
}

impl Piece {
    pub fn heading(text: impl Into<String>) -> Piece {
        Piece::Heading(text.into())
    }
}

/// Words of the table, and what is said of them.
#[derive(Clone, Debug, PartialEq, Eq)]
pub struct Entry {
    pub words: Range<usize>,
    pub said: Said,
}

#[derive(Clone, Debug, PartialEq, Eq)]
pub enum Said {
    Named {
        name: String,
        value: String,
    },
    /// Zeros of one row or slot, said together with those beside it.
    Zeros(Zeros),
}

/// Of what the zeros are.
#[derive(Clone, Copy, Debug, PartialEq, Eq)]
pub enum Zeros {
    /// Rows that the counts leave unused.
    Processes,
    Drivers,
    Claims,
    Runs,
    Upcalls,
    /// Claims on drivers that are not shared.
    Unclaimable,
    Slots {
        kind: SlotKind,
        on_board: bool,
    },
    /// Words of a row that the end of the words cuts.
    Cut,
    /// Words past the end of a table.
    Extra,
}

impl Entry {
    pub fn named(words: Range<usize>, name: impl Into<String>, value: impl Into<String>) -> Entry {
        Entry { words, said: Said::Named { name: name.into(), value: value.into() } }
    }

    pub fn zeros(words: Range<usize>, zeros: Zeros) -> Entry {
        Entry { words, said: Said::Zeros(zeros) }
    }
}

/// The text of the pieces. A heading without an entry is left out.
pub fn write(pieces: &[Piece]) -> String {
    let mut out = String::new();
    let mut heading = None;
    let mut at = 0;
    while let Some(piece) = pieces.get(at) {
        at += 1;
        match piece {
            Piece::Heading(text) => heading = Some(text),
            Piece::Lines(lines) => out += lines,
            Piece::Entry(entry) => {
                if let Some(text) = heading.take() {
                    out += &format!("\n{text}\n");
                }
                let alike = alike(&pieces[at - 1..]);
                out += &write_entry(entry, &pieces[at - 1..at - 1 + alike]);
                at += alike - 1;
            }
        }
    }
    out
}

/// How many of the pieces, from the first on, are said together.
fn alike(pieces: &[Piece]) -> usize {
    let zeros = |piece: &Piece| match piece {
        Piece::Entry(Entry { said: Said::Zeros(zeros), .. }) => Some(zeros.class()),
        _ => None,
    };
    match zeros(&pieces[0]) {
        None => 1,
        class => pieces.iter().take_while(|piece| zeros(piece) == class).count(),
    }
}

/// One entry, or zeros that are alike.
fn write_entry(entry: &Entry, alike: &[Piece]) -> String {
    match &entry.said {
        Said::Named { name, value } => {
            labelled(&places(&entry.words), &format!("{name:NAME$}  {value}"))
        }
        Said::Zeros(zeros) => {
            let last = match alike.last() {
                Some(Piece::Entry(last)) => last,
                _ => entry,
            };
            let words = entry.words.start..last.words.end;
            let on_board = alike.iter().filter(|piece| is_on_board(piece)).count();
            labelled(&places(&words), &zeros.text(words.len(), alike.len(), on_board))
        }
    }
}

fn is_on_board(piece: &Piece) -> bool {
    let slot = match piece {
        Piece::Entry(Entry { said: Said::Zeros(zeros), .. }) => *zeros,
        _ => return false,
    };
    matches!(slot, Zeros::Slots { on_board: true, .. })
}

/// The words' places, the end not included.
fn places(words: &Range<usize>) -> String {
    match words.len() {
        1 => words.start.to_string(),
        _ => format!("{}..{}", words.start, words.end),
    }
}

impl Zeros {
    /// What is said together: a kind's slots, on the board or not.
    fn class(self) -> Zeros {
        match self {
            Zeros::Slots { kind, .. } => Zeros::Slots { kind, on_board: false },
            other => other,
        }
    }

    fn text(self, words: usize, rows: usize, on_board: usize) -> String {
        match self {
            Zeros::Processes => not_on_board(rows, "process", "processes"),
            Zeros::Drivers => not_on_board(rows, "driver", "drivers"),
            Zeros::Claims => not_on_board(rows, "claim on a driver", "claims on drivers"),
            Zeros::Runs => not_on_board(rows, "run of a process", "runs of processes"),
            Zeros::Upcalls => {
                format!(
                    "{}, all 0",
                    count(rows, "unused row for an upcall", "unused rows for upcalls")
                )
            }
            Zeros::Unclaimable => {
                let claims =
                    count(rows, "claim on an unshared driver", "claims on unshared drivers");
                format!("{claims}, all 0")
            }
            Zeros::Slots { kind, .. } => slots_text(kind, rows, on_board),
            Zeros::Cut => format!("{} of a row that is cut, all 0", count(words, "word", "words")),
            Zeros::Extra => format!("{} past the end, all 0", count(words, "word", "words")),
        }
    }
}

fn not_on_board(rows: usize, one: &str, many: &str) -> String {
    format!("{} that the board does not have, all 0", count(rows, one, many))
}

fn slots_text(kind: SlotKind, slots: usize, on_board: usize) -> String {
    let kind = names::kind(kind);
    let slots = count(slots, &format!("{kind} slot"), &format!("{kind} slots"));
    let board_has = match on_board {
        0 => String::from("none of them on the board"),
        number => format!("{number} of them on the board"),
    };
    format!("{slots}, all (0, 0), {board_has}")
}

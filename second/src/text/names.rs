//! What the numbers of a record are called, in the record's order. Listing,
//! reading back and the report of a break all go by this table.

use crate::board::{DRIVER_WORDS, PROCESS_WORDS};
use crate::trace::{kind, MAX_CLASS, MAX_DEPOSIT_BYTES};

use Style::{Address, Bytes, Decimal, Hex, Signed, Word};

/// How a value is written. The reader takes decimal and hex for any number.
#[derive(Clone, Copy, Debug, PartialEq, Eq)]
pub enum Style {
    Decimal,
    /// Hex with as many digits as it needs.
    Hex,
    /// Hex with eight digits.
    Address,
    /// Of no known meaning: in decimal while it is small, then like an address.
    Word,
    /// Two's complement, in decimal.
    Signed,
    /// In the record a length and that many bytes; only the bytes are written.
    Bytes,
}

/// Whether the name of a field stands before its value.
#[derive(Clone, Copy, Debug, PartialEq, Eq)]
pub enum Said {
    Named,
    /// The value alone.
    Bare,
    /// Named, but left out if it is 0: registers that a call does not use.
    UnlessZero,
}

/// One number of a record.
#[derive(Clone, Copy, Debug, PartialEq, Eq)]
pub struct Field {
    pub name: &'static str,
    pub style: Style,
    pub said: Said,
    /// The largest value that a record can have here.
    pub most: u32,
}

/// A way to say a record, or the rest of one.
#[derive(Debug, PartialEq, Eq)]
pub struct Form {
    /// One or more words, with single spaces.
    pub name: &'static str,
    /// The first numbers of the record, which the name stands for.
    pub says: &'static [u32],
    /// The numbers after those.
    pub fields: &'static [Field],
    /// How the record goes on: the first of these that fits. The last one says
    /// no number, so that it always fits. Empty if the record ends here.
    pub rest: &'static [Form],
    /// How the values that the answer gives back are written; others are words.
    pub gives: &'static [Style],
}

/// The step records, by kind.
pub const STEPS: &[Form] = &[
    Form { rest: CALLS, ..form("call", &[kind::CALL], &[PROCESS]) },
    form(
        "event",
        &[kind::EVENT],
        &[
            PROCESS,
            DRIVER,
            SLOT,
            field("arguments", Word),
            bare("second argument", Word),
            bare("third argument", Word),
        ],
    ),
    form("resume", &[kind::RESUME], &[PROCESS]),
    form(
        "deposit",
        &[kind::DEPOSIT],
        &[PROCESS, DRIVER, SLOT, OFFSET, at_most(MAX_DEPOSIT_BYTES, field("bytes", Bytes))],
    ),
    form("fetch", &[kind::FETCH], &[PROCESS, DRIVER, SLOT, OFFSET, field("length", Decimal)]),
    form("latch", &[kind::LATCH], &[DRIVER, field("peak", Signed)]),
];

/// Calls after their process: class and registers, the known ones first.
const CALLS: &[Form] = &[
    form("yield-no-wait", &[0, 0], &[field("field", Address), R2, R3]),
    form("yield-wait", &[0, 1], &[R1, R2, R3]),
    form("yield number", &[0], &[bare("number", Word), R1, R2, R3]),
    giving(
        &[Address, Word],
        form("subscribe", &[1], &[DRIVER, SLOT, field("pointer", Address), field("data", Word)]),
    ),
    form(
        "command",
        &[2],
        &[DRIVER, field("number", Word), unless_zero("argument-0"), unless_zero("argument-1")],
    ),
    giving(BUFFER, form("read-write allow", &[3], ALLOW)),
    giving(BUFFER, form("read-only allow", &[4], ALLOW)),
    form("memop break-to", &[5, 0], &[bare("address", Address), R2, R3]),
    giving(&[Address], form("memop break-by", &[5, 1], &[bare("change", Signed), R2, R3])),
    giving(&[Address], form("memop ram-start", &[5, 2], &[R1, R2, R3])),
    giving(&[Address], form("memop ram-end", &[5, 3], &[R1, R2, R3])),
    giving(&[Address], form("memop flash-start", &[5, 4], &[R1, R2, R3])),
    giving(&[Address], form("memop flash-end", &[5, 5], &[R1, R2, R3])),
    giving(&[Address], form("memop grant-start", &[5, 6], &[R1, R2, R3])),
    form("memop operation", &[5], &[bare("operation", Word), R1, R2, R3]),
    form("exit-terminate", &[6, 0], &[CODE, R2, R3]),
    form("exit-restart", &[6, 1], &[CODE, R2, R3]),
    form("exit number", &[6], &[bare("number", Word), R1, R2, R3]),
    form("class", &[], &[at_most(MAX_CLASS, bare("class", Decimal)), R0, R1, R2, R3]),
];

/// A process of a board. Its index is only in the text.
pub const BOARD_PROCESS: Form = form(
    "process",
    &[],
    &[
        bare("index", Decimal),
        field("RAM", Address),
        field("to", Address),
        field("grant", Address),
        field("break", Address),
        field("flash", Address),
        field("to", Address),
        field("permissions", Hex),
    ],
);

/// A driver of a board.
pub const BOARD_DRIVER: Form = form(
    "driver",
    &[],
    &[
        bare("driver number", Hex),
        field("subscribe", Decimal),
        field("read-write", Decimal),
        field("read-only", Decimal),
        field("shared", Decimal),
    ],
);

/// The line of a board, and the word before the words of one whose counts do
/// not fit its length: they cannot be told apart.
pub const BOARD: &str = "board";
pub const BOARD_WORDS: &str = "words";
/// A list of bytes or words that has none.
pub const NONE: &str = "none";

const _: () = assert!(BOARD_PROCESS.fields.len() == 1 + PROCESS_WORDS);
const _: () = assert!(BOARD_DRIVER.fields.len() == DRIVER_WORDS);

const PROCESS: Field = field("process", Decimal);
const DRIVER: Field = field("driver", Hex);
const SLOT: Field = field("slot", Decimal);
const OFFSET: Field = field("offset", Decimal);
const CODE: Field = field("code", Decimal);
const R0: Field = unless_zero("r0");
const R1: Field = unless_zero("r1");
const R2: Field = unless_zero("r2");
const R3: Field = unless_zero("r3");

const ALLOW: &[Field] = &[DRIVER, SLOT, field("address", Address), field("size", Decimal)];
const BUFFER: &[Style] = &[Address, Decimal];

impl Form {
    /// The form of these numbers.
    pub fn of_numbers(forms: &'static [Form], numbers: &[u32]) -> Option<&'static Form> {
        forms.iter().find(|form| numbers.starts_with(form.says))
    }

    /// Every field after the numbers that the name stands for, whatever the
    /// values of the fields are.
    pub fn all_fields(&self) -> impl Iterator<Item = &'static Field> {
        let general = self.rest.last().map_or(&[][..], |rest| rest.fields);
        self.fields.iter().chain(general)
    }
}

const fn form(name: &'static str, says: &'static [u32], fields: &'static [Field]) -> Form {
    Form { name, says, fields, rest: &[], gives: &[] }
}

const fn giving(gives: &'static [Style], form: Form) -> Form {
    Form { gives, ..form }
}

const fn field(name: &'static str, style: Style) -> Field {
    Field { name, style, said: Said::Named, most: u32::MAX }
}

const fn bare(name: &'static str, style: Style) -> Field {
    Field { said: Said::Bare, ..field(name, style) }
}

const fn unless_zero(name: &'static str) -> Field {
    Field { said: Said::UnlessZero, ..field(name, Word) }
}

const fn at_most(most: u32, field: Field) -> Field {
    Field { most, ..field }
}

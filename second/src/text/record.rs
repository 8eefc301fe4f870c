//! Records as plain numbers, and what is wrong where a record breaks.

use std::fmt;

use crate::board::MAX_BOARD_WORDS;
use crate::text::names::{Field, Form, Style, STEPS};
use crate::text::value::{show_bytes, show_offset};
use crate::trace::{read_number, BadNumber, MAX_GROUPS};

/// The numbers of a record, its kind first, and the bytes after them.
#[derive(Clone, Debug, PartialEq, Eq)]
pub struct Record<'a> {
    pub numbers: Vec<u32>,
    pub bytes: &'a [u8],
}

/// Why a record is broken, unknown or cut.
#[derive(Clone, Debug, PartialEq, Eq)]
pub struct Fault {
    pub what: String,
    pub found: String,
    /// The offset at which it was found.
    pub place: usize,
    pub expected: String,
}

impl fmt::Display for Fault {
    fn fmt(&self, out: &mut fmt::Formatter) -> fmt::Result {
        let Fault { what, found, place, expected } = self;
        write!(out, "{what}: found {found} at {}, expected {expected}", show_offset(*place))
    }
}

/// The words of the board record that the trace begins with.
pub fn scan_board(trace: &[u8]) -> Result<Vec<u32>, Fault> {
    let mut scanner = Scanner { trace, place: 0 };
    let count = scanner.number("the count of board words")?;
    let most = MAX_BOARD_WORDS as u32;
    if count > most {
        let expected = String::from("the count of board words");
        return Err(above("board count", most, count, 0, expected));
    }
    (1..=count)
        .map(|word| scanner.number(&format!("word {word} of {count} of the board")))
        .collect()
}

/// The step record at `place`.
pub fn scan_step(trace: &[u8], place: usize) -> Result<Record<'_>, Fault> {
    let mut scanner = Scanner { trace, place };
    let mut record = Record { numbers: vec![scanner.number("the kind of a step")?], bytes: &[] };
    let Some(form) = Form::of_numbers(STEPS, &record.numbers) else {
        return Err(unknown_kind(record.numbers[0], place));
    };
    for field in form.all_fields() {
        let value = scanner.field(form, field)?;
        record.numbers.push(value);
        if field.style == Style::Bytes {
            record.bytes = scanner.bytes(form, value as usize)?;
        }
    }
    Ok(record)
}

struct Scanner<'a> {
    trace: &'a [u8],
    place: usize,
}

impl<'a> Scanner<'a> {
    fn number(&mut self, expected: &str) -> Result<u32, Fault> {
        match read_number(&self.trace[self.place..]) {
            Ok((number, length)) => {
                self.place += length;
                Ok(number)
            }
            Err(bad) => Err(self.bad_number(bad, String::from(expected))),
        }
    }

    fn field(&mut self, form: &Form, field: &Field) -> Result<u32, Fault> {
        let place = self.place;
        let expected = format!("the {} of {}", field.name, with_article(form.name));
        let value = self.number(&expected)?;
        if value > field.most {
            let what = format!("{} {}", form.name, field.name);
            return Err(above(&what, field.most, value, place, expected));
        }
        Ok(value)
    }

    fn bytes(&mut self, form: &Form, length: usize) -> Result<&'a [u8], Fault> {
        let rest = &self.trace[self.place..];
        let Some(bytes) = rest.get(..length) else {
            let name = with_article(form.name);
            return Err(self.cut(format!("byte {} of {length} of {name}", rest.len() + 1)));
        };
        self.place += length;
        Ok(bytes)
    }

    fn bad_number(&self, bad: BadNumber, expected: String) -> Fault {
        let what = match bad {
            BadNumber::Cut => return self.cut(expected),
            BadNumber::NotShortest => String::from("number not in its shortest form"),
            BadNumber::Over32Bits => format!("number above {}", u32::MAX),
            BadNumber::TooManyGroups => format!("number of more than {MAX_GROUPS} groups"),
        };
        let rest = &self.trace[self.place..];
        let more = rest.iter().take(MAX_GROUPS).take_while(|&&byte| byte >= 0x80).count();
        let found = show_bytes(&rest[..rest.len().min(more + 1)]);
        Fault { what, found, place: self.place, expected }
    }

    fn cut(&self, expected: String) -> Fault {
        let (what, found) = (String::from("cut"), String::from("the end"));
        Fault { what, found, place: self.trace.len(), expected }
    }
}

fn above(what: &str, most: u32, found: u32, place: usize, expected: String) -> Fault {
    Fault { what: format!("{what} above {most}"), found: found.to_string(), place, expected }
}

fn unknown_kind(kind: u32, place: usize) -> Fault {
    let (what, found) = (String::from("unknown kind"), kind.to_string());
    Fault { what, found, place, expected: format!("0 to {}", STEPS.len() - 1) }
}

fn with_article(name: &str) -> String {
    let article = if name.starts_with(['a', 'e', 'i', 'o', 'u']) { "an" } else { "a" };
    format!("{article} {name}")
}

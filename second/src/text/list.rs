//! The listing of a trace: each record in words, its answer beside it.

use std::io::{self, Write};

use crate::board::split_words;
use crate::state::Machine;
use crate::step::{Answer, Refusal};
use crate::text::answer::{show_outcome, show_refusal};
use crate::text::names::{
    Field, Form, Said, Style, BOARD, BOARD_DRIVER, BOARD_PROCESS, BOARD_WORDS, STEPS,
};
use crate::text::record::{scan_board, scan_step, Fault, Record};
use crate::text::value::{show, show_bytes, show_list, show_offset};
use crate::trace::{Reader, MAX_TRACE_BYTES};

/// Where the answers stand, if the records before them are no longer.
const STEP_WIDTH: usize = 80;

/// Lists a trace up to its end or to the first record that is broken. After a
/// refused board no step is run, but all are listed.
pub fn list(trace: &[u8], out: &mut impl Write) -> io::Result<()> {
    if trace.len() > MAX_TRACE_BYTES {
        return write_too_long(out);
    }
    let mut records = match Records::new(trace) {
        Ok(records) => records,
        Err(fault) => return write_fault(out, 0, &fault),
    };
    list_board(records.board(), &records.start_answer(), out)?;
    loop {
        let offset = records.place();
        match records.make_step() {
            Ok(None) => return Ok(()),
            Ok(Some(Made { text, answer, .. })) => write_record(out, offset, &text, &answer)?,
            Err(fault) => return write_fault(out, offset, &fault),
        }
    }
}

/// A trace whose steps are made one after the other, each told in words.
pub struct Records<'a> {
    trace: &'a [u8],
    board: Vec<u32>,
    reader: Reader<'a>,
    machine: Result<Machine, Refusal>,
}

/// A step that has been made.
pub struct Made {
    pub text: String,
    pub answer: String,
    /// None if there was no start.
    pub outcome: Option<Result<Answer, Refusal>>,
}

impl<'a> Records<'a> {
    /// With its board read and started, if it is good.
    pub fn new(trace: &'a [u8]) -> Result<Records<'a>, Fault> {
        let board = scan_board(trace)?;
        let mut reader = Reader::new(trace);
        reader.board().expect("a board without a fault is one");
        Ok(Records { trace, machine: Machine::start(&board), board, reader })
    }

    /// The board's words.
    pub fn board(&self) -> &[u32] {
        &self.board
    }

    /// The state, if there was a start.
    pub fn machine(&self) -> Option<&Machine> {
        self.machine.as_ref().ok()
    }

    /// The offset of the next record.
    pub fn place(&self) -> usize {
        self.reader.place()
    }

    /// What the start gave.
    pub fn start_answer(&self) -> String {
        match &self.machine {
            Ok(_) => String::from("started"),
            Err(refusal) => show_refusal(*refusal),
        }
    }

    /// The next step in words, or None at the end of the trace.
    pub fn next_step(&self) -> Result<Option<String>, Fault> {
        Ok(self.describe_next()?.map(|(text, _)| text))
    }

    /// Makes the next step, if the board was good and there is one.
    pub fn make_step(&mut self) -> Result<Option<Made>, Fault> {
        let Some((text, form)) = self.describe_next()? else {
            return Ok(None);
        };
        let step = self.reader.step().ok().flatten().expect("a record without a fault is a step");
        let Ok(machine) = &mut self.machine else {
            return Ok(Some(Made { text, answer: String::from("not run"), outcome: None }));
        };
        let outcome = machine.step(step);
        let answer = show_outcome(machine, outcome, form.gives);
        Ok(Some(Made { text, answer, outcome: Some(outcome) }))
    }

    fn describe_next(&self) -> Result<Option<(String, &'static Form)>, Fault> {
        if self.reader.is_at_end() {
            return Ok(None);
        }
        scan_step(self.trace, self.place()).map(|record| Some(describe(&record)))
    }
}

/// The listing of a trace, in one piece.
pub fn list_to_string(trace: &[u8]) -> String {
    let mut out = Vec::new();
    list(trace, &mut out).expect("writing to a Vec does not fail");
    String::from_utf8(out).expect("a listing is plain text")
}

fn list_board(words: &[u32], answer: &str, out: &mut impl Write) -> io::Result<()> {
    let Some((processes, drivers)) = split_words(words) else {
        let shown = show_list(words, |&word| show(Style::Word, word));
        return write_record(out, 0, &format!("{BOARD} {BOARD_WORDS} {shown}"), answer);
    };
    write_record(out, 0, BOARD, answer)?;
    for (index, process) in (0..).zip(processes) {
        write_board_line(out, &BOARD_PROCESS, &[&[index], &process[..]].concat())?;
    }
    for driver in drivers {
        write_board_line(out, &BOARD_DRIVER, driver)?;
    }
    Ok(())
}

/// The record in words, and the form that it ends with.
fn describe(record: &Record) -> (String, &'static Form) {
    let mut words = Vec::new();
    let mut numbers = &record.numbers[..];
    let mut forms = STEPS;
    loop {
        let form = Form::of_numbers(forms, numbers).expect("the last form fits");
        let (values, rest) = numbers[form.says.len()..].split_at(form.fields.len());
        words.push(describe_fields(form, values, record.bytes));
        if form.rest.is_empty() {
            return (words.join(" "), form);
        }
        (forms, numbers) = (form.rest, rest);
    }
}

/// The name of the form and its fields with these values.
fn describe_fields(form: &Form, values: &[u32], bytes: &[u8]) -> String {
    let mut text = String::from(form.name);
    for (field, &value) in form.fields.iter().zip(values) {
        text += &describe_field(field, value, bytes);
    }
    text
}

fn describe_field(field: &Field, value: u32, bytes: &[u8]) -> String {
    let shown = match field.style {
        Style::Bytes => show_bytes(bytes),
        style => show(style, value),
    };
    match field.said {
        Said::UnlessZero if value == 0 => String::new(),
        Said::Bare => format!(" {shown}"),
        Said::Named | Said::UnlessZero => format!(" {} {shown}", field.name),
    }
}

fn write_record(out: &mut impl Write, offset: usize, text: &str, answer: &str) -> io::Result<()> {
    writeln!(out, "{}  {text:STEP_WIDTH$} = {answer}", show_offset(offset))
}

/// A process or driver of the board, without an offset: the board is one record.
fn write_board_line(out: &mut impl Write, form: &Form, values: &[u32]) -> io::Result<()> {
    writeln!(out, "        {}", describe_fields(form, values, &[]))
}

/// A comment, so that the reader passes over it.
fn write_fault(out: &mut impl Write, offset: usize, fault: &Fault) -> io::Result<()> {
    writeln!(out, "{}  # {fault}", show_offset(offset))
}

/// A comment too: how many bytes there are is not known here.
fn write_too_long(out: &mut impl Write) -> io::Result<()> {
    const MOST: usize = MAX_TRACE_BYTES;
    writeln!(out, "# too long: found more than {MOST} bytes, expected at most {MOST}")
}

//! The tables of a run over a trace. The proved library makes the run, a record at a time; the second program says each record and its
//! answer in words, and has to write the same line for it.

use makvluria::{Layer, Progress, LINES_BYTES};
use second::board::Board;
use second::fault::BoardFault;
use second::lines::Lines;
use second::text::list::{Made, Records};
use second::text::names::Style;
use second::text::record::Fault;
use second::text::value::show;
use second::trace::MAX_TRACE_BYTES;

use crate::layout::count;
use crate::names;

const NOT_THE_SAME: &str =
    "the second program answers otherwise: the words would not be those of the proved run";

/// Why a step is not made.
#[derive(Clone, Debug, PartialEq, Eq)]
pub enum Stopped {
    /// The record is broken; the run stands before it.
    Broken(String),
    /// The two programs answer otherwise: nothing more can be said of the run.
    Otherwise,
}

impl From<Stopped> for String {
    fn from(stopped: Stopped) -> String {
        match stopped {
            Stopped::Broken(error) => error,
            Stopped::Otherwise => String::from(NOT_THE_SAME),
        }
    }
}

/// A run that has started.
pub struct Run<'a> {
    trace: &'a [u8],
    layer: Box<Layer>,
    records: Records<'a>,
    /// Room for the proved lines of one record.
    room: Vec<u8>,
    steps: usize,
    /// What was made last, and its answer.
    last: String,
}

impl<'a> Run<'a> {
    /// Makes the start; else what is wrong with the trace or its board.
    pub fn start(trace: &'a [u8]) -> Result<Run<'a>, String> {
        if trace.len() > MAX_TRACE_BYTES {
            return Err(format!("the trace is too long: it has more than {MAX_TRACE_BYTES} bytes"));
        }
        let records = Records::new(trace).map_err(|fault| broken(0, &fault))?;
        if let Err(fault) = Board::checked(records.board()) {
            return Err(board_text(records.board(), fault));
        }
        let last = format!("the start (board: {})", records.start_answer());
        let (layer, room) = (Box::new(Layer::new()), vec![0; LINES_BYTES]);
        let mut run = Run { trace, layer, records, room, steps: 0, last };
        run.make(0, b"")?;
        Ok(run)
    }

    /// The byte at which the next record begins.
    pub fn place(&self) -> usize {
        self.records.place()
    }

    pub fn table(&self) -> &[u32] {
        self.layer.table()
    }

    /// Makes the next step. False at the end; an error where it is not made.
    pub fn step(&mut self) -> Result<bool, Stopped> {
        let from = self.place();
        let made = self.records.make_step();
        let made = made.map_err(|fault| Stopped::Broken(broken(from, &fault)))?;
        let Some(Made { text, answer, outcome: Some(outcome) }) = made else {
            return Ok(false);
        };
        let mut lines = Lines::default();
        if let Some(machine) = self.records.machine() {
            lines.outcome(machine, outcome);
        }
        self.make(from, lines.written())?;
        self.steps += 1;
        self.last = format!("step {} ({text}: {answer})", self.steps);
        Ok(true)
    }

    /// Has the library make the record that begins there and ends where the second program has come to.
    fn make(&mut self, from: usize, expected: &[u8]) -> Result<(), Stopped> {
        let to_here = &self.trace[..self.records.place()];
        match self.layer.replay(to_here, from, &mut self.room) {
            Progress::Ended { written } if self.room[..written] == *expected => Ok(()),
            _ => Err(Stopped::Otherwise),
        }
    }

    /// Where the run is: what was made last, and what comes next, a line for each, however long.
    pub fn header(&self) -> String {
        let (place, length) = (self.place(), self.trace.len());
        let here = format!("at byte {place} of {length}, after {}", self.last);
        let next = match self.records.next_step() {
            Ok(Some(text)) => format!("next: step {}, {text}", self.steps + 1),
            Ok(None) => String::from("next: nothing, the trace ends here"),
            Err(fault) => format!("next: a broken record, {fault}"),
        };
        format!("{here}\n{next}\n")
    }

    /// What is wrong with the record that comes next, if it is broken.
    pub fn broken_next(&self) -> Option<String> {
        self.records.next_step().err().map(|fault| broken(self.place(), &fault))
    }
}

/// A run that has come to its end, or to a record that is broken, with what is wrong there.
pub fn to_end(trace: &[u8]) -> Result<(Run<'_>, Option<String>), String> {
    finished(Run::start(trace)?)
}

fn finished(mut run: Run) -> Result<(Run, Option<String>), String> {
    loop {
        match run.step() {
            Ok(true) => (),
            Ok(false) => return Ok((run, None)),
            Err(Stopped::Broken(error)) => return Ok((run, Some(error))),
            Err(otherwise) => return Err(otherwise.into()),
        }
    }
}

/// A run that has come to the record at this byte, and what is wrong with that record. The end of the trace is such a place too.
pub fn to_byte(trace: &[u8], at: usize) -> Result<(Run<'_>, Option<String>), String> {
    let mut run = Run::start(trace)?;
    // Where the record that was made last begins; the board's begins at 0.
    let mut last = 0;
    while run.place() < at {
        let from = run.place();
        match run.step() {
            Ok(true) => last = from,
            Ok(false) => return Err(no_record(at, last, &format!("the trace ends at {from}"))),
            // The table at the broken record can be had.
            Err(Stopped::Broken(error)) => return Err(no_record(at, from, &error)),
            Err(otherwise) => return Err(otherwise.into()),
        }
    }
    match run.place() {
        first if at == 0 => {
            Err(format!("nothing is made yet at byte 0: the first table is at byte {first}"))
        }
        next if next > at => {
            Err(no_record(at, last, &format!("the nearest after it is at {next}")))
        }
        _ => {
            let error = run.broken_next();
            Ok((run, error))
        }
    }
}

/// Why there is no table at a byte, with the nearest record before it and what comes after.
fn no_record(at: usize, before: usize, after: &str) -> String {
    format!("no record begins at byte {at}: the nearest before it is at {before}, {after}")
}

fn broken(at: usize, fault: &Fault) -> String {
    format!("the record at byte {at} is broken: {fault}")
}

/// What is wrong with a board, by the place in its words.
fn board_text(words: &[u32], BoardFault { word, reason }: BoardFault) -> String {
    let at = word.place_in(words);
    let name = names::word(second::table::board_word_at(word));
    match words.get(at) {
        Some(&value) => {
            let value = show(Style::Word, value);
            format!("the board is not good: word {at} of it ({name}) = {value}: {reason}")
        }
        None => {
            let words = count(words.len(), "word", "words");
            format!("the board is not good: it has {words}, and none for {name}: {reason}")
        }
    }
}

#[cfg(test)]
mod tests {
    use super::*;

    const INCIDENT: &[u8] = include_bytes!("../../../examples/incident.trace");

    /// A run whose library has made a step that the second program does not know of: process 0 has exited.
    fn other_run() -> Run<'static> {
        let mut run = Run::start(INCIDENT).unwrap();
        let exit = [0; 4];
        let _ = run.layer.call(makvluria::Process(0), makvluria::Class::EXIT, exit);
        run
    }

    #[test]
    fn a_step_that_is_answered_otherwise_stops_the_run() {
        assert_eq!(other_run().step(), Err(Stopped::Otherwise));
        assert_eq!(finished(other_run()).err(), Some(String::from(NOT_THE_SAME)));
    }
}

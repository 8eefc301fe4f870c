//! Text to trace bytes.

use std::mem;

use crate::board::MAX_BOARD_WORDS;
use crate::text::names::{Style, BOARD, BOARD_DRIVER, BOARD_PROCESS, BOARD_WORDS, STEPS};
use crate::text::value::read;
use crate::text::words::{one_of, Words};
use crate::trace::{write_board, write_numbers, MAX_TRACE_BYTES};

pub use crate::text::words::TextError;

/// The bytes of the trace that the text says. A text without a record is the
/// empty trace.
pub fn assemble(text: &str) -> Result<Vec<u8>, TextError> {
    let mut assembler = Assembler { trace: Vec::new(), stage: Stage::Begin };
    for (line, text) in (1..).zip(text.lines()) {
        let mut words = Words::new(line, text);
        if words.peek().is_some() {
            assembler.line(&mut words)?;
        }
    }
    assembler.end_board();
    Ok(assembler.trace)
}

/// How far the text has been read.
enum Stage {
    Begin,
    /// In a board. Its record can be written when both counts are known.
    Board(BoardLines),
    Steps,
}

#[derive(Default)]
struct BoardLines {
    /// The words of each process.
    processes: Vec<Vec<u32>>,
    /// The words of each driver.
    drivers: Vec<Vec<u32>>,
}

impl BoardLines {
    fn words(&self) -> Vec<u32> {
        let mut words = vec![self.processes.len() as u32];
        words.extend(self.processes.iter().flatten());
        words.push(self.drivers.len() as u32);
        words.extend(self.drivers.iter().flatten());
        words
    }
}

struct Assembler {
    trace: Vec<u8>,
    stage: Stage,
}

impl Assembler {
    /// A line that is not empty.
    fn line(&mut self, words: &mut Words) -> Result<(), TextError> {
        let of_the_board = match &mut self.stage {
            Stage::Begin => self.board(words)?,
            Stage::Board(board) => board_line(board, words)?,
            Stage::Steps => false,
        };
        if !of_the_board {
            self.step(words)?;
        }
        words.end()?;
        let length = self.trace.len();
        if length > MAX_TRACE_BYTES {
            let expected = format!("at most {MAX_TRACE_BYTES}");
            return Err(words.error(format!("a trace of {length} bytes"), expected));
        }
        Ok(())
    }

    /// The line that the board begins with.
    fn board(&mut self, words: &mut Words) -> Result<bool, TextError> {
        if !words.takes(BOARD) {
            return Err(words.unexpected(format!("`{BOARD}`")));
        }
        if words.takes(BOARD_WORDS) {
            let items_are = format!("numbers from 0 to {}", u32::MAX);
            let list = words.list(MAX_BOARD_WORDS, &items_are, |word| read(Style::Word, word))?;
            write_board(&mut self.trace, &list);
            self.stage = Stage::Steps;
        } else {
            self.stage = Stage::Board(BoardLines::default());
        }
        Ok(true)
    }

    fn step(&mut self, words: &mut Words) -> Result<(), TextError> {
        let mut forms = STEPS;
        if !forms.iter().any(|form| words.peek() == Some(form.name)) {
            return Err(words.unexpected(self.expected()));
        }
        self.end_board();
        // Bytes stand at the end of a record.
        let mut bytes = Vec::new();
        while !forms.is_empty() {
            let form = words.form(forms)?;
            write_numbers(&mut self.trace, form.says);
            write_numbers(&mut self.trace, &words.fields(form.fields, &mut bytes)?);
            forms = form.rest;
        }
        self.trace.extend(bytes);
        Ok(())
    }

    fn end_board(&mut self) {
        if let Stage::Board(board) = mem::replace(&mut self.stage, Stage::Steps) {
            write_board(&mut self.trace, &board.words());
        }
    }

    /// What a line after the board's first can begin with.
    fn expected(&self) -> String {
        let board_lines = match &self.stage {
            Stage::Board(board) if board.drivers.is_empty() => "`process`, `driver`, ",
            Stage::Board(_) => "`driver`, ",
            Stage::Begin | Stage::Steps => "",
        };
        format!("{board_lines}{}", one_of(STEPS))
    }
}

/// Reads a process or driver of the board. False if the line is neither.
fn board_line(board: &mut BoardLines, words: &mut Words) -> Result<bool, TextError> {
    if board.drivers.is_empty() && words.takes(BOARD_PROCESS.name) {
        board.processes.push(board_process(board.processes.len(), words)?);
    } else if words.takes(BOARD_DRIVER.name) {
        board.drivers.push(words.fields(BOARD_DRIVER.fields, &mut Vec::new())?);
    } else {
        return Ok(false);
    }
    let count = board.words().len();
    if count > MAX_BOARD_WORDS {
        let expected = format!("at most {MAX_BOARD_WORDS}");
        return Err(words.error(format!("a board of {count} words"), expected));
    }
    Ok(true)
}

/// The words of a process, without the index, which must be the next one.
fn board_process(index: usize, words: &mut Words) -> Result<Vec<u32>, TextError> {
    let mut numbers = words.fields(BOARD_PROCESS.fields, &mut Vec::new())?;
    let found = numbers.remove(0);
    if found as usize != index {
        return Err(words.error(format!("process {found}"), format!("process {index}")));
    }
    Ok(numbers)
}

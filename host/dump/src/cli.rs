//! The command: what its arguments ask for, and doing it.

use std::ffi::{OsStr, OsString};
use std::fs::{self, File};
use std::io::{self, Read, Write};
use std::path::{Path, PathBuf};

use second::text::names::Style;
use second::text::parse::assemble;
use second::text::value::read as read_number;
use second::trace::MAX_TRACE_BYTES;

use crate::table::dump;
use crate::trace::{to_byte, to_end, Run};
use crate::words::{from_bytes, from_text, plain, to_bytes};

/// Most bytes of a file, a trace apart: some four thousand times what a table has.
const MOST_BYTES: u64 = 1 << 26;

/// Also printed by `./dump`, which needs no program for it.
pub const USAGE: &str = include_str!("../usage.txt");

/// What is to be done.
#[derive(Clone, Debug, PartialEq, Eq)]
pub enum Command {
    Help,
    Words { file: OsString },
    Text { file: OsString },
    Trace { file: OsString, stop: Stop, save: Option<OsString> },
}

/// Which tables of a run.
#[derive(Clone, Copy, Debug, PartialEq, Eq)]
pub enum Stop {
    End,
    At(usize),
    Each,
}

/// What went wrong, in one line, and the status that says so.
#[derive(Clone, Debug, PartialEq, Eq)]
pub struct Failure {
    pub status: u8,
    pub told: String,
}

impl From<String> for Failure {
    fn from(told: String) -> Failure {
        Failure { status: 1, told }
    }
}

fn wrong_usage(told: impl Into<String>) -> Failure {
    let told = told.into();
    Failure { status: 2, told: format!("{told}; ./dump --help says how it is called") }
}

/// The arguments as they come, each at most once.
#[derive(Default)]
struct Given {
    file: Option<OsString>,
    text: Option<OsString>,
    trace: Option<OsString>,
    at: Option<OsString>,
    save: Option<OsString>,
    each: bool,
}

impl Given {
    fn read(arguments: impl IntoIterator<Item = OsString>) -> Result<Option<Given>, Failure> {
        let mut given = Given::default();
        let mut arguments = arguments.into_iter();
        while let Some(argument) = arguments.next() {
            let name = plain(&argument.to_string_lossy());
            match name.as_str() {
                "--help" => return Ok(None),
                "--each" => given.each = true,
                "--text" | "--trace" | "--at" | "--save" => {
                    let value = arguments.next();
                    let value =
                        value.ok_or_else(|| wrong_usage(format!("{name} needs a value")))?;
                    once(given.place(&name), value, &name)?;
                }
                other if other.starts_with("--") => {
                    return Err(wrong_usage(format!("there is no {other}")));
                }
                _ => once(&mut given.file, argument, "a file")?,
            }
        }
        Ok(Some(given))
    }

    /// Where the value of an option goes.
    fn place(&mut self, name: &str) -> &mut Option<OsString> {
        match name {
            "--text" => &mut self.text,
            "--trace" => &mut self.trace,
            "--at" => &mut self.at,
            _ => &mut self.save,
        }
    }
}

fn once(place: &mut Option<OsString>, value: OsString, name: &str) -> Result<(), Failure> {
    match place.replace(value) {
        None => Ok(()),
        Some(_) => Err(wrong_usage(format!("{name} is given twice"))),
    }
}

/// What the arguments ask for.
pub fn parse(arguments: impl IntoIterator<Item = OsString>) -> Result<Command, Failure> {
    let Some(given) = Given::read(arguments)? else {
        return Ok(Command::Help);
    };
    let Given { file, text, trace, at, save, each } = given;
    let of_trace = at.is_some() || save.is_some() || each;
    match (file, text, trace) {
        (Some(file), None, None) if !of_trace => Ok(Command::Words { file }),
        (None, Some(file), None) if !of_trace => Ok(Command::Text { file }),
        (None, None, Some(file)) => Ok(Command::Trace { file, stop: stop(at, each, &save)?, save }),
        (None, None, None) => Err(wrong_usage("there is no file")),
        (Some(_), None, None) | (None, Some(_), None) => {
            Err(wrong_usage("--at, --each and --save are of a run, and need --trace"))
        }
        _ => Err(wrong_usage("one of a file, --text and --trace is too many")),
    }
}

fn stop(at: Option<OsString>, each: bool, save: &Option<OsString>) -> Result<Stop, Failure> {
    if save.as_deref() == Some(OsStr::new("-")) {
        return Err(wrong_usage("--save writes to a file, and - is none"));
    }
    match (at, each) {
        (None, false) => Ok(Stop::End),
        (None, true) if save.is_some() => Err(wrong_usage("--save and --each do not go together")),
        (None, true) => Ok(Stop::Each),
        (Some(_), true) => Err(wrong_usage("--at and --each do not go together")),
        (Some(at), false) => {
            let number = at.to_str().and_then(|at| read_number(Style::Word, at));
            let at = number
                .ok_or_else(|| wrong_usage(format!("--at needs a number, not {}", name_of(&at))))?;
            Ok(Stop::At(at as usize))
        }
    }
}

/// Does it. What is not all right is told by the failure; what is printed before is whole.
pub fn run(command: &Command, out: &mut impl Write) -> Result<(), Failure> {
    match command {
        Command::Help => print(out, USAGE),
        Command::Words { file } => {
            let words = from_bytes(&read_all(file)?).map_err(|error| of(file, error))?;
            print(out, &dump(&words))
        }
        Command::Text { file } => {
            // What is no text is an error like any other word.
            let bytes = read_all(file)?;
            let text = String::from_utf8_lossy(&bytes);
            print(out, &dump(&from_text(&text).map_err(|error| of(file, error))?))
        }
        Command::Trace { file, stop, save } => run_trace(file, *stop, save.as_deref(), out),
    }
}

fn run_trace(
    file: &OsStr,
    stop: Stop,
    save: Option<&OsStr>,
    out: &mut impl Write,
) -> Result<(), Failure> {
    let trace = read_trace(file)?;
    let (run, error) = match stop {
        Stop::End => to_end(&trace),
        Stop::At(at) => to_byte(&trace, at),
        Stop::Each => return each(file, &trace, out),
    }
    .map_err(|error| of(file, error))?;
    if let Some(file) = save {
        write_whole(file, &to_bytes(run.table()))?;
    }
    print(out, &titled(&run))?;
    match error {
        Some(error) => Err(of(file, error).into()),
        None => Ok(()),
    }
}

/// A table after the start and after each step, an empty line between two.
fn each(file: &OsStr, trace: &[u8], out: &mut impl Write) -> Result<(), Failure> {
    let mut run = Run::start(trace).map_err(|error| of(file, error))?;
    print(out, &titled(&run))?;
    while run.step().map_err(|error| of(file, error.into()))? {
        print(out, &format!("\n{}", titled(&run)))?;
    }
    Ok(())
}

/// Where a run is, and its table.
pub fn titled(run: &Run) -> String {
    run.header() + &dump(run.table())
}

fn print(out: &mut impl Write, text: &str) -> Result<(), Failure> {
    let done = out.write_all(text.as_bytes()).and_then(|()| out.flush());
    done.map_err(|error| format!("not all could be written: {error}").into())
}

/// A trace, assembled first if it is a text.
fn read_trace(file: &OsStr) -> Result<Vec<u8>, Failure> {
    if !file.as_encoded_bytes().ends_with(b".txt") {
        // One byte more than a trace may have is enough to see that it is too long.
        return Ok(read(file, MAX_TRACE_BYTES as u64 + 1)?);
    }
    let bytes = read_all(file)?;
    let text = String::from_utf8_lossy(&bytes);
    Ok(assemble(&text).map_err(|error| of(file, error.to_string()))?)
}

/// A file whole.
fn read_all(file: &OsStr) -> Result<Vec<u8>, String> {
    let bytes = read(file, MOST_BYTES + 1)?;
    if bytes.len() as u64 > MOST_BYTES {
        return Err(of(file, format!("it has more than {MOST_BYTES} bytes")));
    }
    Ok(bytes)
}

/// The first bytes of a file, at most so many.
fn read(file: &OsStr, most: u64) -> Result<Vec<u8>, String> {
    let mut bytes = Vec::new();
    let done = if file == "-" {
        io::stdin().lock().take(most).read_to_end(&mut bytes)
    } else {
        File::open(file).and_then(|opened| opened.take(most).read_to_end(&mut bytes))
    };
    done.map_err(|error| of(file, error.to_string()))?;
    Ok(bytes)
}

/// Writes a file that is whole or as it was: beside it first, unless it is something else than a plain file.
fn write_whole(file: &OsStr, bytes: &[u8]) -> Result<(), String> {
    // Where a link leads to; a file that is not there yet has no such place.
    let path = fs::canonicalize(file).unwrap_or_else(|_| PathBuf::from(file));
    let written = match fs::metadata(&path) {
        Ok(about) if !about.is_file() => {
            File::options().write(true).open(&path).and_then(|mut opened| opened.write_all(bytes))
        }
        Ok(_) => File::options().write(true).open(&path).and_then(|_| replace(&path, bytes)),
        Err(_) => replace(&path, bytes),
    };
    written.map_err(|error| of(file, error.to_string()))
}

/// By way of a file of its own name beside it: none that is there is touched.
fn replace(path: &Path, bytes: &[u8]) -> io::Result<()> {
    let mut beside = path.as_os_str().to_owned();
    beside.push(format!(".{}.part", std::process::id()));
    let mut part = File::options().write(true).create_new(true).open(&beside)?;
    let done = part.write_all(bytes).and_then(|()| fs::rename(&beside, path));
    done.inspect_err(|_| drop(fs::remove_file(&beside)))
}

fn of(file: &OsStr, error: String) -> String {
    format!("{}: {}", name_of(file), plain(&error))
}

fn name_of(file: &OsStr) -> String {
    plain(&file.to_string_lossy())
}

//! Lists a trace as text, or assembles the trace that a text says.

use std::env;
use std::error::Error;
use std::fs::File;
use std::io::{self, BufWriter, Read, Write};
use std::process::ExitCode;

use second::text::list::list;
use second::text::parse::assemble;
use second::trace::MAX_TRACE_BYTES;

const USAGE: &str = "usage: listing FILE
       listing --assemble FILE
FILE is a trace or, to assemble, a text; - is standard input";

fn main() -> ExitCode {
    let arguments: Vec<String> = env::args().skip(1).collect();
    let arguments: Vec<&str> = arguments.iter().map(String::as_str).collect();
    let done = match arguments[..] {
        ["--assemble", file] => write_trace(file),
        [file] if !file.starts_with("--") => write_listing(file),
        _ => Err(USAGE.into()),
    };
    match done {
        Ok(()) => ExitCode::SUCCESS,
        Err(error) => {
            eprintln!("{error}");
            ExitCode::FAILURE
        }
    }
}

fn write_listing(file: &str) -> Result<(), Box<dyn Error>> {
    // One byte more than a trace may have is enough to see that it is too long.
    let trace = read(file, MAX_TRACE_BYTES as u64 + 1)?;
    let mut out = BufWriter::new(io::stdout().lock());
    list(&trace, &mut out)?;
    Ok(out.flush()?)
}

fn write_trace(file: &str) -> Result<(), Box<dyn Error>> {
    let text = read(file, u64::MAX)?;
    // What is no text is an error like any other word, and no matter in a comment.
    let text = String::from_utf8_lossy(&text);
    let trace = assemble(&text).map_err(|error| format!("{file}: {error}"))?;
    Ok(io::stdout().lock().write_all(&trace)?)
}

/// The first bytes of a file, at most `most`.
fn read(file: &str, most: u64) -> Result<Vec<u8>, Box<dyn Error>> {
    let mut bytes = Vec::new();
    let done = match file {
        "-" => io::stdin().lock().take(most).read_to_end(&mut bytes),
        _ => File::open(file).and_then(|opened| opened.take(most).read_to_end(&mut bytes)),
    };
    done.map_err(|error| format!("{file}: {error}"))?;
    Ok(bytes)
}

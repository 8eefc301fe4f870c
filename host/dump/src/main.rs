//! Prints a table for a person; `dump --help` says how it is called.

use std::env;
use std::io::{self, Write};
use std::process::ExitCode;

use dump::cli::{parse, run, Failure};

fn main() -> ExitCode {
    let done = parse(env::args_os().skip(1))
        .and_then(|command| run(&command, &mut io::BufWriter::new(io::stdout().lock())));
    match done {
        Ok(()) => ExitCode::SUCCESS,
        Err(Failure { status, told }) => {
            // There is no other place to tell that this could not be told.
            let _ = writeln!(io::stderr(), "dump: {told}");
            ExitCode::from(status)
        }
    }
}

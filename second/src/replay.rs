//! Replaying a whole trace.

use std::io::{self, Write};

use crate::lines::Lines;
use crate::state::Machine;
use crate::trace::{Broken, Reader, MAX_TRACE_BYTES};

/// Bytes of lines after which they are written out.
const WRITTEN_AT_ONCE: usize = 65_536;

/// What the program writes for a trace. Written as it comes: fetches can make
/// the output far longer than the trace.
pub fn replay(trace: &[u8], out: &mut impl Write) -> io::Result<()> {
    if trace.len() > MAX_TRACE_BYTES {
        let mut lines = Lines::default();
        lines.too_long();
        return lines.flush_to(out);
    }
    replay_any_length(trace, out)
}

/// The same with no limit on the trace's length.
pub fn replay_any_length(trace: &[u8], out: &mut impl Write) -> io::Result<()> {
    let mut lines = Lines::default();
    if let Some(mut run) = Run::start(trace, &mut lines) {
        while run.go_on(&mut lines, WRITTEN_AT_ONCE) {
            lines.flush_to(out)?;
        }
    }
    lines.flush_to(out)
}

/// The same, with all lines kept.
pub fn replay_into(trace: &[u8], lines: &mut Lines) {
    if let Some(mut run) = Run::start(trace, lines) {
        run.go_on(lines, usize::MAX);
    }
}

/// The output for a trace, in one piece.
pub fn replay_to_vec(trace: &[u8]) -> Vec<u8> {
    let mut out = Vec::new();
    replay(trace, &mut out).expect("writing to a Vec does not fail");
    out
}

/// A run that has started: the rest of the trace, and the state reached.
struct Run<'a> {
    reader: Reader<'a>,
    machine: Machine,
}

impl<'a> Run<'a> {
    /// Reads the board and starts. If there is no start, its line says why.
    fn start(trace: &'a [u8], lines: &mut Lines) -> Option<Run<'a>> {
        let mut reader = Reader::new(trace);
        match reader.board().map(|words| Machine::start(&words)) {
            Ok(Ok(machine)) => return Some(Run { reader, machine }),
            Ok(Err(refusal)) => lines.refused(refusal),
            Err(broken) => lines.broken(broken),
        }
        None
    }

    /// Makes steps and writes their lines, until there are so many bytes of
    /// lines or the run ends. True if it has not ended.
    fn go_on(&mut self, lines: &mut Lines, most: usize) -> bool {
        while lines.length() < most {
            if self.reader.is_at_end() {
                return false;
            }
            let offset = self.reader.place();
            if self.step(lines).is_none() {
                lines.broken(Broken { offset });
                return false;
            }
        }
        true
    }

    /// Reads one record whole, makes its step and writes its line.
    #[inline(always)]
    fn step(&mut self, lines: &mut Lines) -> Option<()> {
        if !self.reader.is_at_call() {
            return self.driver_step(lines);
        }
        let (process, class, registers) = self.reader.call()?;
        self.machine.call_for(process, class, registers, lines);
        Some(())
    }

    /// Kept out of the way of the calls.
    #[inline(never)]
    fn driver_step(&mut self, lines: &mut Lines) -> Option<()> {
        let step = self.reader.driver_step()?;
        let outcome = self.machine.step(step);
        lines.outcome(&self.machine, outcome);
        Some(())
    }
}

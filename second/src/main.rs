//! Replays the trace on standard input; writes its lines to standard output.

use std::io::{self, BufWriter, Read, Write};

use second::replay::replay;
use second::trace::MAX_TRACE_BYTES;

fn main() -> io::Result<()> {
    // One byte more than a trace may have is enough to see that it is too long.
    let limit = MAX_TRACE_BYTES as u64 + 1;
    let mut trace = Vec::new();
    io::stdin().lock().take(limit).read_to_end(&mut trace)?;
    let mut out = BufWriter::new(io::stdout().lock());
    replay(&trace, &mut out)?;
    out.flush()
}

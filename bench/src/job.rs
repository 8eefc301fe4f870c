//! One trace, replayed through the proved library and through the second program.

use std::hint::black_box;
use std::time::{Duration, Instant};

use makvluria::{Answer, Progress, IMAGE_BYTES, TABLE_WORDS};
use second::lines::Lines;
use second::replay::replay_into;
use second::trace::read_trace;

use steps::make;

// The tests of the Rust crate make the second program's steps by the library, too.
#[path = "../../host/rust/tests/steps/mod.rs"]
mod steps;

/// Room for the longest line of a call that no upcall answers, `A` and four numbers of ten digits.
const LINE: usize = 46;

/// What a line begins with where a step is refused or fails.
const NOT_ACCEPTED: [&[u8]; 5] = [b"X", b"A 0 ", b"A 1 ", b"A 2 ", b"A 3 "];

/// All that both programs are given. It is built, and made fresh again, outside of the timed part.
/// The second program has its state and its images to itself, and makes them inside.
pub struct Job {
    pub trace: Vec<u8>,
    steps: usize,
    table: Vec<u32>,
    memory: Vec<u8>,
    flash: Vec<u8>,
    library_lines: Vec<u8>,
    plain_lines: Lines,
}

impl Job {
    pub fn new(trace: Vec<u8>, steps: usize) -> Job {
        Job {
            trace,
            steps,
            table: vec![0; TABLE_WORDS],
            memory: vec![0; IMAGE_BYTES],
            flash: vec![0; IMAGE_BYTES],
            // Not zeros, as those pages would be there only once they are written.
            library_lines: vec![b'?'; LINE * steps + 64],
            plain_lines: Lines::with_room(LINE * steps),
        }
    }

    fn make_fresh(&mut self) {
        self.table.fill(0);
        self.memory.fill(0);
        self.plain_lines.clear();
    }

    /// Replays through the library; the time, and how many bytes of lines were written.
    pub fn library(&mut self) -> (Duration, usize) {
        self.make_fresh();
        let Job { trace, table, memory, flash, library_lines, .. } = self;
        let began = Instant::now();
        let progress = makvluria::replay(trace, 0, table, memory, flash, library_lines);
        let time = began.elapsed();
        let Progress::Ended { written } = progress else {
            panic!("there is room for a line of each step: {progress:?}");
        };
        (time, written)
    }

    pub fn plain(&mut self) -> Duration {
        self.make_fresh();
        let began = Instant::now();
        replay_into(&self.trace, &mut self.plain_lines);
        began.elapsed()
    }

    /// Makes each step of the trace by the function of the library for it, which checks the table.
    pub fn checked(&mut self) -> Duration {
        self.make_fresh();
        let (board, steps) = read_trace(&self.trace).expect("it was written as one");
        let Job { table, memory, flash, .. } = self;
        let began = Instant::now();
        assert_eq!(makvluria::start(table, &board), Answer::Started);
        for step in steps {
            let _ = black_box(make(table, memory, flash, step));
        }
        began.elapsed()
    }

    /// Replays through both, the library first: their times. Their lines are equal.
    pub fn both(&mut self) -> (Duration, Duration) {
        let (proved, written) = self.library();
        let plain = self.plain();
        assert!(&self.library_lines[..written] == self.lines(), "the two programs' lines differ");
        (proved, plain)
    }

    /// The lines of the last run of the second program.
    pub fn lines(&self) -> &[u8] {
        self.plain_lines.written()
    }

    /// A line for each step, and none of a refusal or a failure.
    pub fn assert_all_accepted(&self) {
        let lines = self.lines().split_inclusive(|&byte| byte == b'\n');
        let not_accepted = |line: &&[u8]| NOT_ACCEPTED.iter().any(|start| line.starts_with(start));
        assert_eq!(lines.clone().count(), self.steps, "a line for each step");
        assert_eq!(lines.filter(not_accepted).count(), 0, "no step is refused or fails");
    }
}

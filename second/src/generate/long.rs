//! Long traces: around the most bytes that the program takes.

use crate::generate::boards::{good_board, Shape};
use crate::generate::script::Script;
use crate::generate::walk::make_moves;
use crate::random::Random;
use crate::trace::{Reader, MAX_TRACE_BYTES};

/// The two shortest records: any length above 1 is a sum of theirs.
const RESUME: [u8; 2] = [2, 0];
const LATCH: [u8; 3] = [5, 0, 0];

/// Rounds of moves, each with weights of its own, that are tried.
const MOST_ROUNDS: usize = 200;

pub fn long(random: &mut Random) -> Vec<u8> {
    const MOST: usize = MAX_TRACE_BYTES;
    let far_over = MOST + 2 + random.below(5_000);
    match random.below(10) {
        0..=2 => good_trace(random, MOST),
        3 => good_trace(random, MOST - 1),
        4 | 5 => good_trace(random, MOST + 1),
        6 => good_trace(random, far_over),
        7 => cut_at_limit(random),
        8 => vec![random.pick(&[0, 2, 0xFF]); MOST + 1],
        _ => spoiled_and_too_long(random),
    }
}

/// Good records of exactly this many bytes together.
fn good_trace(random: &mut Random, length: usize) -> Vec<u8> {
    let shape = random.pick(&[Shape::Ordinary, Shape::Full]);
    let words = good_board(random, shape);
    let own_random = Random::new(&[u64::from(random.word())]);
    let mut script = Script::new(own_random, &words).going_on();
    // On some boards few moves do anything; the padding does the rest.
    for _ in 0..MOST_ROUNDS {
        make_moves(&mut script, 100, length);
    }
    fit(script.into_trace(), length)
}

/// Takes records away until short enough, then adds short ones.
fn fit(mut trace: Vec<u8>, length: usize) -> Vec<u8> {
    let kept = last_end(&trace, length);
    trace.truncate(kept);
    if (length - trace.len()) % 2 == 1 {
        trace.extend(LATCH);
    }
    while trace.len() < length {
        trace.extend(RESUME);
    }
    trace
}

/// The end of the last record that leaves room for more, or fits exactly.
fn last_end(trace: &[u8], length: usize) -> usize {
    let mut reader = Reader::new(trace);
    reader.board().expect("a good trace has a board");
    let mut kept = reader.place();
    while let Ok(Some(_)) = reader.step() {
        let end = reader.place();
        if end == length || end + RESUME.len() <= length {
            kept = end;
        }
    }
    kept
}

/// As long as may be, with its last record cut.
fn cut_at_limit(random: &mut Random) -> Vec<u8> {
    let more = 1 + random.below(2);
    let mut trace = good_trace(random, MAX_TRACE_BYTES + more);
    trace.truncate(MAX_TRACE_BYTES);
    trace
}

/// Too long: the one line is the same, whatever the bytes are.
fn spoiled_and_too_long(random: &mut Random) -> Vec<u8> {
    let mut trace = good_trace(random, MAX_TRACE_BYTES + 1);
    let place = random.pick(&[0, 1, 2, 7, 40_000, MAX_TRACE_BYTES]);
    trace[place] ^= random.within(1..=255) as u8;
    trace
}

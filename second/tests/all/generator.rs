//! What the generated traces reach.

use std::collections::BTreeMap;

use crate::common::output;
use second::generate::{generate, generate_mixed, Kind};
use second::state::{Machine, QUEUE_CAPACITY};
use second::trace::{Reader, MAX_TRACE_BYTES};

const SEED: u64 = 104;

/// How often each line kind, refusal and failure occurs: `A`, `X 9`, `A 2 6`.
fn count_lines(traces: impl Iterator<Item = Vec<u8>>) -> BTreeMap<String, usize> {
    let mut counts = BTreeMap::new();
    for trace in traces {
        for line in output(&trace).lines() {
            *counts.entry(key(line)).or_insert(0) += 1;
        }
    }
    counts
}

/// The part of a line that tells which rule gave it.
fn key(line: &str) -> String {
    let words: Vec<&str> = line.split(' ').collect();
    let kept = match words[..] {
        ["A", "0" | "2", ..] => 3,
        ["A" | "X", ..] => 2,
        _ => 1,
    };
    words[..kept].join(" ")
}

#[test]
fn every_line_refusal_and_error_code_is_reached_often() {
    let counts = count_lines((0..300).map(|index| generate_mixed(SEED, index)));
    let lines = ["U", "W", "N", "E", "R", "Q", "D", "L", "F", "B", "T"];
    let refusals = (3..=13).map(|number| format!("X {number}"));
    let returns = ["A 128", "A 129", "A 130"];
    // RESERVE, NOMEM, NOSUPPORT, NODEVICE; INVAL, NOSUPPORT, NODEVICE.
    let failures = ["A 0 5", "A 0 9", "A 0 10", "A 0 11", "A 2 6", "A 2 10", "A 2 11"];
    let wanted = lines.into_iter().chain(returns).chain(failures).map(String::from);
    for key in wanted.chain(refusals) {
        let count = counts.get(&key).copied().unwrap_or(0);
        let enough = if key == "T" { 3 } else { 20 };
        assert!(count >= enough, "{key}: {count} of {counts:?}");
    }
    // And nothing else: no other variant, code or refusal exists.
    assert_eq!(counts.len(), 11 + 11 + 3 + 7, "{counts:?}");
}

/// Runs a good trace and shows the state before each step and at the end.
fn watch(trace: &[u8], mut see: impl FnMut(&Machine)) {
    let mut reader = Reader::new(trace);
    let Some(mut machine) = reader.board().ok().and_then(|words| Machine::start(&words).ok())
    else {
        return;
    };
    see(&machine);
    while let Ok(Some(step)) = reader.step() {
        let _ = machine.step(step);
        see(&machine);
    }
}

/// How often some process's queue has become full after being empty.
fn fillings(trace: &[u8]) -> usize {
    let mut most = BTreeMap::new();
    watch(trace, |machine| {
        for (process, record) in machine.processes.iter().enumerate() {
            let (armed, fillings) = most.entry(process).or_insert((true, 0));
            match record.queue.len() {
                0 => *armed = true,
                QUEUE_CAPACITY if *armed => {
                    *armed = false;
                    *fillings += 1;
                }
                _ => {}
            }
        }
    });
    most.into_values().map(|(_, fillings)| fillings).max().unwrap_or(0)
}

#[test]
fn queues_are_filled_drained_and_filled_again() {
    let walks = (0..60).map(|index| generate(SEED, Kind::Walk, index));
    let refilled = walks.filter(|trace| fillings(trace) >= 2).count();
    assert!(refilled >= 10, "only {refilled} of 60 walks refill a queue");
}

#[test]
fn the_same_seed_gives_the_same_trace() {
    for kind in Kind::ALL {
        assert_eq!(generate(SEED, kind, 3), generate(SEED, kind, 3));
        assert_ne!(generate(SEED, kind, 3), generate(SEED, kind, 4));
        assert_ne!(generate(SEED, kind, 3), generate(SEED + 1, kind, 3));
    }
}

#[test]
fn kinds_have_names() {
    for kind in Kind::ALL {
        assert_eq!(Kind::from_name(kind.name()), Some(kind));
    }
    assert_eq!(Kind::from_name("other"), None);
}

#[test]
fn walks_and_boundaries_have_good_records_only() {
    for kind in [Kind::Walk, Kind::Boundary] {
        for index in 0..60 {
            let text = output(&generate(SEED, kind, index));
            assert!(!text.contains(['B', 'T']) && !text.contains("X 13"));
        }
    }
}

#[test]
fn most_broken_traces_are_broken() {
    let outputs = (0..100).map(|index| output(&generate(SEED, Kind::Broken, index)));
    let broken = outputs.filter(|text| text.contains('B')).count();
    assert!((60..100).contains(&broken), "{broken} of 100");
}

#[test]
fn board_traces_are_good_and_not_good() {
    let outputs = (0..100).map(|index| output(&generate(SEED, Kind::Board, index)));
    let refused = outputs.filter(|text| text == "X 13\n").count();
    assert!((50..90).contains(&refused), "{refused} of 100");
}

#[test]
fn long_traces_lie_around_the_limit() {
    let mut lengths = BTreeMap::new();
    for index in 0..40 {
        let trace = generate(SEED, Kind::Long, index);
        let text = output(&trace);
        assert_eq!(text == "T\n", trace.len() > MAX_TRACE_BYTES);
        *lengths.entry(trace.len()).or_insert(0) += 1;
    }
    for length in [MAX_TRACE_BYTES - 1, MAX_TRACE_BYTES, MAX_TRACE_BYTES + 1] {
        assert!(lengths.contains_key(&length), "none of {length} bytes");
    }
}

#[test]
fn outputs_stay_small() {
    for index in 0..100 {
        let length = output(&generate_mixed(SEED, index)).len();
        assert!(length < 2_000_000, "trace {index} gives {length} bytes");
    }
}

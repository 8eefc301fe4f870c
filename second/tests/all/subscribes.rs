//! The benchmark's subscribes.

use second::generate::subscribes::{Case, CASES};
use second::state::{Machine, QUEUE_CAPACITY};
use second::step::Answer;
use second::trace::Reader;
use second::variant::ReturnVariant;

/// The state after a trace none of whose steps is refused or fails.
fn reached(trace: &[u8]) -> Machine {
    let mut reader = Reader::new(trace);
    let mut machine = Machine::start(&reader.board().expect("a board")).expect("a good board");
    while let Some(step) = reader.step().expect("a good record") {
        match machine.step(step) {
            Ok(Answer::Restarted { .. } | Answer::EventTaken) => {}
            Ok(Answer::Returned(ReturnVariant::SuccessWith2U32(..))) => {}
            other => panic!("{step:?} gives {other:?}"),
        }
    }
    machine
}

/// The places that the upcalls in the queue had when they were queued: their first arguments.
fn queued(trace: &[u8]) -> Vec<usize> {
    reached(trace).processes[0].queue.iter().map(|queued| queued.arguments[0] as usize).collect()
}

#[test]
fn a_subscribe_cancels_what_its_case_says() {
    for case in CASES {
        let others = (0..case.queued).filter(|&place| !case.matches(place));
        assert_eq!(queued(&case.trace(3, false)), Vec::from_iter(0..case.queued), "{case:?}");
        assert_eq!(queued(&case.trace(3, true)), Vec::from_iter(others), "{case:?}");
    }
}

#[test]
fn two_traces_differ_in_one_call_of_each_round() {
    for case in CASES {
        let (with, without) = (case.round(true), case.round(false));
        assert_eq!(with[..without.len()], without, "{case:?}");
        assert_eq!(with.len(), without.len() + 1, "{case:?}");
    }
}

#[test]
fn the_cases_are_queues_of_none_of_one_and_full() {
    let counts = |queued: usize| {
        let cancelled = |case: &Case| (0..queued).filter(|&place| case.matches(place)).count();
        Vec::from_iter(CASES.iter().filter(|case| case.queued == queued).map(cancelled))
    };
    assert_eq!(counts(0), [0]);
    assert_eq!(counts(1), [0, 1]);
    assert_eq!(counts(QUEUE_CAPACITY), [0, 1, 1, QUEUE_CAPACITY]);
}

//! Change request 3, its second half: a process that sends no command above 0
//! to another shared driver cannot tell a driver that is denied to it from one
//! that is not installed, by any call.

use std::collections::BTreeMap;

use crate::common::*;
use crate::denied::{denied_calls, CASES};
use second::board::{Board, DriverPlace, ProcessIndex, IMAGE_SIZE};
use second::generate::hidden::{hidden, without, Hidden};
use second::random::Random;
use second::state::Machine;
use second::step::{Answer, Refusal, Step};
use second::trace::read_trace;

const SEED: u64 = 3;
const WALKS: u64 = 5_000;

/// The two images at the start.
struct Images {
    memory: Vec<u8>,
    flash: Vec<u8>,
}

/// What a process sees: its calls and resumes, each with what came of it.
type Seen<'a> = Vec<(Step<'a>, Result<Answer, Refusal>)>;

/// Makes all steps of a trace, and gives what the process sees of it.
fn seen<'a>(trace: &'a [u8], images: &Images, process: ProcessIndex) -> Seen<'a> {
    let (words, steps) = read_trace(trace).expect("good records");
    let mut machine = Machine::start(&words).expect("a good board");
    machine.memory.copy_from_slice(&images.memory);
    machine.flash.copy_from_slice(&images.flash);
    let mut seen = Vec::new();
    for step in steps {
        let outcome = machine.step(step);
        let is_seen = matches!(step, Step::Call { .. } | Step::Resume { .. });
        if is_seen && step.process() == Some(process) {
            seen.push((step, outcome));
        }
    }
    seen
}

#[test]
fn a_denied_driver_is_seen_as_one_not_installed() {
    let mut random = Random::new(&[SEED]);
    let images = Images { memory: random.bytes(IMAGE_SIZE), flash: random.bytes(IMAGE_SIZE) };
    let (mut pairs, mut answers, mut owned) = (0, 0, 0);
    let mut cases = BTreeMap::new();
    for index in 0..WALKS {
        for Hidden { process, driver, denied, absent } in hidden(SEED, index) {
            let with_driver = seen(&denied, &images, process);
            let without_driver = seen(&absent, &images, process);
            assert_eq!(with_driver.len(), without_driver.len(), "walk {index}");
            for (one, other) in with_driver.iter().zip(&without_driver) {
                assert_eq!(one, other, "walk {index}, {process:?}, {driver:?}");
            }
            pairs += 1;
            answers += with_driver.len();
            let mut calls = denied_calls(&denied);
            calls.retain(|call| call.process == process && call.driver == driver);
            owned += calls.iter().filter(|call| call.is_owned).count();
            for call in calls {
                *cases.entry(call.case).or_insert(0) += 1;
            }
        }
    }
    // The driver is called, in every way, or nothing has been shown.
    assert!(pairs >= 2_000 && answers >= 10_000 && owned >= 100, "{pairs}, {answers}, {owned}");
    for case in CASES {
        let count = cases.get(case).copied().unwrap_or(0);
        assert!(count >= 100, "{case}: {count} of {cases:?}");
    }
}

/// Three drivers; each process may call two of them.
#[rustfmt::skip]
const BOARD: [u32; 31] = [
    2,
    0x2000_0000, 0x2000_2000, 0x2000_1800, 0x2000_1000, 0x4_0000, 0x4_4000, 0b101,
    0x2000_2000, 0x2000_4000, 0x2000_3800, 0x2000_3000, 0x4_4000, 0x4_8000, 0b110,
    3,
    CONSOLE, 2, 1, 1, 0,
    CORRELATOR, 1, 1, 0, 1,
    0x3_0001, 1, 0, 4, 0,
];

#[test]
fn the_board_without_a_driver() {
    #[rustfmt::skip]
    let without_the_second = [
        2,
        0x2000_0000, 0x2000_2000, 0x2000_1800, 0x2000_1000, 0x4_0000, 0x4_4000, 0b11,
        0x2000_2000, 0x2000_4000, 0x2000_3800, 0x2000_3000, 0x4_4000, 0x4_8000, 0b10,
        2,
        CONSOLE, 2, 1, 1, 0,
        0x3_0001, 1, 0, 4, 0,
    ];
    assert_eq!(without(&BOARD, DriverPlace(1)), without_the_second);
    for (place, masks, numbers) in [
        (0, [0b10, 0b11], [CORRELATOR, 0x3_0001]),
        (1, [0b11, 0b10], [CONSOLE, 0x3_0001]),
        (2, [0b01, 0b10], [CONSOLE, CORRELATOR]),
    ] {
        let words = without(&BOARD, DriverPlace(place));
        assert_eq!([words[7], words[14]], masks);
        assert_eq!([words[16], words[21]], numbers);
        assert!(Board::from_words(&words).is_some());
    }
}

/// The same on both boards, written out; what the others do is not.
#[test]
fn one_process_on_both_boards() {
    let own = [
        (subscribe(0, CORRELATOR, 0, [0x4_0010, 7]), a(2, 11, 0, 0)),
        (command(0, CORRELATOR, 1), a(0, 11, 0, 0)),
        (allow_rw(0, CORRELATOR, 9, [0x2000_0000, 4]), a(2, 11, 0x2000_0000, 4)),
        (subscribe(0, 0x3_0001, 0, [0x4_0020, 8]), a(130, 0, 0, 0)),
        (event(0, 0x3_0001, 0, [1, 2, 3]), line('Q', &[])),
        (yield_wait(0), u(0x4_0020, [1, 2, 3, 8])),
        (allow_ro(0, 0x3_0001, 3, [0x4_0000, 4]), a(130, 0, 0, 0)),
        (yield_wait(0), line('W', &[])),
        (resume(0), line('W', &[])),
    ];
    let claim = (command(1, CORRELATOR, 1), a(128, 0, 0, 0));
    expect_on(&BOARD, &[&[claim], &own[..]].concat());
    expect_on(&without(&BOARD, DriverPlace(1)), &own);
}

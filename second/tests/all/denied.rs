//! Change request 3: a driver that is installed but denied to a process answers
//! it as one that is not installed, in classes 1 to 4.

use std::collections::BTreeMap;

use crate::common::*;
use second::board::{DriverNumber, ProcessIndex};
use second::generate::generate_mixed;
use second::state::{Activity, Machine};
use second::step::{Answer, Step};
use second::trace::Reader;
use second::variant::ReturnVariant::{Failure, FailureWith2U32};

const ABSENT: u32 = 7;

/// The case board, where process 0 may not call one of the drivers.
fn board_denying(driver: u32) -> Vec<u32> {
    let mut words = CASE_BOARD.to_vec();
    words[7] = if driver == CONSOLE { 2 } else { 1 };
    words
}

/// Calls of all four classes by process 0 that reach no driver, with the slots
/// and commands that some driver has and that none has, and with values that a
/// slot would take and that none would.
fn unreached(driver: u32) -> Vec<Expected<'static>> {
    let mut expected = Vec::new();
    for slot in [0, 1, 3, 4, 9, u32::MAX] {
        for upcall in [[0x4_0010, 7], [0, 0], [0, 7], [0x4_4000, 7], [u32::MAX, u32::MAX]] {
            expected.push((subscribe(0, driver, slot, upcall), a(2, 11, 0, 0)));
        }
        for [address, size] in [[0x2000_0000, 4], [0, 0], [0x4_0000, 4], [u32::MAX, 2], [7, 0]] {
            let passed = a(2, 11, address, size);
            expected.push((allow_rw(0, driver, slot, [address, size]), passed.clone()));
            expected.push((allow_ro(0, driver, slot, [address, size]), passed));
        }
    }
    for number in [0, 1, 2, 3, 4, 9, u32::MAX] {
        expected.push((command(0, driver, number), a(0, 11, 0, 0)));
    }
    expected
}

#[test]
fn not_installed() {
    expect(&unreached(ABSENT));
}

#[test]
fn denied() {
    for driver in [CONSOLE, CORRELATOR] {
        expect_on(&board_denying(driver), &unreached(driver));
    }
}

#[test]
fn denied_and_owned_by_another_process() {
    let mut expected =
        vec![(latch(CORRELATOR, -5), line('L', &[])), (command(1, CORRELATOR, 1), a(128, 0, 0, 0))];
    expected.extend(unreached(CORRELATOR));
    // The owner has it still, with the value, and lets it go.
    expected.push((command(1, CORRELATOR, 3), a(129, -5_i32 as u32, 0, 0)));
    expected.push((command(1, CORRELATOR, 2), a(128, 0, 0, 0)));
    expected.extend(unreached(CORRELATOR));
    expect_on(&board_denying(CORRELATOR), &expected);
}

/// What a mask denies to one process another one may call.
#[test]
fn permitted() {
    expect_on(
        &board_denying(CONSOLE),
        &[
            (subscribe(0, CONSOLE, 0, [0x4_0010, 7]), a(2, 11, 0, 0)),
            (subscribe(1, CONSOLE, 0, [0x4_4010, 7]), a(130, 0, 0, 0)),
            (subscribe(1, CONSOLE, 0, [0x4_0010, 7]), a(2, 6, 0x4_0010, 7)),
            (subscribe(1, CONSOLE, 9, [0x4_4010, 7]), a(2, 10, 0x4_4010, 7)),
            (command(0, CONSOLE, 0), a(0, 11, 0, 0)),
            (command(1, CONSOLE, 0), a(128, 0, 0, 0)),
            (command(1, CONSOLE, 1), a(0, 10, 0, 0)),
            (allow_rw(0, CONSOLE, 0, [0x2000_0000, 4]), a(2, 11, 0x2000_0000, 4)),
            (allow_rw(1, CONSOLE, 0, [0x2000_2000, 4]), a(130, 0, 0, 0)),
            (allow_rw(1, CONSOLE, 0, [0x2000_0000, 4]), a(2, 6, 0x2000_0000, 4)),
            (allow_rw(1, CONSOLE, 9, [0x2000_2000, 4]), a(2, 10, 0x2000_2000, 4)),
            (allow_ro(0, CONSOLE, 0, [0x4_0000, 4]), a(2, 11, 0x4_0000, 4)),
            (allow_ro(1, CONSOLE, 0, [0x4_4000, 4]), a(130, 0, 0, 0)),
            (allow_ro(1, CONSOLE, 0, [0x4_0000, 4]), a(2, 6, 0x4_0000, 4)),
            (allow_ro(1, CONSOLE, 9, [0x4_4000, 4]), a(2, 10, 0x4_4000, 4)),
            // Process 0 may call the other driver.
            (subscribe(0, CORRELATOR, 0, [0x4_0010, 7]), a(130, 0, 0, 0)),
            (allow_rw(0, CORRELATOR, 0, [0x2000_0000, 4]), a(130, 0, 0, 0)),
            (command(0, CORRELATOR, 1), a(128, 0, 0, 0)),
        ],
    );
}

/// A waiting or an exited process is refused first.
#[test]
fn refusals_come_before() {
    for (stop, refusal) in [(yield_wait(0), x(5)), (terminate(0, 0), x(4))] {
        let words = board_denying(CONSOLE);
        let calls = unreached(CONSOLE).into_iter().map(|(step, _)| step);
        let lines = lines_on(&words, &[stop].into_iter().chain(calls).collect::<Vec<_>>());
        assert!(lines[1..].iter().all(|line| *line == refusal), "{lines:?}");
    }
}

#[test]
fn a_denied_call_changes_nothing() {
    let mut machine = Machine::start(&board_denying(CORRELATOR)).expect("a good board");
    machine.step(subscribe(0, CONSOLE, 0, [0x4_0010, 7])).expect("subscribed");
    machine.step(event(0, CONSOLE, 0, [1, 2, 3])).expect("queued");
    let before = machine.clone();
    for (step, _) in unreached(CORRELATOR) {
        machine.step(step).expect("not refused");
        assert!(machine == before, "{step:?}");
    }
}

/// A call, not refused, of an installed driver that its caller's mask denies.
pub struct DeniedCall {
    pub process: ProcessIndex,
    pub driver: DriverNumber,
    /// Its class, and what it would be answered if the driver were permitted.
    pub case: String,
    /// Whether a process has claimed the driver.
    pub is_owned: bool,
}

/// Every case: the slot or the command is there or not, and its values would be
/// taken or not, or the driver would have to be claimed first.
pub const CASES: [&str; 12] = [
    "1 accepted",
    "1 Invalid",
    "1 NoSupport",
    "2 accepted",
    "2 Reserve",
    "2 NoSupport",
    "3 accepted",
    "3 Invalid",
    "3 NoSupport",
    "4 accepted",
    "4 Invalid",
    "4 NoSupport",
];

/// The calls of denied drivers in a trace, up to where it breaks.
pub fn denied_calls(trace: &[u8]) -> Vec<DeniedCall> {
    let mut reader = Reader::new(trace);
    let board = reader.board().ok();
    let Some(mut machine) = board.and_then(|words| Machine::start(&words).ok()) else {
        return Vec::new();
    };
    let mut calls = Vec::new();
    while let Ok(Some(step)) = reader.step() {
        calls.extend(denied_call(&machine, step));
        let _ = machine.step(step);
    }
    calls
}

fn denied_call(machine: &Machine, step: Step) -> Option<DeniedCall> {
    let Step::Call { process, class: class @ 1..=4, registers: [number, ..] } = step else {
        return None;
    };
    let driver = DriverNumber(number);
    let place = machine.board.find_driver(driver)?;
    let record = machine.processes.get(process.place())?;
    if record.activity != Activity::Running || record.board.permits(place) {
        return None;
    }
    let mut permitting = without_images(machine);
    permitting.processes[process.place()].board.permissions |= 1 << place.0;
    let case = match permitting.step(step) {
        Ok(Answer::Returned(Failure(code) | FailureWith2U32(code, ..))) => {
            format!("{class} {code:?}")
        }
        _ => format!("{class} accepted"),
    };
    let is_owned = machine.drivers[place.0].owner.is_some();
    Some(DeniedCall { process, driver, case, is_owned })
}

/// A copy for calls that touch no image, which are far larger than the rest.
fn without_images(machine: &Machine) -> Machine {
    Machine {
        board: machine.board.clone(),
        processes: machine.processes.clone(),
        drivers: machine.drivers.clone(),
        memory: Vec::new(),
        flash: Vec::new(),
    }
}

#[test]
fn generated_traces_call_denied_drivers_in_every_case() {
    let (mut cases, mut owned) = (BTreeMap::new(), 0);
    for index in 0..300 {
        for call in denied_calls(&generate_mixed(104, index)) {
            *cases.entry(call.case).or_insert(0) += 1;
            owned += usize::from(call.is_owned);
        }
    }
    for case in CASES {
        let count = cases.get(case).copied().unwrap_or(0);
        assert!(count >= 50, "{case}: {count} of {cases:?}");
    }
    assert_eq!(cases.len(), CASES.len(), "{cases:?}");
    assert!(owned >= 100, "{owned} of {cases:?}");
}

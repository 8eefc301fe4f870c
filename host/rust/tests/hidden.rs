//! A process cannot tell a driver that is denied to it from one that is not installed, by any call: each class written out; and the second
//! program's pairs of traces, made by the library, where on either board the process makes the same steps and the others do something else.

mod steps;

use makvluria::{
    call, start, Answer, Class, Driver, ErrorCode, Process, Returned, IMAGE_BYTES, TABLE_WORDS,
};
use second::board::{DriverNumber, ProcessIndex};
use second::generate::hidden::{hidden, Hidden};
use second::random::Random;
use second::step::Step;
use second::trace::read_trace;

const SEED: u64 = 104;
const WALKS: u64 = 3000;

/// The four classes that name a driver.
const CLASSES: [Class; 4] =
    [Class::SUBSCRIBE, Class::COMMAND, Class::READ_WRITE_ALLOW, Class::READ_ONLY_ALLOW];

/// The two images at the start.
struct Images {
    memory: Vec<u8>,
    flash: Vec<u8>,
}

/// What a process sees: its calls and resumes, each with its answer.
type Seen<'a> = Vec<(Step<'a>, Answer)>;

/// Makes all steps of a trace, and gives what the process sees of it.
fn seen<'a>(trace: &'a [u8], images: &Images, process: ProcessIndex) -> Seen<'a> {
    let (board, steps) = read_trace(trace).unwrap();
    let (mut table, mut memory) = (vec![0; TABLE_WORDS], images.memory.clone());
    assert_eq!(start(&mut table, &board), Answer::Started);
    let mut seen = Vec::new();
    for step in steps {
        let answer = steps::make(&mut table, &mut memory, &images.flash, step);
        let is_seen = matches!(step, Step::Call { .. } | Step::Resume { .. });
        if is_seen && step.process() == Some(process) {
            seen.push((step, answer));
        }
    }
    seen
}

/// Whether it is a call of this class of the driver, answered NODEVICE.
fn is_unreached((step, answer): &(Step, Answer), called: Class, driver: DriverNumber) -> bool {
    let Step::Call { class, registers: [number, ..], .. } = *step else { return false };
    let failed = match answer.returned() {
        Some(Returned::Failure(code) | Returned::FailureWith2U32(code, ..)) => Some(code),
        _ => None,
    };
    Class(class) == called && number == driver.0 && failed == Some(ErrorCode::NoDevice)
}

#[test]
fn a_denied_driver_is_seen_as_one_not_installed() {
    let mut random = Random::new(&[SEED]);
    let images = Images { memory: random.bytes(IMAGE_BYTES), flash: random.bytes(IMAGE_BYTES) };
    let (mut pairs, mut answers, mut calls) = (0, 0, [0; 4]);
    for index in 0..WALKS {
        for Hidden { process, driver, denied, absent } in hidden(SEED, index) {
            let with_driver = seen(&denied, &images, process);
            let without_driver = seen(&absent, &images, process);
            assert_eq!(with_driver.len(), without_driver.len(), "walk {index}");
            for (one, other) in with_driver.iter().zip(&without_driver) {
                assert_eq!(one, other, "walk {index}, {process:?}, {driver:?}");
            }
            pairs += 1;
            answers += with_driver.len();
            for (class, calls) in CLASSES.into_iter().zip(&mut calls) {
                let unreached = with_driver.iter().filter(|seen| is_unreached(seen, class, driver));
                *calls += unreached.count();
            }
        }
    }
    // The driver is called, in every class, or nothing has been shown.
    assert!(pairs >= 2000 && answers >= 15_000, "{pairs} pairs, {answers} answers");
    assert!(calls.iter().all(|&calls| calls >= 1000), "{calls:?}");
}

/// Process 0 may not call the second driver; process 1 may.
#[rustfmt::skip]
const BOARD: [u32; 26] = [
    2,
    0x2000_0000, 0x2000_2000, 0x2000_1800, 0x2000_1000, 0x0004_0000, 0x0004_4000, 1,
    0x2000_2000, 0x2000_4000, 0x2000_3800, 0x2000_3000, 0x0004_4000, 0x0004_8000, 3,
    2,
    1, 2, 1, 1, 0,
    DENIED.0, 1, 1, 1, 1,
];
const FIRST: Process = Process(0);
const SECOND: Process = Process(1);
const DENIED: Driver = Driver(0x9_0000);
const ABSENT: Driver = Driver(7);

/// Sees that process 0 gets what it gets of a driver that is not installed, in all four classes, and that nothing changes.
fn expect_unreached(table: &mut [u32], driver: Driver, slot: u32, [r2, r3]: [u32; 2]) {
    let (before, mut memory) = (table.to_vec(), vec![0; IMAGE_BYTES]);
    for (class, expected) in [
        (Class::SUBSCRIBE, [2, 11, 0, 0]),
        (Class::COMMAND, [0, 11, 0, 0]),
        (Class::READ_WRITE_ALLOW, [2, 11, r2, r3]),
        (Class::READ_ONLY_ALLOW, [2, 11, r2, r3]),
    ] {
        let registers = [driver.0, slot, r2, r3];
        let answer = call(table, &mut memory, FIRST, class, registers);
        assert_eq!(answer, Answer::Registers(expected), "{class}, {registers:x?}");
    }
    assert!(table == before);
}

/// With slots that the driver has and that no driver has, and with values that a slot would take and would not.
fn expect_all_unreached(table: &mut [u32]) {
    for driver in [DENIED, ABSENT] {
        for slot in [0, 1, 9, u32::MAX] {
            for values in [[0x0004_0010, 7], [0x2000_0000, 4], [0xFFFF_FFFF, 2], [0, 0]] {
                expect_unreached(table, driver, slot, values);
            }
        }
    }
}

#[test]
fn each_class_written_out() {
    let (mut table, mut memory) = (vec![0; TABLE_WORDS], vec![0; IMAGE_BYTES]);
    assert_eq!(start(&mut table, &BOARD), Answer::Started);
    expect_all_unreached(&mut table);
    // The other process claims the driver.
    let claim = [DENIED.0, 1, 0, 0];
    let claimed = call(&mut table, &mut memory, SECOND, Class::COMMAND, claim);
    assert_eq!(claimed, Answer::Registers([128, 0, 0, 0]));
    expect_all_unreached(&mut table);
}

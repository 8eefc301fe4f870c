//! A few small traces, and every small damage of a trace.

use crate::board::{DriverNumber, ProcessIndex};
use crate::limits::QUEUE_CAPACITY;
use crate::step::Step;
use crate::trace::write_trace;
use crate::variant::Registers;

/// The whole case of document 01.
pub const WHOLE_CASE: [u8; 46] = [
    0x09, 0x01, 0x80, 0x80, 0x80, 0x80, 0x02, 0x80, 0x80, 0x84, 0x80, 0x02, 0x80, 0x80, 0x84, 0x80,
    0x02, 0x80, 0x80, 0x80, 0x80, 0x02, 0x80, 0x80, 0x10, 0x80, 0x80, 0x14, 0x00, 0x00, 0x00, 0x00,
    0x05, 0x02, 0x00, 0x00, 0x00, 0x00, 0x00, 0x00, 0x01, 0x00, 0x00, 0x00, 0x02, 0x00,
];

/// One process with a few bytes of RAM, and one shared driver with one slot
/// of each kind.
#[rustfmt::skip]
const SMALL_BOARD: [u32; 14] = [
    1, 0x2000_0000, 0x2000_0020, 0x2000_0010, 0x2000_0008, 0x4_0000, 0x4_0010, 1,
    1, DRIVER.0, 1, 1, 1, 1,
];

const PROCESS: ProcessIndex = ProcessIndex(0);
const DRIVER: DriverNumber = DriverNumber(1);

/// Every proper beginning of a trace, the empty one first.
pub fn every_cut(trace: &[u8]) -> impl Iterator<Item = &[u8]> {
    (0..trace.len()).map(|length| &trace[..length])
}

/// Every trace that differs from this one in exactly one byte.
pub fn every_one_byte_change(trace: &[u8]) -> impl Iterator<Item = Vec<u8>> + '_ {
    (0..trace.len()).flat_map(move |place| {
        (1..=u8::MAX).map(move |difference| {
            let mut changed = trace.to_vec();
            changed[place] ^= difference;
            changed
        })
    })
}

/// Traces short enough to try every cut and every one-byte change of them.
pub fn small_corpus() -> Vec<Vec<u8>> {
    let mut corpus = vec![WHOLE_CASE.to_vec()];
    let runs = [upcalls(), buffers(), commands(), full_queue()];
    corpus.extend(runs.iter().map(|steps| write_trace(&SMALL_BOARD, steps)));
    corpus
}

fn call(class: u8, registers: Registers) -> Step<'static> {
    Step::Call { process: PROCESS, class, registers }
}

fn subscribe(data: u32) -> Step<'static> {
    call(1, [DRIVER.0, 0, 0x4_0001, data])
}

fn event(argument: u32) -> Step<'static> {
    Step::Event { process: PROCESS, driver: DRIVER, slot: 0, arguments: [argument, 300, 0] }
}

const YIELD_NO_WAIT: Registers = [0, 0x2000_0007, 0, 0];
const YIELD_WAIT: Registers = [1, 0, 0, 0];

fn upcalls() -> Vec<Step<'static>> {
    vec![
        subscribe(5),
        event(1),
        event(2),
        call(0, YIELD_NO_WAIT),
        subscribe(6),
        call(0, YIELD_WAIT),
        event(3),
        Step::Resume { process: PROCESS },
    ]
}

fn buffers() -> Vec<Step<'static>> {
    let (process, driver, slot) = (PROCESS, DRIVER, 0);
    vec![
        call(3, [driver.0, slot, 0x2000_0004, 4]),
        Step::Deposit { process, driver, slot, offset: 1, bytes: &[7, 8, 200] },
        call(4, [driver.0, slot, 0x2000_0003, 5]),
        Step::Fetch { process, driver, slot, offset: 1, length: 4 },
        call(5, [1, 8, 0, 0]),
        call(5, [0, 0x2000_0007, 0, 0]),
    ]
}

fn commands() -> Vec<Step<'static>> {
    vec![
        Step::Latch { driver: DRIVER, peak: -1 },
        call(2, [DRIVER.0, 1, 0, 0]),
        call(2, [DRIVER.0, 3, 0, 0]),
        call(6, [1, 9, 0, 0]),
        call(2, [DRIVER.0, 3, 0, 0]),
        call(6, [0, 9, 0, 0]),
        Step::Resume { process: PROCESS },
    ]
}

fn full_queue() -> Vec<Step<'static>> {
    const ONE_TOO_MANY: u32 = QUEUE_CAPACITY as u32 + 1;
    let mut steps = vec![subscribe(5)];
    steps.extend((0..ONE_TOO_MANY).map(event));
    steps.push(call(0, YIELD_WAIT));
    steps.push(event(ONE_TOO_MANY));
    steps
}

//! Traces whose states use every part of a table: they are written as words,
//! and the words are changed one by one.

use crate::board::{DriverNumber, ProcessIndex};
use crate::step::Step;
use crate::trace::write_trace;

/// A board and steps, named after the table that they reach.
pub struct Reached {
    pub name: &'static str,
    pub trace: Vec<u8>,
}

/// Traces that are good to their end. None of their steps is refused.
pub fn reached() -> Vec<Reached> {
    let two = two_processes();
    let limits = board_at_limits();
    let tables: [(&str, &[u32], Vec<Step>); 11] = [
        ("fresh", &two, vec![]),
        ("worked", &two, worked()),
        ("limits", &limits, worked_at_limits()),
        ("alone", &ALONE, vec![break_to(0, 0x2000_8000)]),
        ("crowded", &crowded_board(), crowded()),
        ("exited", &two, [worked(), exited()].concat()),
        ("restarted", &two, [worked(), restarted()].concat()),
        ("least", &LEAST, least()),
        ("denied", &DENIED, denied()),
        ("gaps", &GAPS, gaps()),
        ("drained", &two, [worked(), drained()].concat()),
    ];
    tables.map(|(name, board, steps)| Reached { name, trace: write_trace(board, &steps) }).into()
}

fn call(process: u32, class: u8, registers: [u32; 4]) -> Step<'static> {
    Step::Call { process: ProcessIndex(process), class, registers }
}

fn yield_wait(process: u32) -> Step<'static> {
    call(process, 0, [1, 0, 0, 0])
}

fn subscribe(process: u32, driver: u32, slot: u32, [pointer, data]: [u32; 2]) -> Step<'static> {
    call(process, 1, [driver, slot, pointer, data])
}

fn claim(process: u32, driver: u32) -> Step<'static> {
    call(process, 2, [driver, 1, 0, 0])
}

fn release(process: u32, driver: u32) -> Step<'static> {
    call(process, 2, [driver, 2, 0, 0])
}

fn read_write(process: u32, driver: u32, slot: u32, [address, size]: [u32; 2]) -> Step<'static> {
    call(process, 3, [driver, slot, address, size])
}

fn read_only(process: u32, driver: u32, slot: u32, [address, size]: [u32; 2]) -> Step<'static> {
    call(process, 4, [driver, slot, address, size])
}

fn break_to(process: u32, to: u32) -> Step<'static> {
    call(process, 5, [0, to, 0, 0])
}

fn exit(process: u32) -> Step<'static> {
    call(process, 6, [0, 0, 0, 0])
}

fn restart(process: u32) -> Step<'static> {
    call(process, 6, [1, 0, 0, 0])
}

fn event(process: u32, driver: u32, slot: u32, arguments: [u32; 3]) -> Step<'static> {
    let (process, driver) = (ProcessIndex(process), DriverNumber(driver));
    Step::Event { process, driver, slot, arguments }
}

fn resume(process: u32) -> Step<'static> {
    Step::Resume { process: ProcessIndex(process) }
}

fn latch(driver: u32, peak: i32) -> Step<'static> {
    Step::Latch { driver: DriverNumber(driver), peak }
}

/// Document 01's board: an unshared driver 1 and a shared one.
const SHARED: u32 = 0x9_0000;

fn two_processes() -> Vec<u32> {
    let mut words = vec![2];
    words.extend([0x2000_0000, 0x2000_2000, 0x2000_1800, 0x2000_1000, 0x4_0000, 0x4_4000, 3]);
    words.extend([0x2000_2000, 0x2000_4000, 0x2000_3800, 0x2000_3000, 0x4_4000, 0x4_8000, 3]);
    words.push(2);
    words.extend([1, 2, 1, 1, 0]);
    words.extend([SHARED, 1, 1, 0, 1]);
    words
}

/// Process 0 has subscribed to two slots, holds buffers up to its break and its
/// flash's end, and its queue is full. Process 1 has raised its break, holds a
/// read-only buffer up to it and an empty one, owns the shared driver, and waits.
fn worked() -> Vec<Step<'static>> {
    let mut steps = vec![
        subscribe(0, 1, 0, [0x4_0010, 7]),
        subscribe(0, 1, 1, [0x4_3FFF, 8]),
        read_write(0, 1, 0, [0x2000_0F00, 0x100]),
        read_write(0, SHARED, 0, [0x2000_0000, 0x1000]),
        read_only(0, 1, 0, [0x4_3FFF, 1]),
    ];
    steps.extend((0..16).map(|number| match number % 2 {
        0 => event(0, 1, 0, [number, 0, 0xFFFF_FFFF]),
        _ => event(0, 1, 1, [number, 1, 0x8000_0000]),
    }));
    steps.extend([
        break_to(1, 0x2000_3800),
        subscribe(1, 1, 0, [0, 9]),
        subscribe(1, SHARED, 0, [0x4_4000, 0]),
        read_write(1, 1, 0, [0xFFFF_FFFF, 0]),
        read_only(1, 1, 0, [0x2000_3000, 0x800]),
        latch(SHARED, -1),
        claim(1, SHARED),
        yield_wait(1),
    ]);
    steps
}

/// Both exit; a process that waits has to be woken for it. The latch stays.
fn exited() -> Vec<Step<'static>> {
    vec![event(1, SHARED, 0, [1, 2, 3]), resume(1), exit(1), exit(0)]
}

/// Process 0 begins anew and holds a little, and process 1 goes on waiting.
fn restarted() -> Vec<Step<'static>> {
    vec![restart(0), subscribe(0, SHARED, 0, [0x4_0000, 1]), read_only(0, 1, 0, [0x2000_0000, 1])]
}

/// Some upcalls are delivered, those of one slot cancelled, and one queued after
/// the others; the shared driver is released with its latch.
fn drained() -> Vec<Step<'static>> {
    vec![
        yield_wait(0),
        yield_wait(0),
        yield_wait(0),
        subscribe(0, 1, 0, [0x4_0020, 5]),
        event(0, 1, 0, [9, 9, 9]),
        break_to(0, 0x2000_1800),
        event(1, SHARED, 0, [4, 5, 6]),
        resume(1),
        release(1, SHARED),
    ]
}

/// Eight processes, whose areas do not stand in the order of the processes, and
/// sixteen drivers with all slots, every second one shared, numbered from 0 to
/// the largest number. Process 4 has one byte of flash; process 6 has one byte
/// of RAM, in its grant region, and may not use the last driver; process 7 has
/// no grant region.
fn board_at_limits() -> Vec<u32> {
    let mut words = vec![8];
    for process in 0..8 {
        let from = if process == 7 { 0xE000 } else { process * 3 % 7 * 0x2000 };
        let (ram, flash) = (0x2000_0000 + from, 0x4_0000 + from);
        words.extend(match process {
            4 => [ram, ram + 0x2000, ram + 0x1800, ram + 0x1000, flash, flash + 1, 0xFFFF],
            6 => [ram, ram + 1, ram, ram, flash, flash + 0x2000, 0x7FFF],
            7 => [ram, ram + 0x2000, ram + 0x2000, ram + 0x1000, flash, flash + 0x2000, 0xFFFF],
            _ => [ram, ram + 0x2000, ram + 0x1800, ram + 0x1000, flash, flash + 0x2000, 0xFFFF],
        });
    }
    words.push(16);
    for place in 0..16 {
        words.extend([place * 0x1111_1111, 4, 4, 4, place % 2]);
    }
    words
}

/// The ends of what there is: the last slots of the last driver, held up to the
/// last bytes, sixteen upcalls of one slot, claims, an exited and a waiting
/// process. Two read-write slots hold the pair of a subscribe slot too: they
/// stand where the index of a driver or a slot one too high would lead.
fn worked_at_limits() -> Vec<Step<'static>> {
    const LAST: u32 = 0xFFFF_FFFF;
    let mut steps = vec![
        subscribe(6, 0x1111_1111, 3, [0x4_9FFF, 9]),
        read_only(6, 0, 0, [0x4_8000, 0x2000]),
        exit(3),
        subscribe(5, 0, 0, [0x4_3FFF, 6]),
        yield_wait(5),
        event(5, 0, 0, [1, 2, 3]),
        break_to(7, 0x2001_0000),
        subscribe(7, LAST, 3, [0x4_E000, 0]),
        read_write(7, LAST, 3, [0x2000_FFFF, 1]),
        read_only(7, LAST, 2, [0x2000_E000, 0x2000]),
        read_only(7, LAST, 3, [0x4_F000, 0x1000]),
        read_write(7, 0, 0, [0x4_E000, 0]),
        read_write(7, 0, 3, [0x4_E000, 0]),
    ];
    steps.extend((0..16).map(|number| event(7, LAST, 3, [number, 0, 0xFFFF_FFFF])));
    steps.extend([
        claim(0, 0x3333_3333),
        latch(0x3333_3333, 7),
        release(0, 0x3333_3333),
        claim(0, 0x1111_1111),
        claim(4, 0x5555_5555),
        latch(0x5555_5555, i32::MAX),
        claim(7, LAST),
        latch(LAST, i32::MIN),
    ]);
    steps
}

/// One process with all the memory there is, and no driver.
#[rustfmt::skip]
const ALONE: [u32; 9] = [
    1, 0x2000_0000, 0x2001_0000, 0x2001_0000, 0x2000_0000, 0x4_0000, 0x5_0000, 0,
    0,
];

/// A board at the limits on which every process may use every driver.
fn crowded_board() -> Vec<u32> {
    let mut words = vec![8];
    for process in 0..8 {
        let (ram, flash) = (0x2000_0000 + process * 0x2000, 0x4_0000 + process * 0x2000);
        let breaks = [ram + 0x1800, ram + 0x1000];
        words.extend([ram, ram + 0x2000, breaks[0], breaks[1], flash, flash + 0x2000, 0xFFFF]);
    }
    words.push(16);
    for place in 0..16 {
        words.extend([place * 0x1000, 4, 4, 4, place % 2]);
    }
    words
}

/// Every slot is in use, every queue is full, and every shared driver owned.
fn crowded() -> Vec<Step<'static>> {
    let mut steps = Vec::new();
    for process in 0..8 {
        let (ram, flash) = (0x2000_0000 + process * 0x2000, 0x4_0000 + process * 0x2000);
        for slot in 0..64 {
            let (driver, number) = (slot / 4 * 0x1000, slot % 4);
            steps.push(subscribe(process, driver, number, [flash + 4 * slot, slot]));
            steps.push(read_write(process, driver, number, [ram + 16 * slot, 16]));
            steps.push(read_only(process, driver, number, [flash + 16 * slot, 16]));
        }
        for entry in 0..16 {
            let slot = entry * 4 + 3 - entry % 4;
            steps.push(event(process, slot / 4 * 0x1000, slot % 4, [1, 2, 3]));
        }
        steps.push(claim(process, (2 * process + 1) * 0x1000));
        steps.push(latch((2 * process + 1) * 0x1000, i32::MIN + process as i32));
    }
    steps
}

/// One byte of RAM, which is accessible, one byte of flash, and one slot.
#[rustfmt::skip]
const LEAST: [u32; 14] = [
    1, 0x2000_FFFF, 0x2001_0000, 0x2001_0000, 0x2001_0000, 0x4_FFFF, 0x5_0000, 1,
    1, 0, 1, 1, 1, 1,
];

fn least() -> Vec<Step<'static>> {
    vec![
        subscribe(0, 0, 0, [0x4_FFFF, 0xFFFF_FFFF]),
        read_write(0, 0, 0, [0x2000_FFFF, 1]),
        read_only(0, 0, 0, [0x4_FFFF, 1]),
        event(0, 0, 0, [0, 0, 0]),
        claim(0, 0),
    ]
}

/// Process 0 may use the second driver only, process 1 none.
#[rustfmt::skip]
const DENIED: [u32; 26] = [
    2,
    0x2000_8000, 0x2000_9000, 0x2000_8800, 0x2000_8800, 0x4_8000, 0x4_9000, 2,
    0x2000_0000, 0x2000_8000, 0x2000_4000, 0x2000_0000, 0x4_0000, 0x4_8000, 0,
    2,
    5, 4, 4, 4, 1,
    6, 1, 1, 1, 1,
];

fn denied() -> Vec<Step<'static>> {
    vec![
        claim(0, 6),
        latch(5, 1),
        latch(6, -2),
        subscribe(0, 6, 0, [0x4_8FFF, 1]),
        event(0, 6, 0, [7, 8, 9]),
        break_to(1, 0x2000_4000),
        // These fail, and leave nothing in the table.
        claim(0, 5),
        subscribe(0, 5, 3, [0x4_8000, 2]),
        read_write(0, 5, 3, [0x2000_8000, 4]),
        read_only(0, 5, 3, [0x4_8000, 4]),
        release(1, 6),
        subscribe(1, 6, 0, [0x4_0000, 3]),
        read_write(1, 6, 0, [0x2000_0000, 4]),
        read_only(1, 6, 0, [0x4_0000, 4]),
        yield_wait(1),
    ]
}

/// Three drivers, each with slots of one kind only.
#[rustfmt::skip]
const GAPS: [u32; 24] = [
    1, 0x2000_4000, 0x2000_8000, 0x2000_7000, 0x2000_6000, 0x4_2000, 0x4_3000, 7,
    3,
    1, 4, 0, 0, 0,
    0x80, 0, 3, 0, 1,
    0x4000, 0, 0, 2, 0,
];

fn gaps() -> Vec<Step<'static>> {
    vec![
        subscribe(0, 1, 3, [0x4_2000, 3]),
        subscribe(0, 1, 1, [0x4_2FFF, 1]),
        read_write(0, 0x80, 2, [0x2000_5FFF, 1]),
        read_write(0, 0x80, 0, [0x2000_4000, 0x2000]),
        read_only(0, 0x4000, 1, [0x4_2000, 0x1000]),
        read_only(0, 0x4000, 0, [0x2000_4001, 0x1FFF]),
        event(0, 1, 3, [0, 1, 2]),
        event(0, 1, 1, [3, 4, 5]),
        event(0, 1, 3, [6, 7, 8]),
        claim(0, 0x80),
    ]
}

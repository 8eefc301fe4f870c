//! The benchmark's trace: a board at the limits, and calls alone. One third
//! allow, one third subscribe and one third yield no-wait, by eight processes;
//! every one is accepted. The same count always gives the same bytes.

use crate::board::ProcessIndex;
use crate::random::Random;
use crate::step::Step;
use crate::trace::{write_board, write_step};
use crate::variant::Registers;

/// The calls of the benchmark.
pub const CALLS: usize = 999_999;

const PROCESSES: u32 = 8;

/// Drivers: number, subscribe, read-write and read-only slots, shared or not. With numbers like
/// Tock's, one to three bytes long.
const DRIVERS: [[u32; 5]; 16] = [
    [0x00000, 1, 1, 1, 0],
    [0x00001, 4, 2, 2, 0],
    [0x00002, 1, 1, 1, 0],
    [0x00003, 2, 1, 1, 0],
    [0x00004, 4, 4, 4, 0],
    [0x00005, 2, 3, 1, 1],
    [0x00006, 1, 2, 2, 1],
    [0x00008, 1, 1, 1, 0],
    [0x20001, 3, 2, 4, 1],
    [0x20003, 1, 4, 4, 1],
    [0x30000, 4, 4, 2, 0],
    [0x40001, 1, 1, 2, 1],
    [0x40003, 2, 1, 3, 1],
    [0x50001, 3, 2, 2, 0],
    [0x60000, 1, 1, 1, 0],
    [0x90000, 4, 4, 4, 1],
];

/// Bytes of RAM and of flash of each process; where in its RAM the break and the grant region are.
const AREA: u32 = 0x2000;
const BREAK: u32 = AREA / 2;
const GRANT: u32 = AREA / 4 * 3;

const YIELD: u8 = 0;
const SUBSCRIBE: u8 = 1;
const ALLOW_READ_WRITE: u8 = 3;
const ALLOW_READ_ONLY: u8 = 4;

const MAX_BUFFER: u32 = 0x200;

fn ram(process: u32) -> u32 {
    0x2000_0000 + AREA * process
}

fn flash(process: u32) -> u32 {
    0x0004_0000 + AREA * process
}

/// The trace with this many calls, a multiple of three.
pub fn trace(calls: usize) -> Vec<u8> {
    assert!(calls.is_multiple_of(3), "a third of the calls for each kind");
    let mut trace = Vec::new();
    write_board(&mut trace, &board());
    let mut random = Random::from_state(6);
    for _ in 0..calls / 3 {
        for third in any_order(&mut random) {
            write_step(&mut trace, call(&mut random, third));
        }
    }
    trace
}

fn board() -> Vec<u32> {
    let mut words = vec![PROCESSES];
    for process in 0..PROCESSES {
        let (ram, flash) = (ram(process), flash(process));
        words.extend([ram, ram + AREA, ram + GRANT, ram + BREAK, flash, flash + AREA, 0xFFFF]);
    }
    words.push(DRIVERS.len() as u32);
    words.extend(DRIVERS.as_flattened());
    words
}

/// A third of the calls.
#[derive(Clone, Copy)]
enum Third {
    Allow,
    Subscribe,
    YieldNoWait,
}

fn call(random: &mut Random, third: Third) -> Step<'static> {
    let process = below(random, PROCESSES);
    let (class, registers) = match third {
        Third::Allow => allow(random, process),
        Third::Subscribe => (SUBSCRIBE, subscribe(random, process)),
        Third::YieldNoWait => (YIELD, yield_no_wait(random, process)),
    };
    Step::Call { process: ProcessIndex(process), class, registers }
}

/// Read-write or read-only; one in eight takes the buffer back with size 0, and half of the
/// read-only ones lie in flash.
fn allow(random: &mut Random, process: u32) -> (u8, Registers) {
    let class = ALLOW_READ_WRITE + random.below(2) as u8;
    let [driver, slot] = any_slot(random, class - 1);
    let (start, end) = match class {
        ALLOW_READ_ONLY if random.below(2) == 0 => (flash(process), flash(process) + AREA),
        _ => (ram(process), ram(process) + BREAK),
    };
    let size = 1 + below(random, MAX_BUFFER);
    let address = start + below(random, end - start - size + 1);
    match random.below(8) {
        0 => (class, [driver, slot, 0, 0]),
        _ => (class, [driver, slot, address, size]),
    }
}

/// One in eight takes the null upcall.
fn subscribe(random: &mut Random, process: u32) -> Registers {
    let [driver, slot] = any_slot(random, 1);
    let (pointer, data) = (flash(process) + below(random, AREA), any_data(random));
    match random.below(8) {
        0 => [driver, slot, 0, 0],
        _ => [driver, slot, pointer, data],
    }
}

/// Half of the bytes are the process's own; the others are nobody's, the next process's or above
/// the break.
fn yield_no_wait(random: &mut Random, process: u32) -> Registers {
    let address = match random.below(6) {
        0..=2 => ram(process) + below(random, BREAK),
        3 => 0,
        4 => ram((process + 1) % PROCESSES) + below(random, BREAK),
        _ => ram(process) + BREAK + below(random, AREA - BREAK),
    };
    [0, address, 0, 0]
}

fn below(random: &mut Random, bound: u32) -> u32 {
    random.below(bound as usize) as u32
}

/// A driver's number and one of its slots, of the kind whose count stands at
/// this place of a driver.
fn any_slot(random: &mut Random, kind: u8) -> [u32; 2] {
    let driver = random.pick(&DRIVERS);
    [driver[0], below(random, driver[usize::from(kind)])]
}

/// Application data: a small number, or a pointer into RAM as libraries pass it.
fn any_data(random: &mut Random) -> u32 {
    match random.below(2) {
        0 => below(random, 1_000),
        _ => ram(0) + below(random, 0x1_0000),
    }
}

/// The three kinds of calls in any order, so that none can be told from the one
/// before.
fn any_order(random: &mut Random) -> [Third; 3] {
    let mut thirds = [Third::Allow, Third::Subscribe, Third::YieldNoWait];
    random.shuffle(&mut thirds);
    thirds
}

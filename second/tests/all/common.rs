//! Steps from plain numbers, the board of document 01's cases, and lines.

use second::board::{DriverNumber, ProcessIndex};
use second::replay::replay_to_vec;
use second::step::Step;
use second::trace::write_trace;

pub const CONSOLE: u32 = 0x1;
pub const CORRELATOR: u32 = 0x9_0000;

/// The board of the twelve cases.
#[rustfmt::skip]
pub const CASE_BOARD: [u32; 26] = [
    2, // processes: S, E, G, B, F, FE, mask
    0x2000_0000, 0x2000_2000, 0x2000_1800, 0x2000_1000, 0x4_0000, 0x4_4000, 3,
    0x2000_2000, 0x2000_4000, 0x2000_3800, 0x2000_3000, 0x4_4000, 0x4_8000, 3,
    2, // drivers: number, subscribe, read-write and read-only slots, shared
    CONSOLE, 2, 1, 1, 0,
    CORRELATOR, 1, 1, 0, 1,
];

pub fn call(process: u32, class: u8, registers: [u32; 4]) -> Step<'static> {
    Step::Call { process: ProcessIndex(process), class, registers }
}

pub fn subscribe(process: u32, driver: u32, slot: u32, upcall: [u32; 2]) -> Step<'static> {
    call(process, 1, [driver, slot, upcall[0], upcall[1]])
}

pub fn command(process: u32, driver: u32, number: u32) -> Step<'static> {
    call(process, 2, [driver, number, 0, 0])
}

pub fn allow_rw(process: u32, driver: u32, slot: u32, buffer: [u32; 2]) -> Step<'static> {
    call(process, 3, [driver, slot, buffer[0], buffer[1]])
}

pub fn allow_ro(process: u32, driver: u32, slot: u32, buffer: [u32; 2]) -> Step<'static> {
    call(process, 4, [driver, slot, buffer[0], buffer[1]])
}

pub fn yield_no_wait(process: u32, field: u32) -> Step<'static> {
    call(process, 0, [0, field, 0, 0])
}

pub fn yield_wait(process: u32) -> Step<'static> {
    call(process, 0, [1, 0, 0, 0])
}

pub fn break_to(process: u32, to: u32) -> Step<'static> {
    call(process, 5, [0, to, 0, 0])
}

pub fn break_by(process: u32, change: u32) -> Step<'static> {
    call(process, 5, [1, change, 0, 0])
}

pub fn terminate(process: u32, code: u32) -> Step<'static> {
    call(process, 6, [0, code, 0, 0])
}

pub fn restart(process: u32, code: u32) -> Step<'static> {
    call(process, 6, [1, code, 0, 0])
}

pub fn event(process: u32, driver: u32, slot: u32, arguments: [u32; 3]) -> Step<'static> {
    let (process, driver) = (ProcessIndex(process), DriverNumber(driver));
    Step::Event { process, driver, slot, arguments }
}

pub fn resume(process: u32) -> Step<'static> {
    Step::Resume { process: ProcessIndex(process) }
}

pub fn deposit(process: u32, driver: u32, slot: u32, offset: u32, bytes: &[u8]) -> Step<'_> {
    let (process, driver) = (ProcessIndex(process), DriverNumber(driver));
    Step::Deposit { process, driver, slot, offset, bytes }
}

pub fn fetch(process: u32, driver: u32, slot: u32, offset: u32, length: u32) -> Step<'static> {
    let (process, driver) = (ProcessIndex(process), DriverNumber(driver));
    Step::Fetch { process, driver, slot, offset, length }
}

pub fn latch(driver: u32, peak: i32) -> Step<'static> {
    Step::Latch { driver: DriverNumber(driver), peak }
}

/// What the program writes for a trace.
pub fn output(trace: &[u8]) -> String {
    String::from_utf8(replay_to_vec(trace)).expect("lines are plain text")
}

/// The lines for a board and steps, without their ends.
pub fn lines_on(words: &[u32], steps: &[Step]) -> Vec<String> {
    output(&write_trace(words, steps)).lines().map(String::from).collect()
}

/// The lines for steps on the board of the cases.
pub fn lines(steps: &[Step]) -> Vec<String> {
    lines_on(&CASE_BOARD, steps)
}

/// A line from its letter and numbers.
pub fn line(letter: char, numbers: &[u32]) -> String {
    let mut line = String::from(letter);
    for number in numbers {
        line += &format!(" {number}");
    }
    line
}

/// The line of a call's return registers.
pub fn a(r0: u32, r1: u32, r2: u32, r3: u32) -> String {
    line('A', &[r0, r1, r2, r3])
}

/// The line of a refusal.
pub fn x(number: u32) -> String {
    line('X', &[number])
}

/// The line of a delivery.
pub fn u(pointer: u32, registers: [u32; 4]) -> String {
    let [r0, r1, r2, r3] = registers;
    line('U', &[pointer, r0, r1, r2, r3])
}

/// A step and the line that it must give.
pub type Expected<'a> = (Step<'a>, String);

/// Runs the steps on the board of the cases and compares every line.
#[track_caller]
pub fn expect(expected: &[Expected]) {
    expect_on(&CASE_BOARD, expected);
}

#[track_caller]
pub fn expect_on(words: &[u32], expected: &[Expected]) {
    let steps: Vec<Step> = expected.iter().map(|(step, _)| *step).collect();
    let wanted: Vec<&str> = expected.iter().map(|(_, line)| line.as_str()).collect();
    assert_eq!(lines_on(words, &steps), wanted);
}

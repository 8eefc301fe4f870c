//! Steps per second; run with `cargo test --release -- --ignored --nocapture`.

use std::time::{Duration, Instant};

use crate::common::*;
use second::generate::{generate, Kind};
use second::replay::replay_any_length;
use second::state::Machine;
use second::trace::{write_board, write_step, Reader};

/// Eight processes and four drivers with every kind of slot.
fn eight_processes() -> Vec<u32> {
    let mut words = vec![8];
    for index in 0..8 {
        let (ram, flash) = (0x2000_0000 + 0x2000 * index, 0x4_0000 + 0x2000 * index);
        words.extend([ram, ram + 0x2000, ram + 0x1800, ram + 0x1000, flash, flash + 0x2000, 15]);
    }
    words.push(4);
    for number in 0..4 {
        words.extend([number, 4, 4, 4, 0]);
    }
    words
}

/// One third allows, one third subscribes, one third yields without waiting.
fn calls(count: u32) -> Vec<u8> {
    let mut trace = Vec::new();
    write_board(&mut trace, &eight_processes());
    for number in 0..count {
        let process = number / 3 % 8;
        let (driver, slot) = (number / 24 % 4, number / 96 % 4);
        let (ram, flash) = (0x2000_0000 + 0x2000 * process, 0x4_0000 + 0x2000 * process);
        let step = match number % 3 {
            0 => allow_rw(process, driver, slot, [ram + number % 0x800, 64]),
            1 => subscribe(process, driver, slot, [flash + number % 0x2000, number]),
            _ => yield_no_wait(process, ram + number % 0x1000),
        };
        write_step(&mut trace, step);
    }
    trace
}

fn report(what: &str, steps: u32, time: Duration) {
    let rate = f64::from(steps) / time.as_secs_f64() / 1e6;
    println!("{what}: {steps} steps in {time:?}, {rate:.1} million per second");
}

#[test]
#[ignore = "measures time"]
fn calls_per_second() {
    let count = 999_999;
    let trace = calls(count);
    let mut out = Vec::new();
    let begin = Instant::now();
    replay_any_length(&trace, &mut out).expect("a Vec takes all");
    report("calls with their lines", count, begin.elapsed());
    assert!(!out.contains(&b'X') && !out.windows(4).any(|part| part == b"A 0 " || part == b"A 2 "));

    let mut reader = Reader::new(&trace);
    let mut machine = Machine::start(&reader.board().expect("a board")).expect("a good board");
    let begin = Instant::now();
    while let Ok(Some(step)) = reader.step() {
        let _ = machine.step(step);
    }
    report("calls without lines", count, begin.elapsed());
}

#[test]
#[ignore = "measures time"]
fn walk_steps_per_second() {
    let traces: Vec<Vec<u8>> = (0..500).map(|index| generate(1, Kind::Walk, index)).collect();
    let mut out = Vec::new();
    let begin = Instant::now();
    for trace in &traces {
        replay_any_length(trace, &mut out).expect("a Vec takes all");
    }
    let time = begin.elapsed();
    let steps = out.iter().filter(|&&byte| byte == b'\n').count();
    report("walks with their lines", steps as u32, time);
}

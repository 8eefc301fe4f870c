//! Every refusal, and the order in which they are judged.

use crate::common::*;
use second::state::QUEUE_CAPACITY;

const MISSING_DRIVER: u32 = 77;

#[test]
fn event_is_refused_in_order() {
    let mut expected = vec![
        (event(2, MISSING_DRIVER, 9, [0; 3]), x(3)),
        (terminate(1, 5), line('E', &[5])),
        (event(1, MISSING_DRIVER, 9, [0; 3]), x(4)),
        (event(0, MISSING_DRIVER, 9, [0; 3]), x(7)),
        (event(0, CONSOLE, 2, [0; 3]), x(8)),
        (event(0, CORRELATOR, 1, [0; 3]), x(8)),
        (event(0, CONSOLE, 1, [0; 3]), x(11)),
        (subscribe(0, CONSOLE, 0, [0x4_0010, 1]), a(130, 0, 0, 0)),
    ];
    for _ in 0..QUEUE_CAPACITY {
        expected.push((event(0, CONSOLE, 0, [0; 3]), line('Q', &[])));
    }
    expected.push((event(0, CONSOLE, 0, [0; 3]), x(10)));
    expected.push((event(0, CONSOLE, 1, [0; 3]), x(11)));
    expected.push((event(0, CONSOLE, 2, [0; 3]), x(8)));
    expect(&expected);
}

#[test]
fn resume_is_refused_in_order() {
    expect(&[
        (resume(2), x(3)),
        (resume(0), x(6)),
        (terminate(1, 0), line('E', &[0])),
        (resume(1), x(4)),
        (yield_wait(0), line('W', &[])),
        (resume(0), line('W', &[])),
    ]);
}

#[test]
fn call_is_refused_in_order() {
    expect(&[
        (call(2, 200, [0; 4]), x(3)),
        (call(u32::MAX, 0, [0; 4]), x(3)),
        (terminate(1, 0), line('E', &[0])),
        (call(1, 200, [0; 4]), x(4)),
        (yield_wait(0), line('W', &[])),
        (call(0, 200, [0; 4]), x(5)),
    ]);
}

#[test]
fn deposit_is_refused_in_order() {
    expect(&[
        (deposit(2, MISSING_DRIVER, 9, 9, &[1]), x(3)),
        (terminate(1, 0), line('E', &[0])),
        (deposit(1, MISSING_DRIVER, 9, 9, &[1]), x(4)),
        (deposit(0, MISSING_DRIVER, 9, 9, &[1]), x(7)),
        (deposit(0, CONSOLE, 1, 9, &[1]), x(8)),
        (deposit(0, CONSOLE, 0, 9, &[1]), x(9)),
    ]);
}

#[test]
fn fetch_is_refused_in_order() {
    expect(&[
        (fetch(2, MISSING_DRIVER, 9, 9, 1), x(3)),
        (terminate(1, 0), line('E', &[0])),
        (fetch(1, MISSING_DRIVER, 9, 9, 1), x(4)),
        (fetch(0, MISSING_DRIVER, 9, 9, 1), x(7)),
        (fetch(0, CORRELATOR, 0, 9, 1), x(8)),
        (fetch(0, CONSOLE, 0, 9, 1), x(9)),
    ]);
}

#[test]
fn latch_is_refused_in_order() {
    expect(&[
        (latch(MISSING_DRIVER, 1), x(7)),
        (latch(CONSOLE, 1), x(12)),
        (latch(CORRELATOR, i32::MIN), line('L', &[])),
    ]);
}

#[test]
fn part_is_judged_at_the_end_of_the_buffer() {
    expect(&[
        (allow_rw(0, CONSOLE, 0, [0x2000_0100, 4]), a(130, 0, 0, 0)),
        (deposit(0, CONSOLE, 0, 0, &[1, 2, 3, 4]), line('D', &[])),
        (deposit(0, CONSOLE, 0, 1, &[1, 2, 3, 4]), x(9)),
        (deposit(0, CONSOLE, 0, 3, &[9]), line('D', &[])),
        (deposit(0, CONSOLE, 0, 4, &[]), line('D', &[])),
        (deposit(0, CONSOLE, 0, 4, &[9]), x(9)),
        (deposit(0, CONSOLE, 0, 5, &[]), x(9)),
        (allow_ro(0, CONSOLE, 0, [0x2000_00FF, 6]), a(130, 0, 0, 0)),
        (fetch(0, CONSOLE, 0, 0, 6), line('F', &[6, 0, 1, 2, 3, 9, 0])),
        (fetch(0, CONSOLE, 0, 0, 7), x(9)),
        (fetch(0, CONSOLE, 0, 5, 1), line('F', &[1, 0])),
        (fetch(0, CONSOLE, 0, 4, 2), line('F', &[2, 9, 0])),
        (fetch(0, CONSOLE, 0, 6, 0), line('F', &[0])),
        (fetch(0, CONSOLE, 0, 7, 0), x(9)),
    ]);
}

#[test]
fn a_process_index_is_not_a_driver_number() {
    // Process 1 exists and so does driver 1; process 0x90000 does not.
    expect(&[
        (event(CORRELATOR, CONSOLE, 0, [0; 3]), x(3)),
        (event(1, 0, 0, [0; 3]), x(7)),
        (event(0, 1, 0, [0; 3]), x(11)),
    ]);
}

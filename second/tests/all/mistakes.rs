//! The tempting mistakes of document 01. Each test fails for a program that
//! makes that mistake.

use crate::common::*;
use second::state::QUEUE_CAPACITY;

fn taken() -> String {
    line('Q', &[])
}

#[test]
fn sum_taken_in_32_bits() {
    expect(&[
        // These sums are small numbers modulo 2^32.
        (allow_rw(0, CONSOLE, 0, [0xFFFF_FFFF, 2]), a(2, 6, 0xFFFF_FFFF, 2)),
        (allow_rw(0, CONSOLE, 0, [0x2000_0010, 0xFFFF_FFF1]), a(2, 6, 0x2000_0010, 0xFFFF_FFF1)),
        (allow_ro(0, CONSOLE, 0, [0x4_0001, 0xFFFF_FFFF]), a(2, 6, 0x4_0001, 0xFFFF_FFFF)),
        (allow_rw(0, CONSOLE, 0, [0x2000_0000, 16]), a(130, 0, 0, 0)),
        (allow_ro(0, CONSOLE, 0, [0x2000_0000, 16]), a(130, 0, 0, 0)),
        (deposit(0, CONSOLE, 0, 0xFFFF_FFFF, &[1, 2]), x(9)),
        (fetch(0, CONSOLE, 0, 0xFFFF_FFFF, 2), x(9)),
        (fetch(0, CONSOLE, 0, 2, 0xFFFF_FFFF), x(9)),
        // 0x20001000 plus the largest change has its top bit set; the
        // smallest change ends below 0.
        (break_by(0, 0x7FFF_FFFF), a(0, 9, 0, 0)),
        (break_by(0, 0x8000_0000), a(0, 9, 0, 0)),
    ]);
}

#[test]
fn break_lowered_under_a_read_only_buffer_in_ram() {
    expect(&[
        (allow_ro(0, CONSOLE, 0, [0x2000_0F00, 0x100]), a(130, 0, 0, 0)),
        (break_to(0, 0x2000_0FFF), a(0, 9, 0, 0)),
        (break_by(0, 0xFFFF_FFFF), a(0, 9, 0, 0)),
        (break_to(0, 0x2000_1000), a(128, 0, 0, 0)),
        (allow_ro(0, CONSOLE, 0, [0, 0]), a(130, 0x2000_0F00, 0x100, 0)),
        (break_to(0, 0x2000_0FFF), a(128, 0, 0, 0)),
    ]);
}

#[test]
fn cancel_that_also_drops_the_same_slot_number_of_another_driver() {
    expect(&[
        (subscribe(0, CONSOLE, 0, [0x4_0010, 1]), a(130, 0, 0, 0)),
        (subscribe(0, CORRELATOR, 0, [0x4_0020, 2]), a(130, 0, 0, 0)),
        (event(0, CONSOLE, 0, [10, 0, 0]), taken()),
        (event(0, CORRELATOR, 0, [11, 0, 0]), taken()),
        (event(0, CONSOLE, 0, [12, 0, 0]), taken()),
        (event(0, CORRELATOR, 0, [13, 0, 0]), taken()),
        (subscribe(0, CONSOLE, 0, [0x4_0030, 3]), a(130, 0x4_0010, 1, 0)),
        (yield_wait(0), u(0x4_0020, [11, 0, 0, 2])),
        (yield_wait(0), u(0x4_0020, [13, 0, 0, 2])),
        (yield_wait(0), line('W', &[])),
    ]);
}

#[test]
fn cancel_that_drops_another_slot_or_another_process() {
    expect(&[
        (subscribe(0, CONSOLE, 0, [0x4_0010, 1]), a(130, 0, 0, 0)),
        (subscribe(0, CONSOLE, 1, [0x4_0020, 2]), a(130, 0, 0, 0)),
        (subscribe(1, CONSOLE, 0, [0x4_4010, 3]), a(130, 0, 0, 0)),
        (event(0, CONSOLE, 1, [11, 0, 0]), taken()),
        (event(1, CONSOLE, 0, [12, 0, 0]), taken()),
        (subscribe(0, CONSOLE, 0, [0, 0]), a(130, 0x4_0010, 1, 0)),
        (yield_wait(0), u(0x4_0020, [11, 0, 0, 2])),
        (yield_wait(1), u(0x4_4010, [12, 0, 0, 3])),
    ]);
}

#[test]
fn failed_subscribe_that_cancels() {
    expect(&[
        (subscribe(0, CONSOLE, 0, [0x4_0010, 1]), a(130, 0, 0, 0)),
        (event(0, CONSOLE, 0, [10, 20, 30]), taken()),
        (subscribe(0, CONSOLE, 0, [0x4_4000, 2]), a(2, 6, 0x4_4000, 2)),
        (yield_wait(0), u(0x4_0010, [10, 20, 30, 1])),
        (subscribe(0, CONSOLE, 0, [0, 0]), a(130, 0x4_0010, 1, 0)),
    ]);
}

#[test]
fn zero_length_buffer_turned_into_an_image_offset() {
    for address in [0, 0xFFFF_FFFF, 0x2001_0000, 0x1FFF_FFFF, 0x5_0000] {
        expect(&[
            (allow_rw(0, CONSOLE, 0, [address, 0]), a(130, 0, 0, 0)),
            (allow_ro(0, CONSOLE, 0, [address, 0]), a(130, 0, 0, 0)),
            (deposit(0, CONSOLE, 0, 0, &[]), line('D', &[])),
            (fetch(0, CONSOLE, 0, 0, 0), line('F', &[0])),
            (deposit(0, CONSOLE, 0, 0, &[1]), x(9)),
            (fetch(0, CONSOLE, 0, 0, 1), x(9)),
            (break_to(0, 0x2000_0000), a(128, 0, 0, 0)),
            (allow_rw(0, CONSOLE, 0, [0, 0]), a(130, address, 0, 0)),
        ]);
    }
}

#[test]
fn queue_that_fills_once_and_never_takes_again() {
    let upcall = [0x4_0010, 1];
    let mut expected = vec![(subscribe(0, CONSOLE, 0, upcall), a(130, 0, 0, 0))];
    for round in 0..3 {
        for number in 0..QUEUE_CAPACITY as u32 {
            expected.push((event(0, CONSOLE, 0, [round, number, 0]), taken()));
        }
        expected.push((event(0, CONSOLE, 0, [round, 99, 0]), x(10)));
        for number in 0..QUEUE_CAPACITY as u32 {
            expected.push((yield_wait(0), u(upcall[0], [round, number, 0, upcall[1]])));
        }
        expected.push((yield_no_wait(0, 0), line('N', &[])));
    }
    expect(&expected);
}

#[test]
fn full_queue_takes_one_after_one_delivery() {
    let mut expected = vec![(subscribe(0, CONSOLE, 0, [0x4_0010, 1]), a(130, 0, 0, 0))];
    for number in 0..QUEUE_CAPACITY as u32 {
        expected.push((event(0, CONSOLE, 0, [number, 0, 0]), taken()));
    }
    for number in 0..40 {
        expected.push((event(0, CONSOLE, 0, [99, 0, 0]), x(10)));
        expected.push((yield_wait(0), u(0x4_0010, [number, 0, 0, 1])));
        expected.push((event(0, CONSOLE, 0, [number + 16, 0, 0]), taken()));
    }
    expect(&expected);
}

#[test]
fn cancel_makes_room_in_a_full_queue() {
    let mut expected = vec![
        (subscribe(0, CONSOLE, 0, [0x4_0010, 1]), a(130, 0, 0, 0)),
        (subscribe(0, CONSOLE, 1, [0x4_0020, 2]), a(130, 0, 0, 0)),
    ];
    for number in 0..QUEUE_CAPACITY as u32 {
        expected.push((event(0, CONSOLE, number % 2, [number, 0, 0]), taken()));
    }
    expected.push((event(0, CONSOLE, 0, [99, 0, 0]), x(10)));
    expected.push((subscribe(0, CONSOLE, 0, [0x4_0030, 3]), a(130, 0x4_0010, 1, 0)));
    for number in 100..108 {
        expected.push((event(0, CONSOLE, 0, [number, 0, 0]), taken()));
    }
    expected.push((event(0, CONSOLE, 0, [99, 0, 0]), x(10)));
    for number in (1..16).step_by(2) {
        expected.push((yield_wait(0), u(0x4_0020, [number, 0, 0, 2])));
    }
    for number in 100..108 {
        expected.push((yield_wait(0), u(0x4_0030, [number, 0, 0, 3])));
    }
    expect(&expected);
}

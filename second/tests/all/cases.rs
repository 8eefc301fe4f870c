//! The whole case and the twelve cases of document 01, each from a fresh start.

use crate::common::*;
use second::generate::corpus::WHOLE_CASE;

#[test]
fn whole_case() {
    assert_eq!(output(&WHOLE_CASE), "A 129 536870912 0 0\nW\nW\n");
}

#[test]
fn case_1_buffer_that_ends_at_the_break() {
    expect(&[(allow_rw(0, CONSOLE, 0, [0x2000_0F00, 0x100]), a(130, 0, 0, 0))]);
}

#[test]
fn case_2_buffer_one_over_the_break() {
    expect(&[(allow_rw(0, CONSOLE, 0, [0x2000_0F00, 0x101]), a(2, 6, 0x2000_0F00, 0x101))]);
}

#[test]
fn case_3_sum_over_32_bits() {
    expect(&[(allow_rw(0, CONSOLE, 0, [0xFFFF_FFFF, 2]), a(2, 6, 0xFFFF_FFFF, 2))]);
}

#[test]
fn case_4_empty_buffer_anywhere() {
    expect(&[
        (allow_rw(0, CONSOLE, 0, [0xFFFF_FFFF, 0]), a(130, 0, 0, 0)),
        (allow_rw(0, CONSOLE, 0, [0x2000_0000, 1]), a(130, 0xFFFF_FFFF, 0, 0)),
    ]);
}

#[test]
fn case_5_last_byte_of_flash() {
    expect(&[(allow_ro(0, CONSOLE, 0, [0x4_3FFF, 1]), a(130, 0, 0, 0))]);
    expect(&[(allow_ro(0, CONSOLE, 0, [0x4_3FFF, 2]), a(2, 6, 0x4_3FFF, 2))]);
}

#[test]
fn case_6_second_subscribe_gives_the_first_pair() {
    expect(&[
        (subscribe(0, CONSOLE, 0, [0x4_0010, 7]), a(130, 0, 0, 0)),
        (subscribe(0, CONSOLE, 0, [0x4_0020, 8]), a(130, 0x4_0010, 7, 0)),
    ]);
}

#[test]
fn case_7_subscribe_to_a_driver_that_is_not_installed() {
    expect(&[(subscribe(0, 7, 0, [0x4_0010, 7]), a(2, 11, 0, 0))]);
}

#[test]
fn case_8_pointer_at_the_end_of_flash() {
    expect(&[(subscribe(0, CONSOLE, 0, [0x4_4000, 9]), a(2, 6, 0x4_4000, 9))]);
}

#[test]
fn case_9_break_by() {
    expect(&[(break_by(0, 0xFFFF_F000), a(129, 0x2000_1000, 0, 0))]);
    expect(&[(break_by(0, 0xFFFF_EFFF), a(0, 9, 0, 0))]);
}

#[test]
fn case_10_break_to() {
    expect(&[(break_to(0, 0x2000_1800), a(128, 0, 0, 0))]);
    expect(&[(break_to(0, 0x2000_1801), a(0, 9, 0, 0))]);
}

#[test]
fn case_11_break_under_a_buffer() {
    expect(&[
        (allow_rw(0, CONSOLE, 0, [0x2000_0F00, 0x100]), a(130, 0, 0, 0)),
        (break_to(0, 0x2000_0FFF), a(0, 9, 0, 0)),
    ]);
}

#[test]
fn case_12_latch_claim_read() {
    expect(&[
        (latch(CORRELATOR, -1), line('L', &[])),
        (command(0, CORRELATOR, 1), a(128, 0, 0, 0)),
        (command(0, CORRELATOR, 3), a(129, 0xFFFF_FFFF, 0, 0)),
        (command(1, CORRELATOR, 3), a(0, 5, 0, 0)),
    ]);
}

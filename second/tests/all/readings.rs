//! The settled readings 1 to 22, by number, as far as a trace can show them.

use crate::common::*;
use second::board::{DriverPlace, ProcessIndex, SlotKind};
use second::state::{Machine, Slot, QUEUE_CAPACITY};
use second::step::Step;
use second::trace::{write_board, write_number, write_numbers, write_step, write_trace};

fn taken() -> String {
    line('Q', &[])
}

/// The case board with process 0's mask changed.
fn with_mask(mask: u32) -> Vec<u32> {
    let mut words = CASE_BOARD.to_vec();
    words[7] = mask;
    words
}

/// The case board's record with bytes after it.
fn after_board(bytes: &[u8]) -> Vec<u8> {
    let mut trace = write_trace(&CASE_BOARD, &[]);
    trace.extend_from_slice(bytes);
    trace
}

fn board_bytes() -> usize {
    write_trace(&CASE_BOARD, &[]).len()
}

#[test]
fn reading_1_a_cut_deposit_deposits_nothing() {
    let allow = allow_rw(0, CONSOLE, 0, [0x2000_0000, 8]);
    let whole = write_trace(&CASE_BOARD, &[allow, deposit(0, CONSOLE, 0, 0, &[1, 2, 3])]);
    let kind = write_trace(&CASE_BOARD, &[allow]).len();
    assert_eq!(output(&whole), "A 130 0 0 0\nD\n");
    for missing in 1..=3 {
        let cut = &whole[..whole.len() - missing];
        assert_eq!(output(cut), format!("A 130 0 0 0\nB {kind}\n"));
    }
}

#[test]
fn reading_2_numbers_are_shortest_everywhere() {
    let offset = board_bytes();
    // Kind 2 and process 0, one of them with a group too many.
    assert_eq!(output(&after_board(&[0x82, 0x00, 0x00])), format!("B {offset}\n"));
    assert_eq!(output(&after_board(&[0x02, 0x80, 0x00])), format!("B {offset}\n"));
    // A deposit's length, and the count and the words of a board.
    let long_length = [3, 0, 1, 0, 0, 0x80, 0x00];
    assert_eq!(output(&after_board(&long_length)), format!("B {offset}\n"));
    assert_eq!(output(&[0x80, 0x00]), "B 0\n");
    assert_eq!(output(&[0x02, 0x81, 0x00, 0x00]), "B 0\n");
    assert_eq!(output(&[0x02, 0x01, 0x80, 0x80, 0x00]), "B 0\n");
}

#[test]
fn reading_3_values_over_their_limits_are_broken_records() {
    let offset = board_bytes();
    let mut class = Vec::new();
    write_numbers(&mut class, &[0, 0, 256, 0, 0, 0, 0]);
    assert_eq!(output(&after_board(&class)), format!("B {offset}\n"));

    let mut deposit = Vec::new();
    write_numbers(&mut deposit, &[3, 0, CONSOLE, 0, 0, 1025]);
    deposit.extend([0; 1025]);
    assert_eq!(output(&after_board(&deposit)), format!("B {offset}\n"));

    let mut board = Vec::new();
    write_board(&mut board, &[0; 139]);
    assert_eq!(output(&board), "B 0\n");
    let mut board = Vec::new();
    write_board(&mut board, &[0; 138]);
    assert_eq!(output(&board), "X 13\n");
}

#[test]
fn reading_3_values_at_their_limits_are_read() {
    expect(&[
        (call(0, 255, [0; 4]), a(0, 10, 0, 0)),
        (allow_rw(0, CONSOLE, 0, [0x2000_0000, 1024]), a(130, 0, 0, 0)),
        (deposit(0, CONSOLE, 0, 0, &[7; 1024]), line('D', &[])),
    ]);
}

#[test]
fn reading_4_boards_that_are_not_good_end_the_run() {
    assert_eq!(output(&[0x00]), "X 13\n");
    assert_eq!(output(&[0x01, 0x01]), "X 13\n");
    // Nothing after the board is read, be it good or broken.
    assert_eq!(output(&[0x00, 0x02, 0x00]), "X 13\n");
    assert_eq!(output(&[0x00, 0xFF, 0xFF]), "X 13\n");
    assert_eq!(lines_on(&[0, 0], &[resume(0)]), ["X 13"]);
    // Damage inside the board is at 0, wherever it is.
    let board = write_trace(&CASE_BOARD, &[]);
    for length in 0..board.len() {
        assert_eq!(output(&board[..length]), "B 0\n", "{length} bytes");
    }
}

#[test]
fn reading_5_longest_trace() {
    let mut trace = write_trace(&CASE_BOARD, &[]);
    while trace.len() < 65_536 {
        // Three bytes once, if two do not fit evenly.
        let odd = trace.len() % 2 == 1;
        let step = if odd { latch(0, 0) } else { resume(0) };
        write_step(&mut trace, step);
    }
    assert_eq!(trace.len(), 65_536);
    let text = output(&trace);
    assert!(text.ends_with("X 6\n") && !text.contains('T'));
    trace.push(0);
    assert_eq!(output(&trace), "T\n");
    assert_eq!(output(&[0xFF; 65_537]), "T\n");
    assert_eq!(output(&[0xFF; 65_536]), "B 0\n");
}

#[test]
fn reading_6_board_alone_and_refused_deposits() {
    assert_eq!(output(&write_trace(&CASE_BOARD, &[])), "");
    // The bytes would be a resume if they were read as a record.
    expect(&[
        (deposit(5, CONSOLE, 0, 0, &[2, 0]), x(3)),
        (deposit(0, CONSOLE, 0, 0, &[2, 0]), x(9)),
        (resume(0), x(6)),
    ]);
}

#[test]
fn reading_7_a_fetch_has_no_limit_of_its_own() {
    let words = [1, 0x2000_0000, 0x2001_0000, 0x2001_0000, 0x2001_0000, 0x4_0000, 0x5_0000, 1];
    let words: Vec<u32> = words.into_iter().chain([1, CONSOLE, 0, 1, 1, 0]).collect();
    let bytes = [1, 200, 255];
    let steps = [
        allow_rw(0, CONSOLE, 0, [0x2000_FFFD, 3]),
        deposit(0, CONSOLE, 0, 0, &bytes),
        allow_ro(0, CONSOLE, 0, [0x2000_0000, 0x1_0000]),
        fetch(0, CONSOLE, 0, 0, 0x1_0000),
        fetch(0, CONSOLE, 0, 0, 0x1_0001),
        fetch(0, CONSOLE, 0, 0, u32::MAX),
    ];
    let lines = lines_on(&words, &steps);
    let zeros = " 0".repeat(0x1_0000 - 3);
    assert_eq!(lines[3], format!("F 65536{zeros} 1 200 255"));
    assert_eq!(lines[4..], [x(9), x(9)]);
}

#[test]
fn reading_8_pointer_0_is_told_before_a_full_queue() {
    let mut expected = vec![(subscribe(0, CONSOLE, 0, [0x4_0000, 0]), a(130, 0, 0, 0))];
    expected.extend((0..QUEUE_CAPACITY).map(|_| (event(0, CONSOLE, 0, [0; 3]), taken())));
    expected.push((event(0, CONSOLE, 0, [0; 3]), x(10)));
    expected.push((event(0, CONSOLE, 1, [0; 3]), x(11)));
    expect(&expected);
}

#[test]
fn reading_9_waiting_and_exited_processes() {
    expect(&[
        (subscribe(0, CONSOLE, 0, [0x4_0010, 1]), a(130, 0, 0, 0)),
        (allow_rw(0, CONSOLE, 0, [0x2000_0000, 4]), a(130, 0, 0, 0)),
        (allow_ro(0, CONSOLE, 0, [0x2000_0000, 4]), a(130, 0, 0, 0)),
        (yield_wait(0), line('W', &[])),
        (deposit(0, CONSOLE, 0, 1, &[5]), line('D', &[])),
        (fetch(0, CONSOLE, 0, 0, 4), line('F', &[4, 0, 5, 0, 0])),
        (event(0, CONSOLE, 0, [1, 2, 3]), taken()),
        (call(0, 5, [2, 0, 0, 0]), x(5)),
        (resume(0), u(0x4_0010, [1, 2, 3, 1])),
        (terminate(0, 9), line('E', &[9])),
        (call(0, 5, [2, 0, 0, 0]), x(4)),
        (event(0, CONSOLE, 0, [0; 3]), x(4)),
        (resume(0), x(4)),
        (deposit(0, CONSOLE, 0, 0, &[]), x(4)),
        (fetch(0, CONSOLE, 0, 0, 0), x(4)),
    ]);
}

#[test]
fn reading_10_only_calls_look_at_the_mask() {
    let words = with_mask(0);
    expect_on(
        &words,
        &[
            (subscribe(0, CONSOLE, 0, [0x4_0010, 1]), a(2, 11, 0, 0)),
            (subscribe(0, CONSOLE, 9, [1, 1]), a(2, 11, 0, 0)),
            (allow_rw(0, CONSOLE, 0, [0x2000_0000, 1]), a(2, 11, 0x2000_0000, 1)),
            (allow_ro(0, CONSOLE, 0, [0x2000_0000, 1]), a(2, 11, 0x2000_0000, 1)),
            (command(0, CONSOLE, 0), a(0, 11, 0, 0)),
            (command(0, CORRELATOR, 1), a(0, 11, 0, 0)),
            (event(0, CONSOLE, 0, [0; 3]), x(11)),
            (event(0, CONSOLE, 2, [0; 3]), x(8)),
            (deposit(0, CONSOLE, 0, 0, &[]), line('D', &[])),
            (deposit(0, CONSOLE, 0, 0, &[1]), x(9)),
            (fetch(0, CONSOLE, 0, 0, 0), line('F', &[0])),
            (latch(CORRELATOR, 3), line('L', &[])),
            // The other process is not denied.
            (command(1, CORRELATOR, 1), a(128, 0, 0, 0)),
        ],
    );
}

#[test]
fn reading_11_empty_part_beyond_the_size() {
    expect(&[
        (allow_rw(0, CONSOLE, 0, [0x2000_0000, 4]), a(130, 0, 0, 0)),
        (deposit(0, CONSOLE, 0, 4, &[]), line('D', &[])),
        (deposit(0, CONSOLE, 0, 5, &[]), x(9)),
        (fetch(0, CONSOLE, 0, 0, 0), line('F', &[0])),
        (fetch(0, CONSOLE, 0, 1, 0), x(9)),
    ]);
}

#[test]
fn reading_12_every_call_of_a_waiting_process_is_refused() {
    let mut expected = vec![(yield_wait(0), line('W', &[]))];
    expected.extend((0..=255).map(|class| (call(0, class, [u32::MAX, 0, 0, 0]), x(5))));
    expect(&expected);
}

#[test]
fn reading_13_order_in_classes_1_to_4() {
    let bad = 0xFFFF_FFF0;
    // Only driver 1 of the two is permitted.
    let words = with_mask(2);
    expect_on(
        &words,
        &[
            (subscribe(0, CONSOLE, 9, [bad, bad]), a(2, 11, 0, 0)),
            (allow_rw(0, CONSOLE, 9, [bad, bad]), a(2, 11, bad, bad)),
            (allow_ro(0, CONSOLE, 9, [bad, bad]), a(2, 11, bad, bad)),
            (subscribe(0, 7, 9, [bad, bad]), a(2, 11, 0, 0)),
            (allow_rw(0, 7, 9, [bad, bad]), a(2, 11, bad, bad)),
            (allow_ro(0, 7, 9, [bad, bad]), a(2, 11, bad, bad)),
            (command(0, 7, 0), a(0, 11, 0, 0)),
            (command(0, CONSOLE, 99), a(0, 11, 0, 0)),
            (subscribe(0, CORRELATOR, 1, [bad, 5]), a(2, 10, bad, 5)),
            (subscribe(0, CORRELATOR, 0, [bad, 5]), a(2, 6, bad, 5)),
            (allow_rw(0, CORRELATOR, 1, [bad, bad]), a(2, 10, bad, bad)),
            (allow_rw(0, CORRELATOR, 0, [bad, bad]), a(2, 6, bad, bad)),
        ],
    );
}

#[test]
fn reading_14_missing_slot_gives_nosupport() {
    expect(&[
        (subscribe(0, CONSOLE, 2, [0x4_0000, 5]), a(2, 10, 0x4_0000, 5)),
        (allow_rw(0, CONSOLE, 1, [0x2000_0000, 5]), a(2, 10, 0x2000_0000, 5)),
        (allow_ro(0, CONSOLE, 1, [0x2000_0000, 5]), a(2, 10, 0x2000_0000, 5)),
        (allow_ro(0, CORRELATOR, 0, [0, 0]), a(2, 10, 0, 0)),
        (subscribe(0, CONSOLE, u32::MAX, [0, 0]), a(2, 10, 0, 0)),
    ]);
}

#[test]
fn reading_15_yield_writes_its_byte_below_the_break_only() {
    let last = 0x2000_0FFF;
    let nothing = || line('N', &[]);
    expect(&[
        (subscribe(0, CONSOLE, 0, [0x4_0010, 1]), a(130, 0, 0, 0)),
        // A delivery writes 1 to the last byte below the break.
        (event(0, CONSOLE, 0, [0; 3]), taken()),
        (yield_no_wait(0, last), u(0x4_0010, [0, 0, 0, 1])),
        (allow_ro(0, CONSOLE, 0, [last, 1]), a(130, 0, 0, 0)),
        (fetch(0, CONSOLE, 0, 0, 1), line('F', &[1, 1])),
        // An unknown yield number writes no byte and delivers nothing.
        (call(0, 0, [2, last, 0, 0]), nothing()),
        (fetch(0, CONSOLE, 0, 0, 1), line('F', &[1, 1])),
        // Nothing to deliver: the byte becomes 0.
        (yield_no_wait(0, last), nothing()),
        (fetch(0, CONSOLE, 0, 0, 1), line('F', &[1, 0])),
        // With the break lowered, the same address is not written.
        (allow_ro(0, CONSOLE, 0, [0, 0]), a(130, last, 1, 0)),
        (break_to(0, last), a(128, 0, 0, 0)),
        (event(0, CONSOLE, 0, [0; 3]), taken()),
        (yield_no_wait(0, last), u(0x4_0010, [0, 0, 0, 1])),
        (break_to(0, last + 1), a(128, 0, 0, 0)),
        (allow_ro(0, CONSOLE, 0, [last, 1]), a(130, 0, 0, 0)),
        (fetch(0, CONSOLE, 0, 0, 1), line('F', &[1, 0])),
    ]);
}

#[test]
fn reading_15_yield_does_not_write_other_memory() {
    for field in [0x1FFF_FFFF, 0x2000_1000, 0x2000_2000, 0x4_0000, 0, u32::MAX] {
        let mut machine = Machine::start(&CASE_BOARD).expect("a good board");
        machine.memory.fill(7);
        machine.flash.fill(7);
        let _ = machine.step(yield_no_wait(0, field));
        assert!(machine.memory.iter().all(|&byte| byte == 7), "field {field:#x}");
        assert!(machine.flash.iter().all(|&byte| byte == 7), "field {field:#x}");
    }
}

#[test]
fn reading_16_unused_registers_are_ignored() {
    expect(&[
        (call(0, 0, [0, 0, 9, 9]), line('N', &[])),
        (call(0, 5, [2, 9, 9, 9]), a(129, 0x2000_0000, 0, 0)),
        (call(0, 5, [1, 0, 9, 9]), a(129, 0x2000_1000, 0, 0)),
        (call(0, 2, [CONSOLE, 0, 9, 9]), a(128, 0, 0, 0)),
        (call(0, 6, [1, 5, 9, 9]), line('R', &[5])),
        (call(0, 0, [1, 9, 9, 9]), line('W', &[])),
    ]);
}

#[test]
fn reading_17_flash_and_empty_buffers_never_block_a_break() {
    expect(&[
        (allow_ro(0, CONSOLE, 0, [0x4_0000, 0x4000]), a(130, 0, 0, 0)),
        (allow_rw(0, CONSOLE, 0, [0x2000_1000, 0]), a(130, 0, 0, 0)),
        (allow_rw(0, CORRELATOR, 0, [u32::MAX, 0]), a(130, 0, 0, 0)),
        (break_to(0, 0x2000_0000), a(128, 0, 0, 0)),
        (break_to(0, 0x2000_1000), a(128, 0, 0, 0)),
        (allow_ro(0, CONSOLE, 0, [0x2000_0FFF, 1]), a(130, 0x4_0000, 0x4000, 0)),
        (break_to(0, 0x2000_0FFF), a(0, 9, 0, 0)),
    ]);
}

#[test]
fn reading_18_exit_clears_the_process_and_frees_its_claims() {
    for (exit, exited) in [(restart(0, 6), line('R', &[6])), (terminate(0, 6), line('E', &[6]))] {
        expect(&[
            (latch(CORRELATOR, -5), line('L', &[])),
            (command(0, CORRELATOR, 1), a(128, 0, 0, 0)),
            (command(0, CORRELATOR, 1), a(128, 0, 0, 0)),
            (command(1, CORRELATOR, 1), a(0, 5, 0, 0)),
            (exit, exited),
            (command(1, CORRELATOR, 1), a(128, 0, 0, 0)),
            (command(1, CORRELATOR, 3), a(129, -5_i32 as u32, 0, 0)),
        ]);
    }
}

#[test]
fn reading_18_restart_leaves_the_ram_bytes() {
    expect(&[
        (subscribe(0, CONSOLE, 1, [0x4_0010, 1]), a(130, 0, 0, 0)),
        (event(0, CONSOLE, 1, [0; 3]), taken()),
        (allow_rw(0, CONSOLE, 0, [0x2000_0000, 4]), a(130, 0, 0, 0)),
        (deposit(0, CONSOLE, 0, 0, &[1, 2, 3, 4]), line('D', &[])),
        (break_to(0, 0x2000_0800), a(128, 0, 0, 0)),
        (restart(0, 6), line('R', &[6])),
        (yield_no_wait(0, 0), line('N', &[])),
        (break_by(0, 0), a(129, 0x2000_1000, 0, 0)),
        (subscribe(0, CONSOLE, 1, [0, 0]), a(130, 0, 0, 0)),
        (allow_rw(0, CONSOLE, 0, [0, 0]), a(130, 0, 0, 0)),
        (allow_ro(0, CONSOLE, 0, [0x2000_0000, 4]), a(130, 0, 0, 0)),
        (fetch(0, CONSOLE, 0, 0, 4), line('F', &[4, 1, 2, 3, 4])),
    ]);
}

#[test]
fn reading_19_pointer_0_stores_its_data_and_cancels() {
    expect(&[
        (subscribe(0, CONSOLE, 0, [0x4_0010, 1]), a(130, 0, 0, 0)),
        (event(0, CONSOLE, 0, [0; 3]), taken()),
        (subscribe(0, CONSOLE, 0, [0, 77]), a(130, 0x4_0010, 1, 0)),
        (yield_no_wait(0, 0), line('N', &[])),
        (event(0, CONSOLE, 0, [0; 3]), x(11)),
        (subscribe(0, CONSOLE, 0, [0x4_0010, 1]), a(130, 0, 77, 0)),
    ]);
}

#[test]
fn reading_20_no_accessible_ram() {
    // S = B = G, one byte of RAM and one of flash.
    let words = [1, 0x2000_0000, 0x2000_0001, 0x2000_0000, 0x2000_0000, 0x4_0000, 0x4_0001, 1];
    let words: Vec<u32> = words.into_iter().chain([1, CONSOLE, 1, 1, 1, 0]).collect();
    expect_on(
        &words,
        &[
            (allow_rw(0, CONSOLE, 0, [0x2000_0000, 1]), a(2, 6, 0x2000_0000, 1)),
            (break_by(0, 1), a(0, 9, 0, 0)),
            (break_to(0, 0x2000_0000), a(128, 0, 0, 0)),
            (subscribe(0, CONSOLE, 0, [0x4_0000, 1]), a(130, 0, 0, 0)),
            (subscribe(0, CONSOLE, 0, [0x4_0001, 1]), a(2, 6, 0x4_0001, 1)),
            (allow_ro(0, CONSOLE, 0, [0x4_0000, 1]), a(130, 0, 0, 0)),
            (fetch(0, CONSOLE, 0, 0, 1), line('F', &[1, 0])),
        ],
    );
}

#[test]
fn reading_21_well_formed_does_not_ask_for_permission() {
    let mut machine = Machine::start(&with_mask(0)).expect("a good board");
    let first_slot = |kind| Slot { kind, driver: DriverPlace(0), number: 0 };
    *machine.processes[0].pair_mut(first_slot(SlotKind::Subscribe)) = [0x4_0010, 1];
    *machine.processes[0].pair_mut(first_slot(SlotKind::ReadWrite)) = [0x2000_0000, 4];
    assert!(machine.is_well_formed());
    assert!(machine.step(event(0, CONSOLE, 0, [0; 3])).is_ok());
    assert_eq!(machine.processes[0].queue[0].driver, DriverPlace(0));
    assert!(machine.is_well_formed());
    // Owning a driver is another matter.
    machine.drivers[1].owner = Some(ProcessIndex(0));
    assert!(!machine.is_well_formed());
}

#[test]
fn reading_22_command_answers_plain_failure_denied_or_not_installed() {
    for driver in [CORRELATOR, 7] {
        let commands = [0, 1, 2, 3, 4, u32::MAX].map(|number| command(0, driver, number));
        expect_on(&with_mask(1), &commands.map(|command| (command, a(0, 11, 0, 0))));
    }
}

#[test]
fn fetch_reads_the_flash_image() {
    let mut machine = Machine::start(&CASE_BOARD).expect("a good board");
    machine.flash[0x3FFE..0x4000].copy_from_slice(&[8, 9]);
    let _ = machine.step(allow_ro(0, CONSOLE, 0, [0x4_3FFD, 3]));
    let Step::Fetch { process, driver, slot, .. } = fetch(0, CONSOLE, 0, 0, 0) else {
        unreachable!();
    };
    let answer = machine.fetch(process, driver, slot, 1, 2);
    let Ok(second::step::Answer::Fetched(part)) = answer else {
        panic!("not fetched: {answer:?}");
    };
    assert_eq!((part.image, part.start), (second::step::Image::Flash, 0x3FFE));
    assert_eq!(machine.bytes(part), [8, 9]);
}

#[test]
fn commands_on_shared_and_unshared_drivers() {
    let success = a(128, 0, 0, 0);
    let nosupport = a(0, 10, 0, 0);
    let reserve = a(0, 5, 0, 0);
    expect(&[
        (command(0, CONSOLE, 0), success.clone()),
        (command(0, CONSOLE, 1), nosupport.clone()),
        (command(0, CONSOLE, 2), nosupport.clone()),
        (command(0, CONSOLE, 3), nosupport.clone()),
        (command(0, CORRELATOR, 0), success.clone()),
        (command(0, CORRELATOR, 2), reserve.clone()),
        (command(0, CORRELATOR, 3), reserve.clone()),
        (command(0, CORRELATOR, 4), nosupport.clone()),
        (command(0, CORRELATOR, u32::MAX), nosupport),
        (command(1, CORRELATOR, 1), success.clone()),
        (command(0, CORRELATOR, 1), reserve.clone()),
        (command(0, CORRELATOR, 2), reserve.clone()),
        (command(1, CORRELATOR, 3), a(129, 0, 0, 0)),
        (command(1, CORRELATOR, 2), success.clone()),
        (command(1, CORRELATOR, 3), reserve),
        (command(0, CORRELATOR, 1), success),
    ]);
}

#[test]
fn unknown_classes_and_numbers_are_set_aside() {
    let nosupport = a(0, 10, 0, 0);
    let mut expected = vec![
        (call(0, 0, [2, 0, 0, 0]), line('N', &[])),
        (call(0, 0, [u32::MAX, 0, 0, 0]), line('N', &[])),
        (call(0, 5, [7, 0, 0, 0]), nosupport.clone()),
        (call(0, 5, [u32::MAX, 0, 0, 0]), nosupport.clone()),
        (call(0, 6, [2, 0, 0, 0]), nosupport.clone()),
    ];
    // The registers would be good ones for classes 1 to 4.
    let registers = [CONSOLE, 0, 0, 0];
    expected.extend((7..=255).map(|class| (call(0, class, registers), nosupport.clone())));
    expect(&expected);
}

#[test]
fn memops_2_to_6() {
    let asked = |process, number| call(process, 5, [number, 0, 0, 0]);
    expect(&[
        (asked(1, 2), a(129, 0x2000_2000, 0, 0)),
        (asked(1, 3), a(129, 0x2000_4000, 0, 0)),
        (asked(1, 4), a(129, 0x4_4000, 0, 0)),
        (asked(1, 5), a(129, 0x4_8000, 0, 0)),
        (asked(1, 6), a(129, 0x2000_3800, 0, 0)),
    ]);
}

#[test]
fn numbers_of_the_reading_examples() {
    let mut bytes = Vec::new();
    write_number(&mut bytes, 300);
    assert_eq!(bytes, [0xAC, 0x02]);
}

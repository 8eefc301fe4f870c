//! The listing: the texts are written by hand from document 01.

use crate::common::*;
use second::generate::corpus::{every_cut, every_one_byte_change, small_corpus, WHOLE_CASE};
use second::generate::{generate, generate_mixed, Kind};
use second::step::Step;
use second::text::list::list_to_string;
use second::trace::{write_board, write_trace, MAX_TRACE_BYTES};

/// A line with its answer in the column of answers.
fn line_at(offset: &str, step: &str, answer: &str) -> String {
    format!("{offset}  {step:<80} = {answer}\n")
}

#[test]
fn whole_case_is_listed() {
    let expected = "\
0x0000  board                                                                            = started
        process 0 RAM 0x20000000 to 0x20010000 grant 0x20010000 break 0x20000000 \
flash 0x00040000 to 0x00050000 permissions 0x0
0x001E  call process 0 memop ram-start                                                   \
= Success with u32: 0x20000000
0x0025  call process 0 yield-wait                                                        = waiting
0x002C  resume process 0                                                                 = waiting
";
    assert_eq!(list_to_string(&WHOLE_CASE), expected);
}

#[test]
fn board_of_the_cases_is_listed() {
    let expected = "\
0x0000  board                                                                            = started
        process 0 RAM 0x20000000 to 0x20002000 grant 0x20001800 break 0x20001000 \
flash 0x00040000 to 0x00044000 permissions 0x3
        process 1 RAM 0x20002000 to 0x20004000 grant 0x20003800 break 0x20003000 \
flash 0x00044000 to 0x00048000 permissions 0x3
        driver 0x1 subscribe 2 read-write 1 read-only 1 shared 0
        driver 0x90000 subscribe 1 read-write 1 read-only 0 shared 1
";
    assert_eq!(list_to_string(&write_trace(&CASE_BOARD, &[])), expected);
}

/// The step and answer that the last line of a listing has, on the cases' board.
fn last_listed(steps: &[Step]) -> (String, String) {
    let text = list_to_string(&write_trace(&CASE_BOARD, steps));
    let line = text.lines().last().expect("a line");
    let (step, answer) = line.split_once(" = ").expect("a step and an answer");
    (step.split_once("  ").expect("an offset").1.trim_end().to_string(), answer.to_string())
}

#[track_caller]
fn expect_listed(steps: &[Step], step: &str, answer: &str) {
    assert_eq!(last_listed(steps), (step.to_string(), answer.to_string()));
}

#[test]
fn calls_to_drivers_in_words() {
    let first = subscribe(0, CONSOLE, 0, [0x4_0010, 7]);
    expect_listed(
        &[first, subscribe(0, CONSOLE, 0, [0x4_0020, 8])],
        "call process 0 subscribe driver 0x1 slot 0 pointer 0x00040020 data 8",
        "Success with 2 u32: 0x00040010, 7",
    );
    expect_listed(
        &[allow_rw(0, CONSOLE, 0, [0x2000_0F00, 0x101])],
        "call process 0 read-write allow driver 0x1 slot 0 address 0x20000F00 size 257",
        "Failure with 2 u32 INVAL: 0x20000F00, 257",
    );
    expect_listed(
        &[allow_ro(1, 7, 9, [5, 70_000])],
        "call process 1 read-only allow driver 0x7 slot 9 address 0x00000005 size 70000",
        "Failure with 2 u32 NODEVICE: 0x00000005, 70000",
    );
    let (latched, claimed) = (latch(CORRELATOR, -1), command(0, CORRELATOR, 1));
    expect_listed(&[latched], "latch driver 0x90000 peak -1", "latched");
    expect_listed(
        &[latched, claimed, command(0, CORRELATOR, 3)],
        "call process 0 command driver 0x90000 number 3",
        "Success with u32: 0xFFFFFFFF",
    );
    expect_listed(
        &[claimed, call(1, 2, [CORRELATOR, 3, 4, 0x1_0000])],
        "call process 1 command driver 0x90000 number 3 argument-0 4 argument-1 0x00010000",
        "Failure RESERVE",
    );
}

#[test]
fn calls_to_the_kernel_in_words() {
    let listed = [
        (yield_no_wait(0, 0x2000_0007), "yield-no-wait field 0x20000007", "nothing"),
        (call(0, 0, [1, 0, 5, 0]), "yield-wait r2 5", "waiting"),
        (call(0, 0, [2, 3, 0, 0]), "yield number 2 r1 3", "nothing"),
        (break_to(0, 0x2000_1800), "memop break-to 0x20001800", "Success"),
        (break_to(0, 0x2000_1801), "memop break-to 0x20001801", "Failure NOMEM"),
        (break_by(0, 0xFFFF_F000), "memop break-by -4096", "Success with u32: 0x20001000"),
        (call(0, 5, [3, 0, 0, 0]), "memop ram-end", "Success with u32: 0x20002000"),
        (call(0, 5, [4, 1, 0, 0]), "memop flash-start r1 1", "Success with u32: 0x00040000"),
        (call(0, 5, [5, 0, 0, 0]), "memop flash-end", "Success with u32: 0x00044000"),
        (call(0, 5, [6, 0, 0, 9]), "memop grant-start r3 9", "Success with u32: 0x20001800"),
        (call(0, 5, [7, 0, 0, 0]), "memop operation 7", "Failure NOSUPPORT"),
        (terminate(0, 9), "exit-terminate code 9", "exited with code 9"),
        (restart(0, 9), "exit-restart code 9", "restarted with code 9"),
        (call(0, 6, [2, 0, 0, 0]), "exit number 2", "Failure NOSUPPORT"),
        (call(0, 255, [0, 1, 2, 3]), "class 255 r1 1 r2 2 r3 3", "Failure NOSUPPORT"),
        (call(0, 7, [0; 4]), "class 7", "Failure NOSUPPORT"),
    ];
    for (step, words, answer) in listed {
        expect_listed(&[step], &format!("call process 0 {words}"), answer);
    }
}

#[test]
fn driver_side_steps_in_words() {
    let subscribed = subscribe(0, CONSOLE, 1, [0x4_0010, 7]);
    let happened = event(0, CONSOLE, 1, [1, 300, 0x8000_0000]);
    let event_words = "event process 0 driver 0x1 slot 1 arguments 1 300 0x80000000";
    expect_listed(&[subscribed, happened], event_words, "event taken");
    let upcall = "upcall at 0x00040010 with 1, 300, 0x80000000, 7";
    expect_listed(&[subscribed, happened, yield_wait(0)], "call process 0 yield-wait", upcall);
    expect_listed(&[subscribed, yield_wait(0), happened, resume(0)], "resume process 0", upcall);

    let lent = allow_rw(0, CONSOLE, 0, [0x2000_0000, 4]);
    let deposited = deposit(0, CONSOLE, 0, 1, &[0, 7, 255]);
    let deposit_words = "deposit process 0 driver 0x1 slot 0 offset 1 bytes 00 07 FF";
    expect_listed(&[lent, deposited], deposit_words, "deposited");
    let empty = "deposit process 0 driver 0x1 slot 0 offset 4 bytes none";
    expect_listed(&[lent, deposit(0, CONSOLE, 0, 4, &[])], empty, "deposited");

    let shown = allow_ro(0, CONSOLE, 0, [0x2000_0000, 0x1000]);
    let run = |length| [lent, deposited, shown, fetch(0, CONSOLE, 0, 2, length)];
    let words = |length| format!("fetch process 0 driver 0x1 slot 0 offset 2 length {length}");
    expect_listed(&run(0), &words(0), "fetched 0 bytes");
    expect_listed(&run(1), &words(1), "fetched 1 byte: 07");
    expect_listed(&run(3), &words(3), "fetched 3 bytes: 07 FF 00");
    let long = format!("fetched 1000 bytes: 07 FF{} and 936 more", " 00".repeat(62));
    expect_listed(&run(1000), &words(1000), &long);
}

#[test]
fn refusals_in_words() {
    let refused = |steps: &[Step], answer| assert_eq!(last_listed(steps).1, answer);
    refused(&[resume(2)], "refused 3 (no such process)");
    refused(&[terminate(0, 0), resume(0)], "refused 4 (the process has exited)");
    refused(&[yield_wait(0), yield_wait(0)], "refused 5 (call by a waiting process)");
    refused(&[resume(0)], "refused 6 (resume of a running process)");
    refused(&[latch(7, 0)], "refused 7 (driver not installed)");
    refused(&[fetch(0, CORRELATOR, 0, 0, 0)], "refused 8 (no such slot)");
    refused(&[fetch(0, CONSOLE, 0, 0, 1)], "refused 9 (offset + length exceeds the held size)");
    refused(&[event(0, CONSOLE, 0, [0; 3])], "refused 11 (the slot's pointer is 0)");
    refused(&[latch(CONSOLE, 0)], "refused 12 (latch on an unshared driver)");
    let mut full = vec![subscribe(0, CONSOLE, 0, [0x4_0010, 7])];
    full.extend([event(0, CONSOLE, 0, [0; 3]); 17]);
    refused(&full, "refused 10 (the queue is full)");
}

#[test]
fn boards_that_are_not_good() {
    let not_good = "refused 13 (the board is not good)";
    let listed = |words: &[u32]| list_to_string(&write_trace(words, &[resume(0)]));
    let resumed = |offset| line_at(offset, "resume process 0", "not run");
    let none = line_at("0x0000", "board words none", not_good);
    assert_eq!(listed(&[]), none + &resumed("0x0001"));
    let misfit = line_at("0x0000", "board words 1 0x20000000 7", not_good);
    assert_eq!(listed(&[1, 0x2000_0000, 7]), misfit + &resumed("0x0008"));
    let bare = line_at("0x0000", "board", not_good);
    assert_eq!(listed(&[0, 0]), bare.clone() + &resumed("0x0003"));
    let driver = "        driver 0xFF subscribe 5 read-write 0 read-only 0 shared 2\n";
    assert_eq!(listed(&[0, 1, 255, 5, 0, 0, 2]), bare + driver + &resumed("0x0009"));
}

/// What the listing says after the whole case if these bytes follow it.
fn break_after_whole_case(bytes: &[u8]) -> String {
    let text = list_to_string(&[&WHOLE_CASE, bytes].concat());
    let rest = text.strip_prefix(&list_to_string(&WHOLE_CASE)).expect("the records before");
    rest.strip_suffix('\n').expect("an ended line").to_string()
}

/// Bytes that break, what is wrong and found there, and what was expected.
type Break<'a> = (&'a [u8], &'a str, &'a str);

#[track_caller]
fn expect_breaks_after_whole_case(breaks: &[Break]) {
    for (bytes, found, expected) in breaks {
        let line = format!("0x002E  # {found}, expected {expected}");
        assert_eq!(break_after_whole_case(bytes), line);
    }
}

#[test]
fn cut_steps() {
    expect_breaks_after_whole_case(&[
        (&[2], "cut: found the end at 0x002F", "the process of a resume"),
        (&[2, 0x80], "cut: found the end at 0x0030", "the process of a resume"),
        (&[0x80], "cut: found the end at 0x002F", "the kind of a step"),
        (&[0, 0], "cut: found the end at 0x0030", "the class of a call"),
        (&[0, 0, 9, 1, 2], "cut: found the end at 0x0033", "the r2 of a call"),
        (&[1, 0, 0], "cut: found the end at 0x0031", "the slot of an event"),
        (&[1, 0, 0, 0, 0], "cut: found the end at 0x0033", "the second argument of an event"),
        (&[3, 0, 0, 0, 0], "cut: found the end at 0x0033", "the bytes of a deposit"),
        (&[3, 0, 0, 0, 0, 4, 9, 9], "cut: found the end at 0x0036", "byte 3 of 4 of a deposit"),
    ]);
}

#[test]
fn unknown_kinds_and_values_above_their_limits() {
    expect_breaks_after_whole_case(&[
        (&[9, 2, 0], "unknown kind: found 9 at 0x002E", "0 to 5"),
        (
            &[0, 0, 0x80, 2, 0, 0, 0, 0],
            "call class above 255: found 256 at 0x0030",
            "the class of a call",
        ),
        (
            &[3, 0, 0, 0, 0, 0x81, 8, 0],
            "deposit bytes above 1024: found 1025 at 0x0033",
            "the bytes of a deposit",
        ),
    ]);
}

#[test]
fn numbers_that_break_a_step() {
    expect_breaks_after_whole_case(&[
        (
            &[0x82, 0, 0],
            "number not in its shortest form: found 82 00 at 0x002E",
            "the kind of a step",
        ),
        (
            &[5, 0, 0x80, 0x80, 0, 1],
            "number not in its shortest form: found 80 80 00 at 0x0030",
            "the peak of a latch",
        ),
        (
            &[2, 255, 255, 255, 255, 16],
            "number above 4294967295: found FF FF FF FF 10 at 0x002F",
            "the process of a resume",
        ),
        (
            &[2, 128, 128, 128, 128, 128, 1],
            "number of more than 5 groups: found 80 80 80 80 80 01 at 0x002F",
            "the process of a resume",
        ),
    ]);
}

#[test]
fn breaks_in_the_board() {
    let breaks: [Break; 5] = [
        (&[], "cut: found the end at 0x0000", "the count of board words"),
        (&[9, 1], "cut: found the end at 0x0002", "word 2 of 9 of the board"),
        (
            &[9, 1, 0x80, 0],
            "number not in its shortest form: found 80 00 at 0x0002",
            "word 2 of 9 of the board",
        ),
        (&[0x8B, 1], "board count above 138: found 139 at 0x0000", "the count of board words"),
        (&[0x8A, 1], "cut: found the end at 0x0002", "word 1 of 138 of the board"),
    ];
    for (trace, found, expected) in breaks {
        let line = format!("0x0000  # {found}, expected {expected}\n");
        assert_eq!(list_to_string(trace), line);
    }
}

#[test]
fn a_trace_too_long() {
    let mut trace = Vec::new();
    write_board(&mut trace, &CASE_BOARD);
    trace.resize(MAX_TRACE_BYTES, 2);
    assert!(list_to_string(&trace).starts_with("0x0000  board "));
    trace.push(2);
    assert_eq!(
        list_to_string(&trace),
        "# too long: found more than 65536 bytes, expected at most 65536\n"
    );
}

/// The offset of the break that a listing ends with.
fn listed_break(listing: &str) -> Option<usize> {
    let (offset, _) = listing.lines().last()?.split_once("  # ")?;
    usize::from_str_radix(offset.strip_prefix("0x")?, 16).ok()
}

/// The offset of the `B` line that the replay ends with.
fn replayed_break(lines: &str) -> Option<usize> {
    lines.lines().last()?.strip_prefix("B ")?.parse().ok()
}

/// Listing and replay find the same break, and answer the same records.
#[track_caller]
fn assert_agrees(trace: &[u8]) {
    let (listing, lines) = (list_to_string(trace), output(trace));
    if lines == "T\n" || lines == "X 13\n" {
        return;
    }
    let found = listed_break(&listing);
    assert_eq!(found, replayed_break(&lines));
    // The board is answered in the listing only.
    let answers = listing.lines().filter(|line| line.contains(" = ")).count();
    let started = usize::from(answers > 0);
    assert_eq!(answers - started + usize::from(found.is_some()), lines.lines().count());
}

#[test]
fn listing_and_replay_break_at_the_same_record() {
    for index in 0..400 {
        assert_agrees(&generate_mixed(7, index));
        assert_agrees(&generate(7, Kind::Broken, index));
    }
    for trace in small_corpus() {
        every_cut(&trace).for_each(assert_agrees);
    }
    every_one_byte_change(&WHOLE_CASE).for_each(|trace| assert_agrees(&trace));
}

//! The way back from text to trace bytes.

use crate::common::*;
use second::generate::corpus::{every_cut, every_one_byte_change, small_corpus, WHOLE_CASE};
use second::generate::{generate, generate_mixed, Kind};
use second::text::list::list_to_string;
use second::text::parse::assemble;
use second::trace::{write_trace, Reader, MAX_TRACE_BYTES};

/// The bytes up to the first record that is broken, and none of a trace that
/// is too long.
fn whole_records(trace: &[u8]) -> &[u8] {
    let mut reader = Reader::new(trace);
    if trace.len() > MAX_TRACE_BYTES || reader.board().is_err() {
        return &[];
    }
    let mut end = reader.place();
    while let Ok(Some(_)) = reader.step() {
        end = reader.place();
    }
    &trace[..end]
}

/// Lists and assembles; says whether the trace was well formed.
#[track_caller]
fn assert_comes_back(trace: &[u8]) -> bool {
    let whole = whole_records(trace);
    assert_eq!(assemble(&list_to_string(trace)).as_deref(), Ok(whole));
    whole.len() == trace.len() && !trace.is_empty()
}

#[test]
fn generated_traces_come_back() {
    for kind in Kind::ALL {
        let traces = if kind == Kind::Long { 20 } else { 200 };
        let back = (0..traces).filter(|&index| assert_comes_back(&generate(11, kind, index)));
        // Most long traces are too long, and most broken ones are broken.
        let least = if matches!(kind, Kind::Long | Kind::Broken) { 5 } else { traces as usize };
        let well_formed = back.count();
        assert!(well_formed >= least, "{}: {well_formed} of {traces}", kind.name());
    }
    for index in 0..200 {
        assert_comes_back(&generate_mixed(12, index));
    }
}

#[test]
fn small_traces_come_back_whatever_is_damaged() {
    for trace in small_corpus() {
        assert!(assert_comes_back(&trace));
        for cut in every_cut(&trace) {
            assert_comes_back(cut);
        }
    }
    for changed in every_one_byte_change(&WHOLE_CASE) {
        assert_comes_back(&changed);
    }
}

#[test]
fn every_class_and_number_comes_back() {
    let numbers = [0, 1, 2, 3, 4, 5, 6, 7, 65_535, 65_536, 0x7FFF_FFFF, 0x8000_0000, u32::MAX];
    for class in 0..=255 {
        for number in numbers {
            let steps = [
                call(number, class, [number, 0, 0, 0]),
                call(0, class, [number, number, number, number]),
                call(0, class, [0, 0, number, 0]),
                call(0, class, [1, 0, 0, number]),
            ];
            assert!(assert_comes_back(&write_trace(&CASE_BOARD, &steps)));
        }
    }
}

#[test]
fn a_text_by_hand() {
    let text = "
        # Comments, empty lines and the room between words are free.
        board
        process 0  RAM 0x20000000 to 536879104 grant 0x20001800 break 0x20001000 \
            flash 0x40000 to 0x44000 permissions 3   # numbers in decimal or hex
        driver 0x1 subscribe 2 read-write 1 read-only 0x1 shared 0
        0xFFF call process 0 memop break-by -1 = offsets and answers are not looked at
        call process 0 class 5 r0 2#as memop ram-start
        call process 0 yield-wait r1 0 r3 9\r
        latch driver 1 peak 0xffffffff
        deposit process 0 driver 1 slot 0 offset 0 bytes 0a Ff =
    ";
    let board = [
        [1, 0x2000_0000, 0x2000_2000, 0x2000_1800, 0x2000_1000].as_slice(),
        &[0x4_0000, 0x4_4000, 3, 1, 1, 2, 1, 1, 0],
    ]
    .concat();
    let steps = [
        break_by(0, u32::MAX),
        call(0, 5, [2, 0, 0, 0]),
        call(0, 0, [1, 0, 0, 9]),
        latch(1, -1),
        deposit(0, 1, 0, 0, &[10, 255]),
    ];
    assert_eq!(assemble(text), Ok(write_trace(&board, &steps)));
}

#[test]
fn a_text_without_records_is_the_empty_trace() {
    assert_eq!(assemble(""), Ok(vec![]));
    assert_eq!(assemble("# nothing\n\n  0x0000  # cut\n"), Ok(vec![]));
}

/// Without any one of its characters a text is refused, or says a trace that
/// comes back.
#[test]
fn every_text_with_a_character_less() {
    let text = list_to_string(&small_corpus().remove(2));
    for place in 0..text.len() {
        let mut damaged = text.clone();
        damaged.remove(place);
        match assemble(&damaged) {
            Ok(trace) => assert!(assert_comes_back(&trace)),
            Err(error) => assert!((1..=text.lines().count()).contains(&error.line)),
        }
    }
}

const PROCESS: &str = "process 0 RAM 0 to 0 grant 0 break 0 flash 0 to 0 permissions 0";
const DRIVER: &str = "driver 1 subscribe 0 read-write 0 read-only 0 shared 0";
const STEPS: &str = "`call`, `event`, `resume`, `deposit`, `fetch`, `latch`";

/// That the text is refused with this message.
#[track_caller]
fn expect_error(text: &str, message: &str) {
    let error = assemble(text).expect_err("a bad text");
    assert_eq!(error.to_string(), message);
}

#[test]
fn errors_in_the_board() {
    expect_error("\n# first\nresume process 0", "line 3: found `resume`, expected `board`");
    expect_error("board 1", "line 1: found `1`, expected the end of the line");
    expect_error(
        "board words 1 x",
        "line 1: found `x`, expected numbers from 0 to 4294967295, or `none`",
    );
    expect_error(
        "board words",
        "line 1: found the end of the line, expected numbers from 0 to 4294967295, or `none`",
    );
    let one_over = format!("board words{}", " 1".repeat(139));
    expect_error(&one_over, "line 1: found 139, expected at most 138 numbers from 0 to 4294967295");
    assert!(assemble(&format!("board words{}", " 1".repeat(138))).is_ok());
}

#[test]
fn errors_in_the_lines_of_a_board() {
    expect_error(
        "board\nproces",
        &format!("line 2: found `proces`, expected `process`, `driver`, {STEPS}"),
    );
    expect_error("board\nprocess 0 RAM 0 to 0 break", "line 2: found `break`, expected `grant`");
    expect_error(
        "board\ndriver one",
        "line 2: found `one`, expected a number from 0 to 4294967295 as driver number",
    );
    expect_error(
        &format!("board\n{PROCESS}\n{PROCESS}"),
        "line 3: found process 0, expected process 1",
    );
    expect_error(
        &format!("board\n{DRIVER}\n{PROCESS}"),
        &format!("line 3: found `process`, expected `driver`, {STEPS}"),
    );
    expect_error(
        &format!("board\nresume process 0\n{DRIVER}"),
        &format!("line 3: found `driver`, expected {STEPS}"),
    );
    expect_error(
        "board\n board",
        &format!("line 2: found `board`, expected `process`, `driver`, {STEPS}"),
    );
    expect_error("board words none\nboard", &format!("line 2: found `board`, expected {STEPS}"));
}

#[test]
fn a_board_of_too_many_words() {
    // 2 + 5 * 27 = 137 words.
    let board = |drivers| format!("board\n{}", format!("{DRIVER}\n").repeat(drivers));
    assert!(assemble(&board(27)).is_ok());
    expect_error(&board(28), "line 29: found a board of 142 words, expected at most 138");
}

/// That the step as line 2 is refused: a word of it, or None for its end, is
/// found, and something else is expected.
#[track_caller]
fn expect_step_error(step: &str, word: Option<&str>, expected: &str) {
    let found = word.map_or(String::from("the end of the line"), |word| format!("`{word}`"));
    let message = format!("line 2: found {found}, expected {expected}");
    expect_error(&format!("board\n{step}\n"), &message);
}

#[test]
fn numbers_that_are_no_numbers() {
    let expected = "a number from 0 to 4294967295 as process";
    for word in ["zero", "-1", "+1", "0x", "0xG", "0X1", "1_000", "4294967296", "0x100000000"] {
        expect_step_error(&format!("resume process {word}"), Some(word), expected);
    }
    let expected = "a number from -2147483648 to 4294967295 as peak";
    for word in ["-2147483649", "-", "--1", "-0x1", "4294967296"] {
        expect_step_error(&format!("latch driver 1 peak {word}"), Some(word), expected);
    }
    expect_step_error("call process 0 class 256", Some("256"), "a number from 0 to 255 as class");
}

#[test]
fn words_that_are_missing_or_too_many() {
    let number = "a number from 0 to 4294967295 as";
    expect_step_error("resume", None, "`process`");
    expect_step_error("resume process", None, &format!("{number} process"));
    expect_step_error("resume process 0 now", Some("now"), "the end of the line");
    expect_step_error("fetch process 0 slot 1", Some("slot"), "`driver`");
    let event = "event process 0 driver 1 slot 0 arguments 1";
    expect_step_error(event, None, &format!("{number} second argument"));
    expect_step_error("call process 0 memop break-to", None, &format!("{number} address"));
    expect_step_error("call process 0 class 7 r1 0 r0 0", Some("r0"), "the end of the line");
}

#[test]
fn bytes_that_are_no_bytes() {
    let deposit = |rest| format!("deposit process 0 driver 1 slot 0 offset 0{rest}");
    let expected = "bytes of two hex digits, or `none`";
    expect_step_error(&deposit(""), None, "`bytes`");
    expect_step_error(&deposit(" bytes"), None, expected);
    expect_step_error(&deposit(" bytes 00 7"), Some("7"), expected);
    expect_step_error(&deposit(" bytes +7"), Some("+7"), expected);
    expect_step_error(&deposit(" bytes 000"), Some("000"), expected);
    expect_step_error(&deposit(" bytes none 00"), Some("00"), "the end of the line");
}

#[test]
fn an_unknown_call_lists_the_known_ones() {
    let error = assemble("board\ncall process 0 memop brk 5").expect_err("no such memop");
    assert_eq!((error.line, error.found.as_str()), (2, "`memop brk`"));
    for name in ["`yield-wait`", "`read-write allow`", "`memop break-to`", "`class`"] {
        assert!(error.expected.contains(name), "{name} in {}", error.expected);
    }
}

#[test]
fn deposits_and_traces_that_are_too_long() {
    let deposit =
        |bytes| format!("deposit process 0 driver 1 slot 0 offset 0 bytes{}", " 00".repeat(bytes));
    assert!(assemble(&format!("board\n{}", deposit(1024))).is_ok());
    expect_error(
        &format!("board\n{}", deposit(1025)),
        "line 2: found 1025, expected at most 1024 bytes of two hex digits",
    );
    // A board of 3 bytes; a deposit of 7 and its 1,017 bytes, 63 times: 64,515.
    let near = format!("board\n{}", format!("{}\n", deposit(1017)).repeat(63));
    let resumes = (MAX_TRACE_BYTES - 64_515) / 2;
    let most = near.clone() + &"resume process 0\n".repeat(resumes);
    assert_eq!(assemble(&most).map(|trace| trace.len()), Ok(MAX_TRACE_BYTES - 1));
    expect_error(
        &(most + "resume process 0"),
        &format!("line {}: found a trace of 65537 bytes, expected at most 65536", 65 + resumes),
    );
}

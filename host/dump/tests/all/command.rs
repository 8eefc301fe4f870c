//! The command: what it is asked wrongly, and what it cannot do, each told in one line with a status.

use std::fs::{self, File};
use std::process::{Command, Output, Stdio};

use second::board::{MAX_PROCESSES, PROCESS_WORDS};
use second::table::TABLE_WORDS;
use second::text::parse::assemble;
use second::trace::{write_board, MAX_TRACE_BYTES};

use crate::common::{dump, own_file, printed, root, run};

fn incident() -> String {
    String::from(root().join("examples/incident.trace").to_str().unwrap())
}

/// A failure with nothing printed, and one line on standard error that has these words.
#[track_caller]
fn fails(arguments: &[&str], input: &[u8], status: i32, told: &str) {
    let output = dump(arguments, input);
    assert_eq!((output.status.code(), output.stdout), (Some(status), vec![]), "{arguments:?}");
    one_line(&output.stderr, told);
}

#[track_caller]
fn one_line(stderr: &[u8], told: &str) {
    let text = String::from_utf8_lossy(stderr);
    assert!(text.starts_with("dump: ") && text.contains(told), "{text}");
    assert!(text.ends_with('\n') && text.lines().count() == 1, "{text}");
}

#[test]
fn wrong_usage() {
    let trace = &incident();
    fails(&[], b"", 2, "there is no file");
    fails(&["a", "b"], b"", 2, "a file is given twice");
    fails(&["--words", "a"], b"", 2, "there is no --words");
    fails(&["--trace"], b"", 2, "--trace needs a value");
    fails(&["--trace", trace, "--trace", trace], b"", 2, "--trace is given twice");
    fails(&["--trace", trace, "a"], b"", 2, "too many");
    fails(&["--text", "a", "b"], b"", 2, "too many");
    fails(&["a", "--at", "5"], b"", 2, "need --trace");
    fails(&["--text", "a", "--each"], b"", 2, "need --trace");
    fails(&["a", "--save", "b"], b"", 2, "need --trace");
    fails(&["--trace", trace, "--at", "here"], b"", 2, "--at needs a number, not here");
    fails(&["--trace", trace, "--at", "-1"], b"", 2, "--at needs a number");
    fails(&["--trace", trace, "--at", "69", "--each"], b"", 2, "--at and --each");
    fails(&["--trace", trace, "--each", "--save", "b"], b"", 2, "--save and --each");
    fails(&["--trace", trace, "--save", "-"], b"", 2, "- is none");
    assert!(printed(dump(&["--help"], b"")).starts_with("usage: ./dump FILE"));
}

#[test]
fn files_that_are_not_there_or_not_right() {
    fails(&["nowhere.words"], b"", 1, "nowhere.words: No such file");
    fails(&["--text", "nowhere\nat all"], b"", 1, "nowhere?at all: No such file");
    fails(&["--trace", "nowhere.trace"], b"", 1, "No such file");
    fails(&["--trace", "nowhere.txt"], b"", 1, "No such file");
    fails(&[root().to_str().unwrap()], b"", 1, "Is a directory");
    fails(&["-"], &[0; 4 * TABLE_WORDS + 1], 1, "bytes are no whole words");
    fails(&["-"], &[7], 1, "1 bytes are no whole words");
    fails(&["--text", "-"], b"1 2\n3 x7 # why\n", 1, "-: line 2: found `x7`, expected a number");
    fails(&["--text", "-"], b"4294967296", 1, "line 1: found `4294967296`");
    fails(&["--text", "-"], &[0xFF; 100], 1, "line 1: found");
    let text = own_file("wrong.txt", b"board\nprocess 0 RAM 5\n");
    fails(&["--trace", &text], b"", 1, "line 2: found");
}

#[test]
fn offsets_where_no_record_begins() {
    let trace = &incident();
    let at = |offset, told| fails(&["--trace", trace, "--at", offset], b"", 1, told);
    at("0", "nothing is made yet at byte 0: the first table is at byte 69");
    at(
        "1",
        "no record begins at byte 1: the nearest before it is at 0, the nearest after it is at 69",
    );
    at("70", "at byte 70: the nearest before it is at 69, the nearest after it is at 82");
    at("81", "at byte 81: the nearest before it is at 69, the nearest after it is at 82");
    at("0x53", "at byte 83: the nearest before it is at 82, the nearest after it is at 92");
    at("147", "at byte 147: the nearest before it is at 140, the trace ends at 146");
    at("4294967295", "the trace ends at 146");
}

/// What is printed of a broken trace, and told with status 1.
#[track_caller]
fn broken(arguments: &[&str], trace: &[u8], told: &str) -> String {
    let output = dump(arguments, trace);
    assert_eq!(output.status.code(), Some(1));
    one_line(&output.stderr, told);
    String::from_utf8(output.stdout).unwrap()
}

#[test]
fn broken_traces() {
    let trace = fs::read(incident()).unwrap();
    let cut = &trace[..100];
    let told = "-: the record at byte 92 is broken: cut: found the end at 0x0064, expected";
    let whole = printed(dump(&["--trace", "-", "--at", "92"], &trace));
    let table = |text: &str| String::from(&text[text.find("well formed").unwrap()..]);
    for arguments in [&["--trace", "-"][..], &["--trace", "-", "--at", "92"]] {
        let text = broken(arguments, cut, told);
        assert!(text.starts_with("at byte 92 of 100, after step 2 (deposit process 0"), "{text}");
        assert!(text.contains("\nnext: a broken record, cut: found the end at 0x0064"), "{text}");
        assert_eq!(table(&text), table(&whole));
    }
    let each = broken(&["--trace", "-", "--each"], cut, told);
    assert_eq!(each.matches("at byte ").count(), 3);
    assert!(printed(dump(&["--trace", "-", "--at", "82"], cut)).starts_with("at byte 82 of 100"));
    fails(&["--trace", "-", "--at", "95"], cut, 1, "at 92, the record at byte 92 is broken");
    let saved = own_file("broken.words", b"");
    broken(&["--trace", "-", "--save", &saved], cut, told);
    assert_eq!(printed(dump(&[&saved], b"")), table(&whole));

    fails(&["--trace", "-"], &[], 1, "the record at byte 0 is broken: cut");
    fails(&["--trace", "-"], &trace[..60], 1, "the record at byte 0 is broken: cut");
    fails(&["--trace", "-"], &[0; MAX_TRACE_BYTES + 1], 1, "too long");
    let mut unknown = trace.clone();
    unknown[82] = 9;
    broken(&["--trace", "-"], &unknown, "the record at byte 82 is broken: unknown kind");
}

#[test]
fn boards_that_are_not_good() {
    let board = |words: &[u32]| {
        let mut trace = Vec::new();
        write_board(&mut trace, words);
        trace
    };
    let mut words = [1; 2 + PROCESS_WORDS];
    words[1 + PROCESS_WORDS] = 0;
    let told = "the board is not good: word 1 of it (process 0, S) = 1: RAM starts below ";
    fails(&["--trace", "-"], &board(&words), 1, told);
    let told = "word 0 of it (P, processes) = 9: 1 words are not 2 + ";
    fails(&["--trace", "-"], &board(&[9]), 1, told);
    fails(&["--trace", "-", "--each"], &board(&[]), 1, "it has 0 words, and none for P, processes");
    let told = format!("a board has 1 to {MAX_PROCESSES} processes");
    fails(&["--trace", "-", "--at", "3"], &board(&[0, 0]), 1, &told);
}

/// A trace with many tables: more text than a pipe holds.
fn long_trace() -> Vec<u8> {
    let text = "board
process 0 RAM 0x20000000 to 0x20002000 grant 0x20001800 break 0x20001000 flash 0x00040000 to 0x00050000 permissions 0x0
";
    assemble(&(String::from(text) + &"resume process 0\n".repeat(500))).unwrap()
}

#[test]
fn a_reader_that_leaves() {
    let trace = own_file("long.trace", &long_trace());
    let arguments = ["--trace", &trace, "--each"];
    assert!(printed(dump(&arguments, b"")).len() > 200_000);
    let mut command = Command::new(env!("CARGO_BIN_EXE_dump"));
    let piped = command.args(arguments).stdout(Stdio::piped()).stderr(Stdio::piped());
    let mut child = piped.spawn().unwrap();
    drop(child.stdout.take());
    let output = child.wait_with_output().unwrap();
    assert_eq!(output.status.code(), Some(1));
    one_line(&output.stderr, "not all could be written: Broken pipe");
}

#[test]
fn output_and_files_that_cannot_be_written() {
    let full = || File::options().write(true).open("/dev/full").unwrap();
    let mut command = Command::new(env!("CARGO_BIN_EXE_dump"));
    let child = command.args(["--trace", &incident()]).stdout(full()).stderr(Stdio::piped());
    let output = child.spawn().unwrap().wait_with_output().unwrap();
    assert_eq!(output.status.code(), Some(1));
    one_line(&output.stderr, "not all could be written: No space left");
    fails(&["--trace", &incident(), "--save", "/dev/full"], b"", 1, "/dev/full: No space left");
    let nowhere = root().join("nowhere/saved");
    fails(&["--trace", &incident(), "--save", nowhere.to_str().unwrap()], b"", 1, "No such file");
    fails(&["--trace", &incident(), "--save", root().to_str().unwrap()], b"", 1, "directory");
}

/// A file beside the saved one stays, and a link is followed.
#[test]
fn saving_touches_nothing_else() {
    let beside = own_file("beside.words.part", b"mine");
    let saved = own_file("beside.words", b"before");
    printed(dump(&["--trace", &incident(), "--save", &saved], b""));
    assert_eq!(fs::read(&beside).unwrap(), b"mine");
    assert_eq!(fs::read(&saved).unwrap().len(), 4 * TABLE_WORDS);

    let target = own_file("target.words", b"before");
    let link = own_file("link.words", b"");
    fs::remove_file(&link).unwrap();
    std::os::unix::fs::symlink(&target, &link).unwrap();
    printed(dump(&["--trace", &incident(), "--save", &link], b""));
    assert!(fs::symlink_metadata(&link).unwrap().is_symlink());
    assert_eq!(fs::read(&target).unwrap().len(), 4 * TABLE_WORDS);
}

#[test]
fn endless_files() {
    for arguments in [&["/dev/zero"][..], &["--text", "/dev/zero"]] {
        fails(arguments, b"", 1, "/dev/zero: it has more than 67108864 bytes");
    }
    fails(&["--trace", "/dev/zero"], b"", 1, "too long");
}

/// The script of the repository, with another library than its own.
fn script(library: &str, command: &str) -> Output {
    let mut shell = Command::new("bash");
    shell.args(["-c", command]).env("MAKVLURIA_LIB", library).current_dir(root());
    run(&mut shell, b"")
}

#[test]
fn the_script_tells_its_failures() {
    for (library, told) in [
        ("target/staticlib", "MAKVLURIA_LIB has to be an absolute path, and is target/staticlib"),
        ("/nowhere", "MAKVLURIA_LIB names /nowhere, where no libhost.a is"),
    ] {
        let output = script(library, "./dump --trace examples/incident.trace");
        assert_eq!((output.status.code(), output.stdout), (Some(1), vec![]));
        one_line(&output.stderr, told);
    }
    let output = script("/nowhere", "./dump --trace examples/incident.trace >&-");
    assert_eq!(output.status.code(), Some(1));
    one_line(&output.stderr, "standard output is closed");
}

#[test]
fn closed_input() {
    let mut command = Command::new("sh");
    command.args(["-c", r#"exec "$0" - <&-"#, env!("CARGO_BIN_EXE_dump")]);
    let output = run(&mut command, b"");
    // Rust opens a closed input again, as an empty file: a table of no words.
    let text = printed(output);
    assert!(text.starts_with("not well formed: word 0 (P, processes) is missing"), "{text}");
}

//! The three programs, run as programs.

use std::fs;
use std::io::Write;
use std::path::Path;
use std::process::{Command, Output, Stdio};

use second::generate::corpus::WHOLE_CASE;
use second::generate::{generate, generate_mixed, Kind};
use second::replay::replay_to_vec;
use second::text::list::list_to_string;

fn second(trace: &[u8]) -> Output {
    run(Command::new(env!("CARGO_BIN_EXE_second")), trace)
}

fn listing(arguments: &[&str], input: &[u8]) -> Output {
    let mut command = Command::new(env!("CARGO_BIN_EXE_listing"));
    command.args(arguments);
    run(command, input)
}

/// Runs a program with this standard input.
fn run(mut command: Command, input: &[u8]) -> Output {
    let mut child = command
        .stdin(Stdio::piped())
        .stdout(Stdio::piped())
        .stderr(Stdio::piped())
        .spawn()
        .expect("the program starts");
    let mut pipe = child.stdin.take().expect("its input is a pipe");
    // It need not read all of a trace that is too long.
    let _ = pipe.write_all(input);
    drop(pipe);
    child.wait_with_output().expect("the program ends")
}

fn generator(arguments: &[&str]) -> Output {
    Command::new(env!("CARGO_BIN_EXE_generate"))
        .args(arguments)
        .output()
        .expect("the generator runs")
}

#[test]
fn second_replays_its_input() {
    let output = second(&WHOLE_CASE);
    assert!(output.status.success());
    assert_eq!(output.stdout, b"A 129 536870912 0 0\nW\nW\n");
}

#[test]
fn second_judges_empty_and_too_long_inputs() {
    assert_eq!(second(&[]).stdout, b"B 0\n");
    assert_eq!(second(&[0; 65_536]).stdout, b"X 13\n");
    assert_eq!(second(&[0; 65_537]).stdout, b"T\n");
    assert_eq!(second(&[0; 1_000_000]).stdout, b"T\n");
}

#[test]
fn second_replays_generated_traces() {
    for index in 0..20 {
        let trace = generate_mixed(5, index);
        assert_eq!(second(&trace).stdout, replay_to_vec(&trace));
    }
}

#[test]
fn generate_writes_one_trace() {
    let output = generator(&["5", "walk", "3"]);
    assert!(output.status.success());
    assert_eq!(output.stdout, generate(5, Kind::Walk, 3));
}

#[test]
fn generate_fills_a_directory() {
    let directory = Path::new(env!("CARGO_TARGET_TMPDIR")).join("generated");
    let name = directory.to_str().expect("a plain name");
    let output = generator(&["--dir", name, "--seed", "5", "--count", "20"]);
    assert!(output.status.success() && output.stdout.is_empty());
    for index in 0..20 {
        let file = directory.join(format!("{index:05}.trace"));
        assert_eq!(fs::read(file).expect("a trace"), generate_mixed(5, index));
    }
    fs::remove_dir_all(directory).expect("the traces are removed");
}

#[test]
fn generate_explains_wrong_arguments() {
    let output = generator(&["5", "other", "3"]);
    assert!(!output.status.success() && output.stdout.is_empty());
    assert!(String::from_utf8_lossy(&output.stderr).contains("usage"));
}

#[test]
fn listing_lists_and_assembles() {
    let listed = listing(&["-"], &WHOLE_CASE);
    assert!(listed.status.success() && listed.stderr.is_empty());
    assert_eq!(listed.stdout, list_to_string(&WHOLE_CASE).into_bytes());
    let assembled = listing(&["--assemble", "-"], &listed.stdout);
    assert!(assembled.status.success() && assembled.stderr.is_empty());
    assert_eq!(assembled.stdout, WHOLE_CASE);
}

#[test]
fn listing_reads_files() {
    let trace = Path::new(env!("CARGO_TARGET_TMPDIR")).join("listed.trace");
    let text = Path::new(env!("CARGO_TARGET_TMPDIR")).join("listed.txt");
    fs::write(&trace, WHOLE_CASE).expect("the trace is written");
    let listed = listing(&[trace.to_str().expect("a plain name")], &[]);
    assert_eq!(listed.stdout, list_to_string(&WHOLE_CASE).into_bytes());
    fs::write(&text, listed.stdout).expect("the text is written");
    let assembled = listing(&["--assemble", text.to_str().expect("a plain name")], &[]);
    assert_eq!(assembled.stdout, WHOLE_CASE);
}

#[test]
fn listing_takes_empty_broken_and_too_long_traces() {
    for trace in [&[][..], &[9, 1], &[0; 65_537], &[0; 200_000]] {
        let listed = listing(&["-"], trace);
        assert!(listed.status.success() && listed.stderr.is_empty());
        assert_eq!(listed.stdout, list_to_string(trace).into_bytes());
    }
}

/// Status 1, nothing on standard output, and this in the message.
#[track_caller]
fn assert_fails(output: Output, message: &str) {
    assert_eq!(output.status.code(), Some(1));
    assert!(output.stdout.is_empty());
    let told = String::from_utf8_lossy(&output.stderr);
    assert!(told.contains(message), "{told}");
}

#[test]
fn listing_explains_bad_texts() {
    let text = b"board\nresume process 0\nresume process zero\n";
    let message = "-: line 3: found `zero`, expected a number from 0 to 4294967295 as process";
    assert_fails(listing(&["--assemble", "-"], text), message);
    assert_fails(
        listing(&["--assemble", "-"], b"# \xFF\nboard\xFF"),
        "-: line 2: found `board\u{FFFD}`",
    );
}

#[test]
fn listing_explains_wrong_arguments() {
    for arguments in
        [&[][..], &["--assemble"], &["--other"], &["a", "b"], &["--assemble", "a", "b"]]
    {
        assert_fails(listing(arguments, &[]), "usage: listing FILE");
    }
    assert_fails(listing(&["no-such.trace"], &[]), "no-such.trace: ");
    assert_fails(listing(&["--assemble", "no-such.txt"], &[]), "no-such.txt: ");
}

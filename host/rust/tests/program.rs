//! The program's own failures: what it cannot read or write is told on standard error, with status 1, and no line is lost in silence.

use std::env;
use std::fs::File;
use std::io::{Read, Write};
use std::os::fd::OwnedFd;
use std::os::unix::net::UnixStream;
use std::path::{Path, PathBuf};
use std::process::{Command, Output, Stdio};
use std::thread;
use std::time::Duration;

use second::replay::replay_to_vec;
use second::text::parse::assemble;

const CUT_SHORT: &str = "replay: the lines could not all be written: ";
const NOT_READ: &str = "replay: the trace could not be read: ";

fn root() -> PathBuf {
    Path::new(env!("CARGO_MANIFEST_DIR")).join("../..")
}

/// The program, which the gate has built before; without it a test can be skipped.
fn program() -> Option<PathBuf> {
    let program = root().join("target/bin/replay");
    let required = env::var("MAKVLURIA_PROGRAM").is_ok_and(|value| value == "required");
    assert!(program.exists() || !required, "there is no {}", program.display());
    program.exists().then_some(program)
}

/// The incident, and its lines.
fn incident() -> (Vec<u8>, Vec<u8>) {
    let trace = std::fs::read(root().join("examples/incident.trace")).unwrap();
    let lines = replay_to_vec(&trace);
    (trace, lines)
}

/// A short trace whose lines, of twenty fetches of all of flash, have more bytes than any pipe holds.
fn many_lines() -> (Vec<u8>, Vec<u8>) {
    let mut text = String::from(
        "board
process 0 RAM 0x20000000 to 0x20002000 grant 0x20001800 break 0x20001000 flash 0x00040000 to 0x00050000 permissions 0x1
driver 0x1 subscribe 0 read-write 0 read-only 1 shared 0
call process 0 read-only allow driver 0x1 slot 0 address 0x00040000 size 65536
",
    );
    text.push_str(&"fetch process 0 driver 0x1 slot 0 offset 0 length 65536\n".repeat(20));
    let trace = assemble(&text).unwrap();
    let lines = replay_to_vec(&trace);
    assert!(lines.len() > 2_000_000);
    (trace, lines)
}

/// Runs a command on a trace as standard input.
fn run(command: &mut Command, trace: &[u8]) -> Output {
    let mut child = command.stdin(Stdio::piped()).stderr(Stdio::piped()).spawn().unwrap();
    // a program that ends early leaves some of it unread
    let _ = child.stdin.take().unwrap().write_all(trace);
    child.wait_with_output().unwrap()
}

/// The command that a shell makes of its arguments: $0 is the program.
fn shell(program: &Path, script: &str) -> Command {
    let mut command = Command::new("sh");
    command.args(["-c", script]).arg(program);
    command
}

fn told(output: &Output, what: &str, why: &str) {
    let text = String::from_utf8_lossy(&output.stderr);
    assert!(text.starts_with(what) && text.contains(why) && text.ends_with('\n'), "{text}");
    assert_eq!(output.status.code(), Some(1));
}

#[test]
fn output_that_is_full_or_closed() {
    let Some(program) = program() else { return };
    let (trace, _) = incident();
    let full = File::options().write(true).open("/dev/full").unwrap();
    told(&run(Command::new(&program).stdout(full), &trace), CUT_SHORT, "No space left on device");
    told(&run(&mut shell(&program, r#"exec "$0" >&-"#), &trace), CUT_SHORT, "Bad file descriptor");
}

#[test]
fn a_reader_that_leaves() {
    let Some(program) = program() else { return };
    let (trace, _) = incident();
    let mut command = Command::new(program);
    let mut child = command
        .stdin(Stdio::piped())
        .stdout(Stdio::piped())
        .stderr(Stdio::piped())
        .spawn()
        .unwrap();
    drop(child.stdout.take());
    child.stdin.take().unwrap().write_all(&trace).unwrap();
    told(&child.wait_with_output().unwrap(), CUT_SHORT, "Broken pipe");
}

/// Runs the program with an output that does not block.
fn not_blocking(program: &Path, output: UnixStream, trace: &[u8]) -> Output {
    output.set_nonblocking(true).unwrap();
    run(Command::new(program).stdout(OwnedFd::from(output)), trace)
}

#[test]
fn an_output_that_nobody_reads() {
    let Some(program) = program() else { return };
    let (near, far) = UnixStream::pair().unwrap();
    told(
        &not_blocking(&program, near, &many_lines().0),
        CUT_SHORT,
        "Resource temporarily unavailable",
    );
    drop(far);
}

/// What is read is the lines from the front on, and all of them unless it is told.
#[test]
fn an_output_that_does_not_block() {
    let Some(program) = program() else { return };
    let (trace, lines) = many_lines();
    let (near, mut far) = UnixStream::pair().unwrap();
    let reading = thread::spawn(move || {
        let mut taken = Vec::new();
        far.read_to_end(&mut taken).unwrap();
        taken
    });
    let output = not_blocking(&program, near, &trace);
    let taken = reading.join().unwrap();
    assert!(lines.starts_with(&taken));
    assert_eq!(taken.len() == lines.len(), output.stderr.is_empty());
}

#[test]
fn input_that_is_no_trace() {
    let Some(program) = program() else { return };
    let folder = File::open(root()).unwrap();
    let output = Command::new(&program).stdin(folder).output().unwrap();
    told(&output, NOT_READ, "Is a directory");
    assert!(output.stdout.is_empty());
    let output = shell(&program, r#"exec "$0" <&-"#).output().unwrap();
    told(&output, NOT_READ, "Bad file descriptor");
    assert!(output.stdout.is_empty());
}

/// What comes in pieces is read to its end.
#[test]
fn an_input_in_pieces() {
    let Some(program) = program() else { return };
    let (trace, lines) = incident();
    let mut command = Command::new(program);
    let mut child = command.stdin(Stdio::piped()).stdout(Stdio::piped()).spawn().unwrap();
    let mut input = child.stdin.take().unwrap();
    for piece in trace.chunks(trace.len() / 3) {
        input.write_all(piece).unwrap();
        thread::sleep(Duration::from_millis(20));
    }
    drop(input);
    assert_eq!(child.wait_with_output().unwrap().stdout, lines);
}

#[test]
fn an_input_that_does_not_block() {
    let Some(program) = program() else { return };
    let (trace, _) = incident();
    let (mut near, far) = UnixStream::pair().unwrap();
    far.set_nonblocking(true).unwrap();
    // the end is not told, so that a read would have to wait for ever
    near.write_all(&trace).unwrap();
    let output = Command::new(&program).stdin(OwnedFd::from(far)).output().unwrap();
    told(&output, NOT_READ, "Resource temporarily unavailable");
    assert!(output.stdout.is_empty());
}

/// README says how much stack the program needs.
#[test]
fn half_a_mebibyte_of_stack() {
    let Some(program) = program() else { return };
    for (trace, lines) in [incident(), many_lines()] {
        let output =
            run(shell(&program, r#"ulimit -s 512 && exec "$0""#).stdout(Stdio::piped()), &trace);
        assert!(output.status.success() && output.stderr.is_empty());
        assert!(output.stdout == lines);
    }
}

//! The proved layer beside the second program, on generated traces: the lines have to be the same, byte for byte. They are asked of the
//! library step by step, on records that the second program's reader reads, and in a run over the trace, which reads it too, in one piece
//! and with a pause after almost every line; and of the proved program on a sample.

mod steps;

use std::io::{self, ErrorKind, Write};
use std::path::{Path, PathBuf};
use std::process::{Command, Stdio};
use std::{env, fs, thread};

use makvluria::{Answer, Progress, IMAGE_BYTES, LINES_BYTES, TABLE_WORDS};
use second::board::{DriverNumber, ProcessIndex};
use second::generate::corpus::{every_cut, every_one_byte_change, small_corpus, WHOLE_CASE};
use second::generate::generate_mixed;
use second::replay::{replay_any_length, replay_to_vec};
use second::step::Step;
use second::text::list::list_to_string;
use second::trace::{write_trace, Reader, MAX_TRACE_BYTES};

/// Of the generated traces; another one is taken from `MAKVLURIA_SEED`.
const SEED: u64 = 104;

const TRACES: u64 = 2000;

/// The program is asked for one generated trace in so many. Kinds of traces come again after 20: 19 comes to all of them.
const SAMPLE: usize = 19;

fn root() -> PathBuf {
    Path::new(env!("CARGO_MANIFEST_DIR")).join("../..")
}

fn seed() -> u64 {
    env::var("MAKVLURIA_SEED").map_or(SEED, |seed| seed.parse().unwrap())
}

/// Says it also where the tests' output is captured, as that of `eprintln!` is.
fn report(line: &str) {
    let mut stderr = io::stderr();
    writeln!(stderr, "{line}").unwrap();
}

/// What a host owns.
#[derive(PartialEq)]
struct Host {
    table: Vec<u32>,
    memory: Vec<u8>,
    flash: Vec<u8>,
}

impl Host {
    fn new() -> Host {
        Host {
            table: vec![0; TABLE_WORDS],
            memory: vec![0; IMAGE_BYTES],
            flash: vec![0; IMAGE_BYTES],
        }
    }

    fn step(&mut self, step: Step) -> Answer {
        steps::make(&mut self.table, &mut self.memory, &self.flash, step)
    }

    fn write_answer(&self, out: &mut Vec<u8>, answer: Answer) {
        match answer {
            Answer::Refused(refusal) => write_line(out, 'X', &[refusal.number()]),
            Answer::Registers(registers) => write_line(out, 'A', &registers),
            Answer::Delivered { pointer, registers: [r0, r1, r2, r3] } => {
                write_line(out, 'U', &[pointer, r0, r1, r2, r3])
            }
            Answer::Waiting => write_line(out, 'W', &[]),
            Answer::Nothing => write_line(out, 'N', &[]),
            Answer::Taken => write_line(out, 'Q', &[]),
            Answer::Deposited => write_line(out, 'D', &[]),
            Answer::Latched => write_line(out, 'L', &[]),
            Answer::Started => {}
            Answer::Exited(code) => write_line(out, 'E', &[code]),
            Answer::Restarted(code) => write_line(out, 'R', &[code]),
            Answer::Fetched { length, .. } => {
                let part = answer.part(&self.memory, &self.flash);
                let bytes = part.iter().map(|&byte| u32::from(byte));
                let numbers: Vec<u32> = std::iter::once(length).chain(bytes).collect();
                write_line(out, 'F', &numbers)
            }
        }
    }
}

fn write_line(out: &mut Vec<u8>, letter: char, numbers: &[u32]) {
    write!(out, "{letter}").unwrap();
    for number in numbers {
        write!(out, " {number}").unwrap();
    }
    out.push(b'\n');
}

/// The lines of a trace, each step made by itself, and what the host is left with.
fn by_steps(trace: &[u8]) -> (Vec<u8>, Host) {
    let mut host = Host::new();
    let mut out = Vec::new();
    let mut reader = Reader::new(trace);
    let words = match reader.board() {
        Ok(words) => words,
        Err(broken) => {
            write_line(&mut out, 'B', &[broken.offset as u32]);
            return (out, host);
        }
    };
    let started = makvluria::start(&mut host.table, &words);
    host.write_answer(&mut out, started);
    if started != Answer::Started {
        return (out, host);
    }
    loop {
        match reader.step() {
            Ok(Some(step)) => {
                let answer = host.step(step);
                host.write_answer(&mut out, answer);
            }
            Ok(None) => break,
            Err(broken) => {
                write_line(&mut out, 'B', &[broken.offset as u32]);
                break;
            }
        }
    }
    assert!(makvluria::is_well_formed(&host.table), "the layer leaves a table that it takes");
    (out, host)
}

/// The same, by the run over the trace.
fn by_run(trace: &[u8]) -> (Vec<u8>, Host) {
    let mut host = Host::new();
    let mut out = Vec::new();
    let Host { table, memory, flash } = &mut host;
    makvluria::replay_all(trace, table, memory, flash, &mut out).unwrap();
    (out, host)
}

/// The same, by a run in as little room as its lines can do with.
fn by_pauses(trace: &[u8]) -> (Vec<u8>, Host) {
    const LEAST: usize = 64;
    let mut host = Host::new();
    let (mut out, mut buffer) = (Vec::new(), vec![0; LINES_BYTES]);
    let (mut at, mut room) = (0, LEAST);
    let Host { table, memory, flash } = &mut host;
    loop {
        let lines = &mut buffer[..room];
        match makvluria::replay(trace, at, table, memory, flash, lines) {
            Progress::Ended { written } => {
                out.extend_from_slice(&lines[..written]);
                return (out, host);
            }
            Progress::Paused { at: next, written } => {
                out.extend_from_slice(&lines[..written]);
                // Where it came no further, the line of a fetch is longer.
                room = if at < next { LEAST } else { LINES_BYTES.min(2 * room) };
                at = next;
            }
        }
    }
}

/// The same lines, by the program.
fn by_program(program: &Path, trace: &[u8]) -> Vec<u8> {
    let mut command = Command::new(program);
    let mut child = command.stdin(Stdio::piped()).stdout(Stdio::piped()).spawn().unwrap();
    let mut input = child.stdin.take().unwrap();
    thread::scope(|scope| {
        scope.spawn(move || {
            // The program does not read to the end of a trace that is too long.
            if let Err(error) = input.write_all(trace) {
                assert_eq!(error.kind(), ErrorKind::BrokenPipe);
            }
        });
        let output = child.wait_with_output().unwrap();
        assert!(output.status.success(), "{}", output.status);
        output.stdout
    })
}

/// The program, which the gate has built before; without it a test can be skipped.
fn program() -> Option<PathBuf> {
    let program = root().join("target/bin/replay");
    if program.exists() {
        return Some(program);
    }
    let required = env::var("MAKVLURIA_PROGRAM").is_ok_and(|value| value == "required");
    assert!(!required, "there is no {}", program.display());
    report(&format!("the program is skipped: there is no {}", program.display()));
    None
}

/// Keeps a trace on which the two differ, and shows it.
fn differs(name: &str, how: &str, trace: &[u8], lines: &[u8]) -> ! {
    let file = Path::new(env!("CARGO_TARGET_TMPDIR")).join(format!("{name}.trace"));
    fs::write(&file, trace).unwrap();
    panic!(
        "{name} differs {how}, kept as {}\n{}\nproved:\n{}",
        file.display(),
        list_to_string(trace),
        String::from_utf8_lossy(lines)
    );
}

fn count_lines(lines: &[u8]) -> usize {
    lines.iter().filter(|&&byte| byte == b'\n').count()
}

fn compare(name: &str, trace: &[u8]) -> usize {
    let mut expected = Vec::new();
    replay_any_length(trace, &mut expected).unwrap();
    let (lines, stepped) = by_steps(trace);
    if lines != expected {
        differs(name, "by steps", trace, &lines);
    }
    for (how, (lines, host)) in [("in one run", by_run(trace)), ("with pauses", by_pauses(trace))] {
        if lines != expected {
            differs(name, how, trace, &lines);
        }
        if host != stepped {
            differs(name, &format!("in what it leaves {how}"), trace, &lines);
        }
    }
    count_lines(&expected)
}

fn compare_program(program: &Path, name: &str, trace: &[u8]) -> usize {
    let lines = by_program(program, trace);
    if lines != replay_to_vec(trace) {
        differs(name, "by the program", trace, &lines);
    }
    count_lines(&lines)
}

/// The whole case, and resumes after it up to so many bytes.
fn whole_case_of(bytes: usize) -> Vec<u8> {
    const RESUME: [u8; 2] = [2, 0];
    const LATCH: [u8; 3] = [5, 0, 0];
    let mut trace = WHOLE_CASE.to_vec();
    if (bytes - trace.len()) % 2 == 1 {
        trace.extend(LATCH);
    }
    while trace.len() < bytes {
        trace.extend(RESUME);
    }
    trace
}

/// Fetches of a whole image, of which two do not fit in the buffer of a run.
fn whole_images() -> Vec<u8> {
    let (process, driver, slot) = (ProcessIndex(0), DriverNumber(1), 0);
    #[rustfmt::skip]
    let board = [
        1, 0x2000_0000, 0x2001_0000, 0x2001_0000, 0x2001_0000, 0x4_0000, 0x5_0000, 1,
        1, driver.0, 0, 1, 1, 0,
    ];
    let lend =
        |class| Step::Call { process, class, registers: [driver.0, slot, 0x2000_0000, 65_536] };
    let mut steps = vec![lend(3), lend(4)];
    for place in 0..40 {
        let (offset, bytes) = (place * 1024, &[200; 1024]);
        steps.push(Step::Deposit { process, driver, slot, offset, bytes });
    }
    steps.extend([Step::Fetch { process, driver, slot, offset: 0, length: 65_536 }; 5]);
    write_trace(&board, &steps)
}

/// Traces in examples/, by their names.
fn examples() -> Vec<(String, Vec<u8>)> {
    let files = fs::read_dir(root().join("examples")).unwrap().map(|entry| entry.unwrap().path());
    let traces =
        files.filter(|file| file.extension().is_some_and(|extension| extension == "trace"));
    traces
        .map(|file| (file.file_stem().unwrap().display().to_string(), fs::read(&file).unwrap()))
        .collect()
}

#[test]
fn generated_traces() {
    let seed = seed();
    let lines: usize = (0..TRACES)
        .map(|index| compare(&format!("{seed}-{index}"), &generate_mixed(seed, index)))
        .sum();
    report(&format!(
        "seed {seed}: {TRACES} traces, {lines} lines, all equal by steps, in one run and with pauses"
    ));
}

#[test]
fn every_change_and_cut_of_small_traces() {
    let mut count = 0;
    for (index, trace) in small_corpus().iter().enumerate() {
        for (change, changed) in every_one_byte_change(trace).enumerate() {
            compare(&format!("small-{index}-changed-{change}"), &changed);
            count += 1;
        }
        for cut in every_cut(trace) {
            compare(&format!("small-{index}-cut-{}", cut.len()), cut);
            count += 1;
        }
    }
    report(&format!(
        "{count} changed and cut traces, all equal by steps, in one run and with pauses"
    ));
}

#[test]
fn long_lines() {
    assert_eq!(compare("whole-images", &whole_images()), 2 + 40 + 5);
}

#[test]
fn the_program_on_a_sample() {
    let Some(program) = program() else { return };
    let seed = seed();
    let mut traces: Vec<(String, Vec<u8>)> = examples();
    assert!(traces.len() >= 2, "the examples are there");
    traces.push(("empty".into(), Vec::new()));
    traces.push(("whole-images".into(), whole_images()));
    traces.push(("longest".into(), whole_case_of(MAX_TRACE_BYTES)));
    traces.push(("too-long".into(), whole_case_of(MAX_TRACE_BYTES + 1)));
    let sample = (0..TRACES).step_by(SAMPLE);
    traces.extend(sample.map(|index| (format!("{seed}-{index}"), generate_mixed(seed, index))));
    let lines: usize =
        traces.iter().map(|(name, trace)| compare_program(&program, name, trace)).sum();
    report(&format!(
        "seed {seed}: {} traces, {lines} lines, all equal by the program",
        traces.len()
    ));
}

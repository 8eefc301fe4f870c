//! The trace form: numbers, records, offsets, and writing.

use crate::common::*;
use second::generate::corpus::{every_cut, every_one_byte_change, small_corpus};
use second::step::Step;
use second::trace::{write_number, write_step, write_trace, Broken, Reader};

/// The number that a resume's process field reads as, if it can be read.
fn read_number(bytes: &[u8]) -> Option<u32> {
    let trace = [&[0, 2], bytes].concat();
    let mut reader = Reader::new(&trace);
    assert_eq!(reader.board(), Ok(vec![]));
    match reader.step() {
        Ok(Some(Step::Resume { process })) if reader.place() == trace.len() => Some(process.0),
        Ok(step) => panic!("read as {step:?}"),
        Err(broken) => {
            assert_eq!(broken, Broken { offset: 1 });
            None
        }
    }
}

#[test]
fn numbers_at_the_ends_of_their_groups() {
    let forms: [(u32, &[u8]); 12] = [
        (0, &[0x00]),
        (1, &[0x01]),
        (127, &[0x7F]),
        (128, &[0x80, 0x01]),
        (300, &[0xAC, 0x02]),
        (16_383, &[0xFF, 0x7F]),
        (16_384, &[0x80, 0x80, 0x01]),
        (2_097_151, &[0xFF, 0xFF, 0x7F]),
        (2_097_152, &[0x80, 0x80, 0x80, 0x01]),
        (268_435_455, &[0xFF, 0xFF, 0xFF, 0x7F]),
        (268_435_456, &[0x80, 0x80, 0x80, 0x80, 0x01]),
        (u32::MAX, &[0xFF, 0xFF, 0xFF, 0xFF, 0x0F]),
    ];
    for (number, bytes) in forms {
        let mut written = Vec::new();
        write_number(&mut written, number);
        assert_eq!(written, bytes, "{number}");
        assert_eq!(read_number(bytes), Some(number));
    }
}

#[test]
fn numbers_that_are_broken() {
    let forms: [&[u8]; 14] = [
        &[],
        &[0x80],
        &[0xFF, 0xFF],
        &[0x80, 0x00],
        &[0xFF, 0x00],
        &[0x80, 0x80, 0x00],
        &[0xAC, 0x82, 0x00],
        &[0x80, 0x80, 0x80, 0x80, 0x00],
        &[0x80, 0x80, 0x80, 0x80, 0x10],
        &[0xFF, 0xFF, 0xFF, 0xFF, 0x1F],
        &[0xFF, 0xFF, 0xFF, 0xFF, 0x7F],
        &[0xFF, 0xFF, 0xFF, 0xFF, 0x8F, 0x00],
        &[0x80, 0x80, 0x80, 0x80, 0x80, 0x01],
        &[0xFF, 0xFF, 0xFF, 0xFF, 0xFF, 0x01],
    ];
    for bytes in forms {
        assert_eq!(read_number(bytes), None, "{bytes:x?}");
    }
}

#[test]
fn empty_trace() {
    assert_eq!(output(&[]), "B 0\n");
}

#[test]
fn broken_records_are_named_by_their_first_byte() {
    let first = write_trace(&CASE_BOARD, &[]).len();
    let good = write_trace(&CASE_BOARD, &[resume(0)]);
    let second = good.len();
    assert_eq!(output(&[&good[..], &[6]].concat()), format!("X 6\nB {second}\n"));
    assert_eq!(output(&[&good[..], &[0]].concat()), format!("X 6\nB {second}\n"));
    assert_eq!(output(&[&good[..], &[0, 0, 5, 2, 0, 0]].concat()), format!("X 6\nB {second}\n"));
    assert_eq!(output(&[&good[..first], &[0x80, 0x02]].concat()), format!("B {first}\n"));
    // What stands after a broken record is not read.
    assert_eq!(output(&[&good[..], &[9, 2, 0]].concat()), format!("X 6\nB {second}\n"));
}

/// One step of each kind, with small and large numbers.
fn sample_steps() -> Vec<Step<'static>> {
    vec![
        call(0, 0, [0; 4]),
        call(u32::MAX, 255, [u32::MAX; 4]),
        event(7, 300, 3, [1, 0x8000_0000, u32::MAX]),
        resume(0),
        resume(u32::MAX),
        deposit(1, 2, 3, 4, &[]),
        deposit(1, u32::MAX, 3, u32::MAX, &[0x80, 0xFF, 0]),
        deposit(0, 0, 0, 0, &[9; 1024]),
        fetch(1, 2, 3, 4, 5),
        fetch(1, 2, 3, u32::MAX, u32::MAX),
        latch(0x9_0000, -1),
        latch(0, i32::MIN),
        latch(0, i32::MAX),
    ]
}

#[test]
fn what_is_written_reads_back_as_the_same() {
    let steps = sample_steps();
    let trace = write_trace(&CASE_BOARD, &steps);
    let mut reader = Reader::new(&trace);
    assert_eq!(reader.board().as_deref(), Ok(&CASE_BOARD[..]));
    for step in steps {
        assert_eq!(reader.step(), Ok(Some(step)));
    }
    assert_eq!(reader.step(), Ok(None));
}

#[test]
fn what_is_read_is_written_again_byte_for_byte() {
    for trace in small_corpus() {
        let mut reader = Reader::new(&trace);
        let mut written = write_trace(&reader.board().expect("a board"), &[]);
        while let Some(step) = reader.step().expect("a good record") {
            write_step(&mut written, step);
        }
        assert_eq!(written, trace);
    }
}

/// Every beginning of a trace gives the lines of its whole records, and a `B`
/// with the first byte of the record that is cut.
#[test]
fn every_cut_of_the_corpus() {
    for trace in small_corpus() {
        let starts = record_starts(&trace);
        let whole: Vec<String> = output(&trace).lines().map(String::from).collect();
        for cut in every_cut(&trace) {
            let records = starts.iter().filter(|&&start| start <= cut.len()).count();
            let expected = match records {
                0 => vec![String::from("B 0")],
                _ => {
                    let mut lines = whole[..records - 1].to_vec();
                    let start = starts[records - 1];
                    lines.extend((start < cut.len()).then(|| format!("B {start}")));
                    lines
                }
            };
            assert_eq!(output(cut).lines().collect::<Vec<_>>(), expected);
        }
    }
}

/// The first byte of each step record, and the end of the trace.
fn record_starts(trace: &[u8]) -> Vec<usize> {
    let mut reader = Reader::new(trace);
    reader.board().expect("a board");
    let mut starts = vec![reader.place()];
    while reader.step().expect("a good record").is_some() {
        starts.push(reader.place());
    }
    starts
}

#[test]
fn every_one_byte_change_of_the_corpus_gives_lines() {
    for trace in small_corpus() {
        let mut changes = 0;
        for changed in every_one_byte_change(&trace) {
            changes += 1;
            let differences = changed.iter().zip(&trace).filter(|(a, b)| a != b).count();
            assert_eq!((changed.len(), differences), (trace.len(), 1));
            assert_is_lines(&output(&changed));
        }
        assert_eq!(changes, 255 * trace.len());
    }
}

/// Known letters, single spaces, decimal numbers, each line ended.
fn assert_is_lines(text: &str) {
    assert!(text.is_empty() || text.ends_with('\n'));
    for line in text.lines() {
        let mut words = line.split(' ');
        let letter = words.next().expect("a letter");
        assert!("AUWNERQDLFXBT".contains(letter) && letter.len() == 1, "{line}");
        assert!(
            words.all(|word| word.parse::<u32>().is_ok_and(|n| n.to_string() == word)),
            "{line}"
        );
    }
}

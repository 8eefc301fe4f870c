//! Broken traces: a good trace with one damage.

use crate::board::{board_words, ProcessIndex, MAX_BOARD_WORDS};
use crate::generate::boards::{good_board, Shape};
use crate::generate::script::Script;
use crate::generate::walk::make_moves;
use crate::limits::{MAX_DRIVERS, MAX_PROCESSES};
use crate::random::Random;
use crate::step::Step;
use crate::trace::{kind, write_board, write_number, write_numbers, Reader, MAX_DEPOSIT_BYTES};

type Damage = fn(&mut Random, Vec<u8>) -> Vec<u8>;

const DAMAGES: [Damage; 13] = [
    cut,
    change_byte,
    change_byte,
    insert_byte,
    remove_byte,
    lengthen_number,
    lengthen_number,
    exceed_32_bits,
    exceed_class,
    exceed_deposit,
    exceed_board,
    unknown_kind,
    add_tail,
];

/// A good trace that is damaged once; what follows the damage stays. The index
/// goes through the damages in turn.
pub fn broken(random: &mut Random, index: u64) -> Vec<u8> {
    let trace = good_trace(random);
    let turn = (index % DAMAGES.len() as u64) as usize;
    DAMAGES[turn](random, trace)
}

fn good_trace(random: &mut Random) -> Vec<u8> {
    let shape = random.pick(&[Shape::Ordinary, Shape::Tight, Shape::Bare]);
    let words = good_board(random, shape);
    let moves = random.pick(&[1, 5, 20, 40]);
    let mut script = Script::new(Random::new(&[u64::from(random.word())]), &words);
    make_moves(&mut script, moves, 4_000);
    // Some damages need a call.
    script.call(ProcessIndex(0), 5, [2, 0, 0, 0]);
    script.into_trace()
}

/// A record in a trace: where its numbers are.
struct Record {
    /// First byte of each number, and the byte after the last number.
    bounds: Vec<usize>,
    /// None for the board.
    kind: Option<u32>,
}

/// Every record of a good trace.
fn records(trace: &[u8]) -> Vec<Record> {
    let mut reader = Reader::new(trace);
    let words = reader.board().expect("a good trace has a board");
    let mut records = vec![Record { bounds: bounds(trace, 0, 1 + words.len()), kind: None }];
    loop {
        let start = reader.place();
        let Some(step) = reader.step().expect("a good trace has good records") else {
            return records;
        };
        let (kind, numbers) = kind_and_numbers(step);
        records.push(Record { bounds: bounds(trace, start, numbers), kind: Some(kind) });
    }
}

/// The step's kind number, and how many numbers its record has.
fn kind_and_numbers(step: Step) -> (u32, usize) {
    match step {
        Step::Call { .. } => (kind::CALL, 7),
        Step::Event { .. } => (kind::EVENT, 7),
        Step::Resume { .. } => (kind::RESUME, 2),
        Step::Deposit { .. } => (kind::DEPOSIT, 6),
        Step::Fetch { .. } => (kind::FETCH, 6),
        Step::Latch { .. } => (kind::LATCH, 3),
    }
}

fn bounds(trace: &[u8], start: usize, numbers: usize) -> Vec<usize> {
    let mut bounds = vec![start];
    let mut place = start;
    for _ in 0..numbers {
        place += trace[place..].iter().take_while(|&&byte| byte >= 0x80).count() + 1;
        bounds.push(place);
    }
    bounds
}

/// Puts other bytes in the place of number `number` of a record.
fn replace_number(mut trace: Vec<u8>, record: &Record, number: usize, bytes: Vec<u8>) -> Vec<u8> {
    trace.splice(record.bounds[number]..record.bounds[number + 1], bytes);
    trace
}

/// A record, and the place of one of its numbers in it.
fn pick_number(random: &mut Random, trace: &[u8]) -> (Record, usize) {
    let mut records = records(trace);
    let place = if random.one_in(4) { 0 } else { random.below(records.len()) };
    let record = records.swap_remove(place);
    let number = random.below(record.bounds.len() - 1);
    (record, number)
}

fn cut(random: &mut Random, mut trace: Vec<u8>) -> Vec<u8> {
    trace.truncate(random.below(trace.len()));
    trace
}

fn change_byte(random: &mut Random, mut trace: Vec<u8>) -> Vec<u8> {
    let place = random.below(trace.len());
    trace[place] ^= random.within(1..=255) as u8;
    trace
}

fn insert_byte(random: &mut Random, mut trace: Vec<u8>) -> Vec<u8> {
    let byte = random.pick(&[0, 1, 2, 0x7F, 0x80, 0xFF]);
    trace.insert(random.below(trace.len() + 1), byte);
    trace
}

fn remove_byte(random: &mut Random, mut trace: Vec<u8>) -> Vec<u8> {
    trace.remove(random.below(trace.len()));
    trace
}

/// The same value with a group or more of zeros at its end.
fn lengthen_number(random: &mut Random, trace: Vec<u8>) -> Vec<u8> {
    let (record, number) = pick_number(random, &trace);
    let mut bytes = trace[record.bounds[number]..record.bounds[number + 1]].to_vec();
    for _ in 0..random.pick(&[1, 1, 1, 2, 4]) {
        *bytes.last_mut().expect("a number has a byte") |= 0x80;
        bytes.push(0);
    }
    replace_number(trace, &record, number, bytes)
}

fn exceed_32_bits(random: &mut Random, trace: Vec<u8>) -> Vec<u8> {
    let (record, number) = pick_number(random, &trace);
    let forms: [&[u8]; 7] = [
        &[0x80, 0x80, 0x80, 0x80, 0x10],
        &[0xFF, 0xFF, 0xFF, 0xFF, 0x1F],
        &[0xFF, 0xFF, 0xFF, 0xFF, 0x7F],
        &[0x81, 0x80, 0x80, 0x80, 0x20],
        &[0xFF, 0xFF, 0xFF, 0xFF, 0xFF, 0x01],
        &[0x81, 0x80, 0x80, 0x80, 0x80, 0x01],
        &[0x80, 0x80, 0x80, 0x80, 0x80, 0x80, 0x80, 0x80, 0x80, 0x80, 0x01],
    ];
    replace_number(trace, &record, number, random.pick(&forms).to_vec())
}

/// A class above 255; some of them would be known classes in 8 bits.
fn exceed_class(random: &mut Random, trace: Vec<u8>) -> Vec<u8> {
    let mut calls = records(&trace);
    calls.retain(|record| record.kind == Some(kind::CALL));
    let record = calls.swap_remove(random.below(calls.len()));
    let class = random.pick(&[256, 261, 300, 511, 0x1_0005, u32::MAX]);
    replace_number(trace, &record, 2, number_bytes(class))
}

/// A deposit of too many bytes, all of which are there, at some record's place.
fn exceed_deposit(random: &mut Random, mut trace: Vec<u8>) -> Vec<u8> {
    let records = records(&trace);
    let place = match random.below(records.len()) {
        0 => trace.len(),
        record => records[record].bounds[0],
    };
    let over = random.pick(&[0, 1, 2, 0, 1_024, 65_536]);
    let length = MAX_DEPOSIT_BYTES + over;
    let mut deposit = Vec::new();
    write_numbers(&mut deposit, &[kind::DEPOSIT, 0, 0, 0, 0, length]);
    deposit.extend(random.bytes(length.min(2_000) as usize));
    trace.splice(place..place, deposit);
    trace
}

/// A board of more words than the largest, or a count that says so.
fn exceed_board(random: &mut Random, trace: Vec<u8>) -> Vec<u8> {
    let mut reader = Reader::new(&trace);
    let mut words = reader.board().expect("a good trace has a board");
    let most = MAX_BOARD_WORDS;
    if random.one_in(3) {
        // In 8 bits it would be the board's own count.
        let same_in_8_bits = (most.next_multiple_of(256) + words.len()) as u32;
        let count = random.pick(&[most as u32 + 1, same_in_8_bits, u32::MAX]);
        let board = &records(&trace)[0];
        return replace_number(trace, board, 0, number_bytes(count));
    }
    let far_over = board_words(2 * MAX_PROCESSES, MAX_DRIVERS);
    words.resize(random.pick(&[most, most + 1, most + 2, far_over]), 0);
    let mut changed = Vec::new();
    write_board(&mut changed, &words);
    changed.extend_from_slice(&trace[reader.place()..]);
    changed
}

fn unknown_kind(random: &mut Random, trace: Vec<u8>) -> Vec<u8> {
    let mut records = records(&trace);
    let place = 1 + random.below(records.len() - 1);
    let record = records.swap_remove(place);
    let unknown = random.pick(&[6, 7, 8, 127, 128, 256, 0x1_0000, u32::MAX]);
    replace_number(trace, &record, 0, number_bytes(unknown))
}

/// Bytes after the last record.
fn add_tail(random: &mut Random, mut trace: Vec<u8>) -> Vec<u8> {
    let tails: [&[u8]; 6] = [&[0], &[6], &[0x80], &[0xFF; 5], &[3, 0, 0, 0, 0, 4, 1, 2, 3], &[2]];
    trace.extend_from_slice(random.pick(&tails));
    trace
}

fn number_bytes(number: u32) -> Vec<u8> {
    let mut bytes = Vec::new();
    write_number(&mut bytes, number);
    bytes
}

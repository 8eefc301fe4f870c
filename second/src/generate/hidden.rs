//! Pairs of traces that one process must not be able to tell apart: on the one
//! board a driver is denied to it, on the other that driver is not installed.

use crate::board::{
    field, split_words, Board, DriverNumber, DriverPlace, DriverWords, ProcessIndex, ProcessWords,
};
use crate::generate::boards::{good_board, Shape};
use crate::generate::script::Script;
use crate::generate::walk::make_moves;
use crate::random::Random;
use crate::step::Step;
use crate::trace::{read_trace, write_trace};

/// Bytes after which a walk makes no more moves: short ones, of which there
/// can be thousands.
const MOST_BYTES: usize = 3_000;

/// Both traces have the same steps that name the process, in the same order,
/// and among them no command above 0 to another shared driver. What the others
/// do differs.
pub struct Hidden {
    pub process: ProcessIndex,
    /// Its mask denies it this driver.
    pub driver: DriverNumber,
    /// On a board that has the driver.
    pub denied: Vec<u8>,
    /// On that board without the driver.
    pub absent: Vec<u8>,
}

/// A pair of traces for each process and denied driver of a walk in which the
/// one calls the other.
pub fn hidden(seed: u64, index: u64) -> Vec<Hidden> {
    let mut random = Random::new(&[seed, index]);
    let shape = random.pick(&[Shape::Ordinary, Shape::Ordinary, Shape::Tight, Shape::Full]);
    let words = good_board(&mut random, shape);
    let walk = walk_on(&mut random, &words);
    let steps = steps_of(&walk);
    let mut pairs = Vec::new();
    for (process, place) in denied(&words) {
        let driver = number_at(&words, place);
        if steps.iter().any(|step| is_call_of(step, process, driver)) {
            pairs.push(hide(&mut random, &words, &steps, process, place));
        }
    }
    pairs
}

/// The walk; and on the board without the driver the process's steps of it,
/// among those that others make in another walk, or alone.
fn hide(
    random: &mut Random,
    words: &[u32],
    steps: &[Step],
    process: ProcessIndex,
    place: DriverPlace,
) -> Hidden {
    let driver = number_at(words, place);
    let mut steps = steps.to_vec();
    steps.retain(|step| !is_command_to_another(words, step, process, driver));
    let denied = write_trace(words, &steps);

    let words = without(words, place);
    let other_walk = walk_on(random, &words);
    let mut others = steps_of(&other_walk);
    let alone = random.one_in(3);
    others.retain(|step| !alone && step.process() != Some(process));
    steps.retain(|step| step.process() == Some(process));
    let absent = write_trace(&words, &interleaved(random, &steps, &others));
    Hidden { process, driver, denied, absent }
}

/// The board without the driver at a place: its words and its mask bits are
/// taken out, and higher bits moved down.
pub fn without(words: &[u32], place: DriverPlace) -> Vec<u32> {
    let (processes, drivers) = rows(words);
    let mut rest = vec![processes.len() as u32];
    for process in processes {
        let mut process = *process;
        process[field::PERMISSIONS] = without_bit(process[field::PERMISSIONS], place.0);
        rest.extend(process);
    }
    rest.push(drivers.len() as u32 - 1);
    let (before, after) = (&drivers[..place.0], &drivers[place.0 + 1..]);
    rest.extend(before.iter().chain(after).flatten());
    rest
}

fn without_bit(mask: u32, bit: usize) -> u32 {
    let below = (1 << bit) - 1;
    mask & below | mask >> 1 & !below
}

fn rows(words: &[u32]) -> (&[ProcessWords], &[DriverWords]) {
    split_words(words).expect("a good board")
}

fn number_at(words: &[u32], place: DriverPlace) -> DriverNumber {
    let (_, drivers) = rows(words);
    DriverNumber(drivers[place.0][field::NUMBER])
}

/// Each process with each driver that its mask denies.
fn denied(words: &[u32]) -> Vec<(ProcessIndex, DriverPlace)> {
    let board = Board::from_words(words).expect("a good board");
    let mut denied = Vec::new();
    for (process, index) in board.processes().iter().zip(0..) {
        let places = (0..board.drivers().len()).map(DriverPlace);
        let places = places.filter(|&place| !process.permits(place));
        denied.extend(places.map(|place| (ProcessIndex(index), place)));
    }
    denied
}

/// Whether the step is a call of the driver, of any class, by the process.
fn is_call_of(step: &Step, process: ProcessIndex, driver: DriverNumber) -> bool {
    let Step::Call { process: caller, class: 1..=4, registers: [number, ..] } = *step else {
        return false;
    };
    caller == process && number == driver.0
}

/// Whether the step is a command above 0 to a shared driver, by the process,
/// and not to this driver.
fn is_command_to_another(
    words: &[u32],
    step: &Step,
    process: ProcessIndex,
    driver: DriverNumber,
) -> bool {
    let Step::Call { class: 2, registers: [number, command, ..], .. } = *step else {
        return false;
    };
    let (_, drivers) = rows(words);
    let shared = drivers.iter().any(|row| row[field::NUMBER] == number && row[field::SHARED] != 0);
    step.process() == Some(process) && command > 0 && shared && number != driver.0
}

/// A trace of some moves on this board.
fn walk_on(random: &mut Random, words: &[u32]) -> Vec<u8> {
    let moves = random.pick(&[8, 20, 40]);
    let mut script = Script::new(Random::new(&[u64::from(random.word())]), words);
    make_moves(&mut script, moves, MOST_BYTES);
    script.into_trace()
}

fn steps_of(trace: &[u8]) -> Vec<Step<'_>> {
    let (_, steps) = read_trace(trace).expect("a walk has good records");
    steps
}

/// Both lists in one, each in its own order.
fn interleaved<'a>(random: &mut Random, own: &[Step<'a>], others: &[Step<'a>]) -> Vec<Step<'a>> {
    let (mut own, mut others) = (own.iter(), others.iter());
    let mut steps = Vec::new();
    while own.len() + others.len() > 0 {
        let is_own = random.below(own.len() + others.len()) < own.len();
        steps.extend(if is_own { own.next() } else { others.next() });
    }
    steps
}

//! Board traces: boards that are not good, good ones at the limits, and steps
//! that show which it was.

use crate::board::{board_words, Area, Board, FLASH, MAX_BOARD_WORDS, MEMORY};
use crate::board::{DriverNumber, ProcessIndex};
use crate::generate::boards::{good_board, too_many_drivers, too_many_processes, Shape};
use crate::limits::{MAX_DRIVERS, MAX_SLOTS};
use crate::random::Random;
use crate::step::Step;
use crate::trace::{write_board, write_step};

const PROCESS_WORDS: usize = board_words(1, 0) - board_words(0, 0);
const DRIVER_WORDS: usize = board_words(0, 1) - board_words(0, 0);

/// A process's words, by their place among them.
const S: usize = 0;
const E: usize = 1;
const G: usize = 2;
const B: usize = 3;
const F: usize = 4;
const FE: usize = 5;
const MASK: usize = 6;

/// A way to break one rule and, mostly, no other.
#[derive(Clone, Copy)]
enum Spoil {
    /// With another number of words.
    Resize(fn(&mut Random, &mut Vec<u32>)),
    /// With the same number of words.
    Change(fn(&mut Random, &mut [u32])),
}

const SPOILS: [Spoil; 19] = [
    Spoil::Resize(drop_words),
    Spoil::Resize(add_words),
    Spoil::Resize(leave_no_process),
    Spoil::Resize(add_processes),
    Spoil::Resize(add_drivers),
    Spoil::Change(leave_the_memory_image),
    Spoil::Change(leave_the_flash_image),
    Spoil::Change(put_break_below_ram),
    Spoil::Change(put_grant_below_break),
    Spoil::Change(put_grant_above_ram),
    Spoil::Change(empty_ram),
    Spoil::Change(empty_flash),
    Spoil::Change(turn_flash_round),
    Spoil::Change(share_ram),
    Spoil::Change(share_flash),
    Spoil::Change(repeat_a_driver_number),
    Spoil::Change(set_a_mask_bit),
    Spoil::Change(raise_slots),
    Spoil::Change(raise_shared),
];

/// Traces that keep their board good, and that change it without a plan, among
/// as many as there are spoils and these.
const GOOD: usize = 8;
const UNPLANNED: usize = 4;

/// A board, mostly spoiled, and questions about it. The index goes through the
/// rules in turn, so that no rule is left out.
pub fn board_trace(random: &mut Random, index: u64) -> Vec<u8> {
    let turn = (index % (SPOILS.len() + GOOD + UNPLANNED) as u64) as usize;
    let words = match SPOILS.get(turn) {
        Some(&spoil) => spoiled_board(random, spoil),
        None => {
            let mut words = any_board(random);
            if turn >= SPOILS.len() + GOOD {
                change_some_word(random, &mut words);
            }
            words
        }
    };
    let mut trace = Vec::new();
    write_board(&mut trace, &words);
    for step in questions(&words) {
        write_step(&mut trace, step);
    }
    trace
}

fn any_board(random: &mut Random) -> Vec<u32> {
    let shape = match random.below(6) {
        0 => Shape::Full,
        1 => Shape::Bare,
        2 => Shape::Ordinary,
        _ => Shape::Tight,
    };
    good_board(random, shape)
}

/// A spoiled board; it had two processes and two drivers at least, so that
/// every rule could be broken.
fn spoiled_board(random: &mut Random, spoil: Spoil) -> Vec<u32> {
    let mut words = any_board(random);
    while processes(&words) < 2 || drivers(&words) < 2 {
        words = any_board(random);
    }
    match spoil {
        Spoil::Resize(resize) => resize(random, &mut words),
        Spoil::Change(change) => change(random, &mut words),
    }
    words
}

/// One word changed without a plan. The board may stay good: both programs
/// must agree on that.
fn change_some_word(random: &mut Random, words: &mut [u32]) {
    let place = random.below(words.len());
    let now = words[place];
    words[place] = match random.below(4) {
        0 => now.wrapping_add(1),
        1 => now.wrapping_sub(1),
        2 => random.pick(&[0, 1, 2, u32::MAX, MEMORY.start, MEMORY.end, FLASH.start, FLASH.end]),
        _ => random.word(),
    };
}

fn processes(words: &[u32]) -> usize {
    words[0] as usize
}

fn drivers(words: &[u32]) -> usize {
    (words.len() - board_words(processes(words), 0)) / DRIVER_WORDS
}

/// The words of one process.
fn process_words(words: &mut [u32], process: usize) -> &mut [u32] {
    let first = 1 + PROCESS_WORDS * process;
    &mut words[first..first + PROCESS_WORDS]
}

/// The words of one driver.
fn driver_words(words: &mut [u32], driver: usize) -> &mut [u32] {
    let first = board_words(processes(words), driver);
    &mut words[first..first + DRIVER_WORDS]
}

/// The words of some process.
fn pick_process<'a>(random: &mut Random, words: &'a mut [u32]) -> &'a mut [u32] {
    let process = random.below(processes(words));
    process_words(words, process)
}

/// The words of some driver.
fn pick_driver<'a>(random: &mut Random, words: &'a mut [u32]) -> &'a mut [u32] {
    let driver = random.below(drivers(words));
    driver_words(words, driver)
}

/// Two different numbers below `count`, which is at least 2.
fn pick_two(random: &mut Random, count: usize) -> (usize, usize) {
    let one = random.below(count);
    (one, (one + 1 + random.below(count - 1)) % count)
}

fn drop_words(random: &mut Random, words: &mut Vec<u32>) {
    let dropped = random.pick(&[1, 1, DRIVER_WORDS, words.len()]);
    words.truncate(words.len() - dropped);
}

/// Words too many. The largest board loses words instead: a record of more
/// words could not be read.
fn add_words(random: &mut Random, words: &mut Vec<u32>) {
    let length = words.len() + random.pick(&[1, DRIVER_WORDS]);
    words.resize(if length > MAX_BOARD_WORDS { length / 2 } else { length }, 0);
}

/// The drivers alone.
fn leave_no_process(_: &mut Random, words: &mut Vec<u32>) {
    words.drain(1..1 + PROCESS_WORDS * processes(words));
    words[0] = 0;
}

fn add_processes(random: &mut Random, words: &mut Vec<u32>) {
    *words = too_many_processes(random);
}

fn add_drivers(random: &mut Random, words: &mut Vec<u32>) {
    *words = too_many_drivers(random);
}

/// Lets the lowest area begin, or the highest end, one byte outside.
fn leave_an_image(random: &mut Random, words: &mut [u32], image: Area, start: usize, end: usize) {
    let by_end = |&process: &usize| words[1 + PROCESS_WORDS * process + end];
    let lowest = (0..processes(words)).min_by_key(by_end).unwrap_or(0);
    let highest = (0..processes(words)).max_by_key(by_end).unwrap_or(0);
    if random.one_in(2) {
        process_words(words, lowest)[start] = image.start - 1;
    } else {
        process_words(words, highest)[end] = image.end + 1;
    }
}

fn leave_the_memory_image(random: &mut Random, words: &mut [u32]) {
    leave_an_image(random, words, MEMORY, S, E);
}

fn leave_the_flash_image(random: &mut Random, words: &mut [u32]) {
    leave_an_image(random, words, FLASH, F, FE);
}

fn put_break_below_ram(random: &mut Random, words: &mut [u32]) {
    let process = pick_process(random, words);
    process[B] = process[S] - 1;
}

fn put_grant_below_break(random: &mut Random, words: &mut [u32]) {
    let process = pick_process(random, words);
    process[B] = process[E];
    process[G] = process[E] - 1;
}

fn put_grant_above_ram(random: &mut Random, words: &mut [u32]) {
    let process = pick_process(random, words);
    process[G] = process[E] + 1;
}

fn empty_ram(random: &mut Random, words: &mut [u32]) {
    let process = pick_process(random, words);
    let start = process[S];
    process[E..=B].fill(start);
}

fn empty_flash(random: &mut Random, words: &mut [u32]) {
    let process = pick_process(random, words);
    process[FE] = process[F];
}

fn turn_flash_round(random: &mut Random, words: &mut [u32]) {
    pick_process(random, words).swap(F, FE);
}

/// A byte at an end of an area, or all of it.
fn part_of(random: &mut Random, start: u32, end: u32) -> (u32, u32) {
    random.pick(&[(start, end), (start, start + 1), (end - 1, end)])
}

fn share_ram(random: &mut Random, words: &mut [u32]) {
    let (one, other) = pick_two(random, processes(words));
    let other = process_words(words, other);
    let (start, end) = part_of(random, other[S], other[E]);
    process_words(words, one)[S..=B].copy_from_slice(&[start, end, end, start]);
}

fn share_flash(random: &mut Random, words: &mut [u32]) {
    let (one, other) = pick_two(random, processes(words));
    let other = process_words(words, other);
    let (start, end) = part_of(random, other[F], other[FE]);
    process_words(words, one)[F..=FE].copy_from_slice(&[start, end]);
}

fn repeat_a_driver_number(random: &mut Random, words: &mut [u32]) {
    let (one, other) = pick_two(random, drivers(words));
    driver_words(words, one)[0] = driver_words(words, other)[0];
}

/// Mostly the bit after the last driver's.
fn set_a_mask_bit(random: &mut Random, words: &mut [u32]) {
    let first_free = drivers(words) as u32;
    let bit = random.pick(&[first_free, first_free, first_free, MAX_DRIVERS as u32, 31]);
    pick_process(random, words)[MASK] |= 1 << bit;
}

fn raise_slots(random: &mut Random, words: &mut [u32]) {
    let over = MAX_SLOTS + 1;
    let slots = random.pick(&[over, over, over, over, 0x100, u32::MAX]);
    let kind = 1 + random.below(3);
    pick_driver(random, words)[kind] = slots;
}

fn raise_shared(random: &mut Random, words: &mut [u32]) {
    let shared = random.pick(&[2, 2, 2, 2, 0x100, u32::MAX]);
    pick_driver(random, words)[DRIVER_WORDS - 1] = shared;
}

/// What a program that took the board would say of it. After a board that is
/// not good, questions follow that must not be read.
fn questions(words: &[u32]) -> Vec<Step<'static>> {
    let Some(board) = Board::from_words(words) else {
        return vec![memop(ProcessIndex(0), 2), memop(ProcessIndex(1), 2)];
    };
    let count = board.processes().len() as u32;
    let mut steps = Vec::new();
    for process in (0..=count).map(ProcessIndex) {
        steps.extend((2..=6).map(|number| memop(process, number)));
        for driver in board.drivers() {
            steps.extend(driver_questions(process, driver.number));
        }
    }
    steps
}

fn memop(process: ProcessIndex, number: u32) -> Step<'static> {
    Step::Call { process, class: 5, registers: [number, 0, 0, 0] }
}

/// Permission, sharing and the three slot counts.
fn driver_questions(process: ProcessIndex, driver: DriverNumber) -> Vec<Step<'static>> {
    let call = |class, number| Step::Call { process, class, registers: [driver.0, number, 0, 0] };
    let mut steps = vec![call(2, 0), call(2, 1)];
    if process.0 == 0 {
        let slots = 0..=MAX_SLOTS;
        steps.extend(slots.flat_map(|slot| [call(1, slot), call(3, slot), call(4, slot)]));
    }
    steps
}

//! At the limits, by their names: whatever they are, this holds.

use crate::common::*;
use second::board::{board_words, Board, FLASH, MAX_BOARD_WORDS, MEMORY};
use second::generate::tables::reached;
use second::generate::{generate, generate_at_limits, Kind};
use second::limits::{IMAGE_SIZE, MAX_DRIVERS, MAX_PROCESSES, MAX_SLOTS, QUEUE_CAPACITY};
use second::state::Machine;
use second::step::{Answer, Refusal};
use second::table::{image, is_well_formed, SLOT_COUNT};
use second::trace::{read_trace, write_number, write_trace, MAX_TRACE_BYTES};

const SEED: u64 = 104;
const WALKS: u64 = 200;

const MOST_PROCESSES: u32 = MAX_PROCESSES as u32;
const MOST_DRIVERS: u32 = MAX_DRIVERS as u32;

/// A board whose areas touch, with this many processes and drivers. There is
/// room for one process too many, so that nothing else is wrong with it.
fn board(processes: u32, drivers: u32) -> Vec<u32> {
    const AREA: u32 = IMAGE_SIZE as u32 / (MOST_PROCESSES + 1);
    let mut words = vec![processes];
    for index in 0..processes {
        let [ram, flash] = [MEMORY.start + AREA * index, FLASH.start + AREA * index];
        let mask = ((1_u64 << drivers) - 1) as u32;
        words.extend([ram, ram + AREA, ram + AREA / 2, ram, flash, flash + AREA, mask]);
    }
    words.push(drivers);
    for number in 0..drivers {
        words.extend([number, MAX_SLOTS, MAX_SLOTS, MAX_SLOTS, number % 2]);
    }
    words
}

#[test]
fn counts_of_a_board() {
    let is_good = |processes, drivers| Board::from_words(&board(processes, drivers)).is_some();
    assert!(is_good(MOST_PROCESSES, MOST_DRIVERS));
    assert!(is_good(1, 0));
    assert!(!is_good(0, 0));
    assert!(!is_good(MOST_PROCESSES + 1, MOST_DRIVERS));
    assert!(!is_good(MOST_PROCESSES, MOST_DRIVERS + 1));
    assert_eq!(board(MOST_PROCESSES, MOST_DRIVERS).len(), MAX_BOARD_WORDS);
    assert_eq!(board_words(MAX_PROCESSES, MAX_DRIVERS), MAX_BOARD_WORDS);
}

#[test]
fn slots_of_a_driver() {
    let first_driver = board_words(MAX_PROCESSES, 0);
    for kind in 1..=3 {
        let mut words = board(MOST_PROCESSES, MOST_DRIVERS);
        words[first_driver + kind] = MAX_SLOTS + 1;
        assert!(Board::from_words(&words).is_none());
    }
}

/// The largest board that is read is the largest that the limits let.
#[test]
fn a_board_count_is_read_up_to_the_largest_board() {
    let mut largest = board(MOST_PROCESSES, MOST_DRIVERS);
    assert_eq!(lines_on(&largest, &[resume(0), resume(MOST_PROCESSES)]), [x(6), x(3)]);
    assert_eq!(lines_on(&largest[1..], &[resume(0)]), [x(13)]);
    largest.push(0);
    assert_eq!(output(&write_trace(&largest, &[resume(0)])), "B 0\n");
    // The count alone: there are words missing after it, or it is too large.
    for count in [MAX_BOARD_WORDS as u32, MAX_BOARD_WORDS as u32 + 1, u32::MAX] {
        let mut bytes = Vec::new();
        write_number(&mut bytes, count);
        assert_eq!(output(&bytes), "B 0\n");
    }
}

/// It has as much of everything as the limits let.
#[test]
fn the_crowded_table_is_full() {
    let crowded = reached().into_iter().find(|reached| reached.name == "crowded");
    let trace = crowded.expect("it is one of them").trace;
    let (words, steps) = read_trace(&trace).expect("good records");
    let mut machine = Machine::start(&words).expect("a good board");
    for step in steps {
        assert!(machine.step(step).is_ok());
    }
    assert_eq!(machine.processes.len(), MAX_PROCESSES);
    assert_eq!(machine.slots().count(), SLOT_COUNT);
    for process in &machine.processes {
        assert_eq!(process.queue.len(), QUEUE_CAPACITY);
        assert!(machine.slots().all(|slot| process.pair(slot) != [0, 0]));
    }
    let owners = machine.drivers.iter().filter(|driver| driver.owner.is_some()).count();
    assert_eq!(owners, MAX_DRIVERS / 2);
}

/// What the walks at the limits do, all of them together.
#[derive(Debug, Default)]
struct AtLimits {
    /// Walks that fill a queue, and that of the last process.
    full: usize,
    full_of_last: usize,
    /// Events that find their queue full.
    refused: usize,
    /// Events that a queue takes after it was full, by how it got room.
    after_delivery: usize,
    after_cancel: usize,
}

/// A queue that is full, or that was and has room again.
#[derive(Clone, Copy)]
enum Full {
    Still,
    Delivered,
    Cancelled,
}

impl AtLimits {
    fn add(&mut self, walk: &[u8]) {
        let (words, steps) = read_trace(walk).expect("good records");
        let mut machine = Machine::start(&words).expect("a good board");
        let processes = machine.processes.len();
        assert_eq!(processes, MAX_PROCESSES);
        let mut now = vec![None; processes];
        let mut was_full = vec![false; processes];
        for step in steps {
            let answer = machine.step(step);
            let place = step.process().map(|process| process.place());
            let Some(place) = place.filter(|&place| place < processes) else {
                continue;
            };
            let is_full = machine.processes[place].queue.len() == QUEUE_CAPACITY;
            match (answer, now[place]) {
                (Err(Refusal::QueueFull), _) => self.refused += 1,
                (Ok(Answer::EventTaken), before) => {
                    self.after_delivery += usize::from(matches!(before, Some(Full::Delivered)));
                    self.after_cancel += usize::from(matches!(before, Some(Full::Cancelled)));
                    now[place] = is_full.then_some(Full::Still);
                    was_full[place] |= is_full;
                }
                (Ok(Answer::Delivered { .. }), Some(Full::Still)) => {
                    now[place] = Some(Full::Delivered)
                }
                (Ok(Answer::Returned(_)), Some(Full::Still)) if !is_full => {
                    now[place] = Some(Full::Cancelled)
                }
                (Ok(Answer::Exited { .. } | Answer::Restarted { .. }), _) => now[place] = None,
                _ => {}
            }
        }
        assert!(is_well_formed(&image(&machine)));
        self.full += usize::from(was_full.contains(&true));
        self.full_of_last += usize::from(was_full[processes - 1]);
    }
}

fn walks() -> impl Iterator<Item = Vec<u8>> {
    (0..WALKS).map(|index| generate_at_limits(SEED, index))
}

/// Each is reached far more often than it is asked for here, and would not be if
/// walks stopped at a limit that has been raised.
#[test]
fn walks_reach_the_limits() {
    let mut reached = AtLimits::default();
    walks().for_each(|walk| reached.add(&walk));
    let AtLimits { full, full_of_last, refused, after_delivery, after_cancel } = reached;
    assert!(full >= 100 && full_of_last >= 60, "{reached:?}");
    assert!(refused >= 2_000 && after_delivery >= 400 && after_cancel >= 250, "{reached:?}");
}

#[test]
fn walks_at_the_limits_have_good_records_only() {
    for walk in walks().take(60) {
        let text = output(&walk);
        assert!(!text.contains(['B', 'T']) && !text.contains("X 13"));
        assert!(walk.len() <= MAX_TRACE_BYTES);
    }
    assert_eq!(generate_at_limits(SEED, 3), generate_at_limits(SEED, 3));
    assert_ne!(generate_at_limits(SEED, 3), generate_at_limits(SEED, 4));
    assert_ne!(generate_at_limits(SEED, 3), generate_at_limits(SEED + 1, 3));
}

#[test]
fn only_long_traces_are_too_long() {
    for kind in Kind::ALL.into_iter().filter(|&kind| kind != Kind::Long) {
        for index in 0..200 {
            let length = generate(SEED, kind, index).len();
            assert!(length <= MAX_TRACE_BYTES, "{} {index}: {length} bytes", kind.name());
        }
    }
}

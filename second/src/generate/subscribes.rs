//! The benchmark's subscribes: to a slot of which none, some or all of the
//! queued upcalls are. A round restarts the process, queues upcalls, and
//! subscribes or not; two such traces differ in that one call of each round.

use crate::board::{DriverNumber, ProcessIndex};
use crate::limits::{MAX_SLOTS, QUEUE_CAPACITY};
use crate::state::Pair;
use crate::step::Step;
use crate::trace::write_trace;

/// Which of the queued upcalls are of the slot.
#[derive(Clone, Copy, Debug, PartialEq, Eq)]
pub enum Matching {
    None,
    First,
    Last,
    All,
}

/// A queue at the time of the subscribe.
#[derive(Clone, Copy, Debug, PartialEq, Eq)]
pub struct Case {
    pub queued: usize,
    pub matching: Matching,
}

/// Queues of no upcall, of one, and full ones.
pub const CASES: [Case; 7] = [
    Case { queued: 0, matching: Matching::None },
    Case { queued: 1, matching: Matching::None },
    Case { queued: 1, matching: Matching::All },
    Case { queued: QUEUE_CAPACITY, matching: Matching::None },
    Case { queued: QUEUE_CAPACITY, matching: Matching::First },
    Case { queued: QUEUE_CAPACITY, matching: Matching::Last },
    Case { queued: QUEUE_CAPACITY, matching: Matching::All },
];

const PROCESS: ProcessIndex = ProcessIndex(0);

#[rustfmt::skip]
const BOARD: [u32; 19] = [
    1, // process: S, E, G, B, F, FE, mask
    0x2000_0000, 0x2000_2000, 0x2000_1800, 0x2000_1000, 0x0004_0000, 0x0004_2000, 0b11,
    2, // drivers: number, subscribe, read-write and read-only slots, shared
    0x00002, MAX_SLOTS, 0, 0, 0,
    0x20001, MAX_SLOTS, 0, 0, 0,
];

/// A subscribe slot: its driver's number, and its own.
type Slot = [u32; 2];

/// The slot that is subscribed to, and two that each share a number with it.
const SLOT: Slot = [0x20001, 1];
const OTHERS: [Slot; 2] = [[0x00002, 1], [0x20001, 0]];

const SUBSCRIBE: u8 = 1;
const EXIT: u8 = 6;
const RESTART: u32 = 1;

const FIRST_UPCALL: Pair = [0x0004_0101, 5];
const NEW_UPCALL: Pair = [0x0004_0201, 6];

impl Case {
    /// `last of 16`, for one.
    pub fn name(self) -> String {
        let matching = match self.matching {
            Matching::None => "none",
            Matching::First => "first",
            Matching::Last => "last",
            Matching::All => "all",
        };
        format!("{matching} of {}", self.queued)
    }

    /// Whether the upcall at a place of the queue is of the slot.
    pub fn matches(self, place: usize) -> bool {
        match self.matching {
            Matching::None => false,
            Matching::First => place == 0,
            Matching::Last => place + 1 == self.queued,
            Matching::All => true,
        }
    }

    /// Rounds with the subscribe, or without it.
    pub fn trace(self, rounds: usize, with_subscribe: bool) -> Vec<u8> {
        write_trace(&BOARD, &self.round(with_subscribe).repeat(rounds))
    }

    /// The steps of one round.
    pub fn round(self, with_subscribe: bool) -> Vec<Step<'static>> {
        let mut steps = vec![restart()];
        steps.extend([SLOT, OTHERS[0], OTHERS[1]].map(|slot| subscribe(slot, FIRST_UPCALL)));
        steps.extend((0..self.queued).map(|place| self.event(place)));
        if with_subscribe {
            steps.push(subscribe(SLOT, NEW_UPCALL));
        }
        steps
    }

    fn event(self, place: usize) -> Step<'static> {
        let [driver, slot] = if self.matches(place) { SLOT } else { OTHERS[place % 2] };
        let arguments = [place as u32, 1, 2];
        Step::Event { process: PROCESS, driver: DriverNumber(driver), slot, arguments }
    }
}

fn subscribe([driver, slot]: Slot, [pointer, data]: Pair) -> Step<'static> {
    call(SUBSCRIBE, [driver, slot, pointer, data])
}

fn restart() -> Step<'static> {
    call(EXIT, [RESTART, 0, 0, 0])
}

fn call(class: u8, registers: [u32; 4]) -> Step<'static> {
    Step::Call { process: PROCESS, class, registers }
}

//! Steps of each kind: as records of a run, through both programs, and each by itself through the library's functions, which
//! check the whole table first. And start, on the largest board.

use std::hint::black_box;
use std::time::{Duration, Instant};

use makvluria::TABLE_WORDS;
use second::board::{DriverNumber, ProcessIndex};
use second::generate::tables::reached;
use second::limits::QUEUE_CAPACITY;
use second::state::Machine;
use second::step::Step;
use second::trace::{write_trace, Reader};

use crate::job::Job;

const TURNS: usize = 100;
const REPEATED: usize = 300;

const PROCESS: ProcessIndex = ProcessIndex(0);
const DRIVER: DriverNumber = DriverNumber(1);
const SHARED: DriverNumber = DriverNumber(0x9_0000);

#[rustfmt::skip]
const BOARD: [u32; 19] = [
    1, // process: S, E, G, B, F, FE, mask
    0x2000_0000, 0x2000_2000, 0x2000_1800, 0x2000_1000, 0x0004_0000, 0x0004_2000, 0b11,
    2, // drivers: number, subscribe, read-write and read-only slots, shared
    DRIVER.0, 1, 1, 1, 0,
    SHARED.0, 0, 0, 0, 1,
];

/// Steps that end in the state that they began in, and those that lead to it.
struct Round {
    name: &'static str,
    before: Vec<Step<'static>>,
    steps: Vec<Step<'static>>,
}

fn rounds() -> Vec<Round> {
    let nothing = || vec![];
    let subscribed = || vec![SUBSCRIBE];
    let round = |name, before: Vec<_>, steps: &[_]| Round { name, before, steps: steps.to_vec() };
    vec![
        round("memop", nothing(), &[call(5, [2, 0, 0, 0])]),
        round("allow", nothing(), &[ALLOW]),
        round("subscribe", nothing(), &[SUBSCRIBE]),
        round("command", nothing(), &[call(2, [SHARED.0, 1, 0, 0])]),
        round("yield with nothing queued", nothing(), &[YIELD]),
        round("event and delivery", subscribed(), &[EVENT, YIELD]),
        round("delivery of a full queue and event", full(), &[YIELD, EVENT]),
        round("wait, event and resume", subscribed(), &[WAIT, EVENT, RESUME]),
        round("deposit of 4 bytes", vec![ALLOW], &[DEPOSIT]),
        round("fetch of 4 bytes", vec![LEND], &[FETCH]),
        round("latch", nothing(), &[Step::Latch { driver: SHARED, peak: -1 }]),
        round("restart", nothing(), &[call(6, [1, 0, 0, 0])]),
    ]
}

const YIELD: Step = call(0, [0, 0, 0, 0]);
const WAIT: Step = call(0, [1, 0, 0, 0]);
const SUBSCRIBE: Step = call(1, [DRIVER.0, 0, 0x0004_0010, 7]);
const ALLOW: Step = call(3, [DRIVER.0, 0, 0x2000_0100, 16]);
const LEND: Step = call(4, [DRIVER.0, 0, 0x2000_0100, 16]);
const EVENT: Step = Step::Event { process: PROCESS, driver: DRIVER, slot: 0, arguments: [1, 2, 3] };
const RESUME: Step = Step::Resume { process: PROCESS };
const DEPOSIT: Step =
    Step::Deposit { process: PROCESS, driver: DRIVER, slot: 0, offset: 1, bytes: &[1, 2, 3, 4] };
const FETCH: Step = Step::Fetch { process: PROCESS, driver: DRIVER, slot: 0, offset: 1, length: 4 };

const fn call(class: u8, registers: [u32; 4]) -> Step<'static> {
    Step::Call { process: PROCESS, class, registers }
}

/// A queue that is full.
fn full() -> Vec<Step<'static>> {
    let mut steps = vec![SUBSCRIBE];
    steps.extend([EVENT; QUEUE_CAPACITY]);
    steps
}

impl Round {
    /// What leads to the state, and so many rounds.
    fn job(&self, count: usize) -> Job {
        let steps = [self.before.clone(), self.steps.repeat(count)].concat();
        Job::new(write_trace(&BOARD, &steps), steps.len())
    }
}

pub fn names() -> Vec<&'static str> {
    rounds().iter().map(|round| round.name).collect()
}

/// The round at a place of the list, so often.
pub fn job(place: usize, count: usize) -> Option<Job> {
    rounds().get(place).map(|round| round.job(count))
}

pub fn time() {
    time_start();
    println!("rounds of steps, {REPEATED} less none of them; least of {TURNS} turns each, taken in turn:");
    for round in rounds() {
        let mut jobs = [round.job(REPEATED), round.job(0)];
        let mut least = [[Duration::MAX; 3]; 2];
        for _ in 0..TURNS {
            for (job, least) in jobs.iter_mut().zip(&mut least) {
                // first, since it leaves no lines, and those of the last run are looked at below
                let checked = job.checked();
                let (proved, plain) = job.both();
                let times = [proved, plain, checked];
                *least = [0, 1, 2].map(|way| least[way].min(times[way]));
            }
        }
        jobs.iter().for_each(Job::assert_all_accepted);
        let [with, without] = least.map(|times| times.map(|time| time.as_secs_f64() * 1e9));
        let [proved, plain, checked] =
            [0, 1, 2].map(|way| (with[way] - without[way]) / REPEATED as f64);
        let name = round.name;
        println!("  {name}: in a run proved {proved:.1} ns, plain Rust {plain:.1} ns; checked {checked:.0} ns");
    }
}

/// Start on the largest board, as the library writes a table and the second program its state.
fn time_start() {
    let crowded = reached().into_iter().find(|reached| reached.name == "crowded");
    let trace = crowded.expect("it is one of them").trace;
    let board = Reader::new(&trace).board().expect("a board");
    let mut table = vec![0; TABLE_WORDS];
    let mut least = [Duration::MAX; 2];
    for _ in 0..TURNS {
        let began = Instant::now();
        for _ in 0..REPEATED {
            let _ = black_box(makvluria::start(black_box(&mut table), black_box(&board)));
        }
        let proved = began.elapsed();
        let began = Instant::now();
        for _ in 0..REPEATED {
            drop(black_box(Machine::start(black_box(&board))));
        }
        least = [least[0].min(proved), least[1].min(began.elapsed())];
    }
    let [proved, plain] = least.map(|time| time.as_secs_f64() * 1e9 / REPEATED as f64);
    println!("start on the largest board: proved {proved:.0} ns, plain Rust, its two images with it, {plain:.0} ns");
}

//! At the limits, by their names: the library on the largest board, with full queues, and beside the second program on walks there.

mod largest;
mod steps;

use makvluria::{
    call, event, is_well_formed, replay, resume, start, Answer, Class, Driver, Process, Progress,
    Refusal, BOARD_WORDS, FLASH_BASE, IMAGE_BYTES, LINES_BYTES, MAX_DRIVERS, MAX_PROCESSES,
    MAX_QUEUED, MAX_SLOTS, MEMORY_BASE, TABLE_WORDS,
};
use second::generate::generate_at_limits;
use second::replay::replay_to_vec;
use second::state::Machine;
use second::table::image;
use second::trace::read_trace;

use largest::AREA;

const SEED: u64 = 104;
const WALKS: u64 = 200;

const LAST_PROCESS: u32 = MAX_PROCESSES as u32 - 1;
const LAST_DRIVER: u32 = MAX_DRIVERS as u32;
const LAST_SLOT: u32 = MAX_SLOTS as u32 - 1;

/// What a host lends.
struct Lent {
    table: Vec<u32>,
    memory: Vec<u8>,
    flash: Vec<u8>,
}

impl Lent {
    fn new() -> Lent {
        let image = || vec![0; IMAGE_BYTES];
        Lent { table: vec![0; TABLE_WORDS], memory: image(), flash: image() }
    }
}

/// A board whose areas touch. There is room for one process too many, so that nothing else is wrong with it.
fn board(processes: usize, drivers: usize, slots: u32) -> Vec<u32> {
    let area = (IMAGE_BYTES / (MAX_PROCESSES + 1)) as u32;
    let mut board = vec![processes as u32];
    for process in 0..processes as u32 {
        let (ram, flash) = (MEMORY_BASE + area * process, FLASH_BASE + area * process);
        let (end, flash_end) = (ram + area, flash + area);
        board.extend([ram, end, end, ram + area / 2, flash, flash_end, 1]);
    }
    board.push(drivers as u32);
    for number in 0..drivers as u32 {
        board.extend([number, slots, slots, slots, number % 2]);
    }
    board
}

#[test]
fn a_board_has_no_more_than_there_can_be() {
    let most_slots = MAX_SLOTS as u32;
    let started = |board: &[u32]| start(&mut [0; TABLE_WORDS], board);
    assert_eq!(board(MAX_PROCESSES, MAX_DRIVERS, most_slots).len(), BOARD_WORDS);
    for good in [largest::board(), board(MAX_PROCESSES, MAX_DRIVERS, most_slots)] {
        assert_eq!(started(&good), Answer::Started);
    }
    for beyond in [
        board(MAX_PROCESSES + 1, MAX_DRIVERS, most_slots),
        board(MAX_PROCESSES, MAX_DRIVERS + 1, most_slots),
        board(MAX_PROCESSES, MAX_DRIVERS, most_slots + 1),
    ] {
        assert_eq!(started(&beyond), Answer::Refused(Refusal::NoBoard));
    }
}

/// The queue of the last process takes as many upcalls as it can hold, again after a cancel, and gives them in their order.
#[test]
fn a_queue_takes_as_many_as_it_can_hold() {
    let Lent { mut table, mut memory, .. } = Lent::new();
    assert_eq!(start(&mut table, &largest::board()), Answer::Started);
    let (process, driver) = (Process(LAST_PROCESS), Driver(LAST_DRIVER));
    let pointer = FLASH_BASE + AREA * LAST_PROCESS + 16;
    let mut subscribe = |table: &mut [u32], data| {
        call(table, &mut memory, process, Class::SUBSCRIBE, [driver.0, LAST_SLOT, pointer, data])
    };
    assert_eq!(subscribe(&mut table, 7), Answer::Registers([130, 0, 0, 0]));
    for number in 0..MAX_QUEUED as u32 {
        assert_eq!(event(&mut table, process, driver, LAST_SLOT, [number, 1, 2]), Answer::Taken);
    }
    let full = Answer::Refused(Refusal::QueueFull);
    assert_eq!(event(&mut table, process, driver, LAST_SLOT, [9, 9, 9]), full);
    assert!(is_well_formed(&table));
    // A cancel empties it, and it is filled again.
    assert_eq!(subscribe(&mut table, 8), Answer::Registers([130, pointer, 7, 0]));
    for number in 0..MAX_QUEUED as u32 {
        assert_eq!(event(&mut table, process, driver, LAST_SLOT, [number, 3, 4]), Answer::Taken);
    }
    assert_eq!(event(&mut table, process, driver, LAST_SLOT, [9, 9, 9]), full);
    for number in 0..MAX_QUEUED as u32 {
        let answer = call(&mut table, &mut memory, process, Class::YIELD, [1, 0, 0, 0]);
        assert_eq!(answer, Answer::Delivered { pointer, registers: [number, 3, 4, 8] });
    }
    let waits = call(&mut table, &mut memory, process, Class::YIELD, [1, 0, 0, 0]);
    assert_eq!(waits, Answer::Waiting);
    assert_eq!(resume(&mut table, process), Answer::Waiting);
    assert!(is_well_formed(&table));
}

/// Each walk in one run, whose lines are compared, and step by step, where the table is the second program's state after the last.
#[test]
fn walks_at_the_limits_beside_the_second_program() {
    let mut lines = vec![0; 4 * LINES_BYTES];
    for index in 0..WALKS {
        let walk = generate_at_limits(SEED, index);
        let mut run = Lent::new();
        let ended = replay(&walk, 0, &mut run.table, &mut run.memory, &run.flash, &mut lines);
        let Progress::Ended { written } = ended else { panic!("walk {index}: {ended:?}") };
        assert!(lines[..written] == replay_to_vec(&walk), "walk {index}");

        let (words, taken) = read_trace(&walk).expect("good records");
        let mut machine = Machine::start(&words).expect("a good board");
        let mut lent = Lent::new();
        assert_eq!(start(&mut lent.table, &words), Answer::Started);
        for step in taken {
            let answer = steps::make(&mut lent.table, &mut lent.memory, &lent.flash, step);
            assert_eq!(answer.accepted().is_ok(), machine.step(step).is_ok());
        }
        assert!(lent.table == image(&machine), "walk {index}");
        assert!(lent.table == run.table && lent.memory == run.memory, "walk {index}");
    }
}

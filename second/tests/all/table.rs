//! The state as words, beside words at the places of docs/LAYOUT.md; and the
//! check of words.

use second::generate::tables::reached;
use second::generate::{generate, Kind};
use second::state::Machine;
use second::table::{self, image, is_well_formed};
use second::trace::Reader;

const TABLE: usize = 4162;
const RUN: usize = 499;

#[test]
fn the_places_are_those_of_the_document() {
    assert_eq!([table::AREAS_FROM, table::DRIVERS_FROM, table::CLAIMS_FROM], [1, 57, 138]);
    assert_eq!([table::RUNS_FROM, table::TABLE_WORDS], [170, TABLE]);
    assert_eq!([table::SLOTS_FROM, table::QUEUE_FROM, table::RUN_WORDS], [3, 387, RUN]);
}

/// A table that is written word by word.
pub struct Words(pub Vec<u32>);

impl Words {
    fn put(&mut self, at: usize, words: &[u32]) {
        self.0[at..at + words.len()].copy_from_slice(words);
    }

    /// S, E, G, B, F, FE and permissions; it runs, and its break is the first.
    fn process(&mut self, process: usize, words: [u32; 7]) {
        self.put(1 + process * 7, &words);
        self.put(171 + process * RUN, &[words[3]]);
    }

    fn status(&mut self, process: usize, status: u32) {
        self.put(170 + process * RUN, &[status]);
    }

    fn app_break(&mut self, process: usize, app_break: u32) {
        self.put(171 + process * RUN, &[app_break]);
    }

    fn driver(&mut self, place: usize, words: [u32; 5]) {
        self.put(58 + place * 5, &words);
    }

    /// Its owner, 0 or the process and one more, and its latch.
    fn claim(&mut self, place: usize, words: [u32; 2]) {
        self.put(138 + place * 2, &words);
    }

    /// By its index: 64 for each kind, 4 for each driver.
    fn slot(&mut self, process: usize, slot: usize, pair: [u32; 2]) {
        self.put(173 + process * RUN + slot * 2, &pair);
    }

    fn queue(&mut self, process: usize, upcalls: &[[u32; 7]]) {
        self.put(172 + process * RUN, &[upcalls.len() as u32]);
        self.put(557 + process * RUN, upcalls.as_flattened());
    }
}

fn fresh() -> Words {
    let mut words = Words(vec![0; TABLE]);
    words.put(0, &[2]);
    words.process(0, [0x2000_0000, 0x2000_2000, 0x2000_1800, 0x2000_1000, 0x4_0000, 0x4_4000, 3]);
    words.process(1, [0x2000_2000, 0x2000_4000, 0x2000_3800, 0x2000_3000, 0x4_4000, 0x4_8000, 3]);
    words.put(57, &[2]);
    words.driver(0, [1, 2, 1, 1, 0]);
    words.driver(1, [0x9_0000, 1, 1, 0, 1]);
    words
}

pub fn worked() -> Words {
    let mut words = fresh();
    words.slot(0, 0, [0x4_0010, 7]);
    words.slot(0, 1, [0x4_3FFF, 8]);
    words.slot(0, 64, [0x2000_0F00, 0x100]);
    words.slot(0, 68, [0x2000_0000, 0x1000]);
    words.slot(0, 128, [0x4_3FFF, 1]);
    let upcalls: [[u32; 7]; 16] = std::array::from_fn(|number| match (number as u32, number % 2) {
        (number, 0) => [0, 0, number, 0, 0xFFFF_FFFF, 0x4_0010, 7],
        (number, _) => [0, 1, number, 1, 0x8000_0000, 0x4_3FFF, 8],
    });
    words.queue(0, &upcalls);
    words.status(1, 1);
    words.app_break(1, 0x2000_3800);
    words.slot(1, 0, [0, 9]);
    words.slot(1, 4, [0x4_4000, 0]);
    words.slot(1, 64, [0xFFFF_FFFF, 0]);
    words.slot(1, 128, [0x2000_3000, 0x800]);
    words.claim(1, [2, 0xFFFF_FFFF]);
    words
}

fn board_at_limits() -> Words {
    let mut words = Words(vec![0; TABLE]);
    words.put(0, &[8]);
    for process in [0, 1, 2, 3, 5] {
        let from = process as u32 * 3 % 7 * 0x2000;
        let (ram, flash) = (0x2000_0000 + from, 0x4_0000 + from);
        let areas = [ram, ram + 0x2000, ram + 0x1800, ram + 0x1000, flash, flash + 0x2000, 0xFFFF];
        words.process(process, areas);
    }
    let (ram, flash) = ([0x2000_A000, 0x2000_C000, 0x2000_B800, 0x2000_B000], [0x4_A000, 0x4_A001]);
    words.process(4, [ram[0], ram[1], ram[2], ram[3], flash[0], flash[1], 0xFFFF]);
    let byte = 0x2000_8000;
    words.process(6, [byte, byte + 1, byte, byte, 0x4_8000, 0x4_A000, 0x7FFF]);
    let ram = [0x2000_E000, 0x2001_0000, 0x2001_0000, 0x2000_F000];
    words.process(7, [ram[0], ram[1], ram[2], ram[3], 0x4_E000, 0x5_0000, 0xFFFF]);
    words.put(57, &[16]);
    for place in 0..16 {
        words.driver(place, [place as u32 * 0x1111_1111, 4, 4, 4, place as u32 % 2]);
    }
    words
}

fn limits() -> Words {
    let mut words = board_at_limits();
    words.slot(6, 7, [0x4_9FFF, 9]);
    words.slot(6, 128, [0x4_8000, 0x2000]);
    words.status(3, 2);
    words.status(5, 1);
    words.slot(5, 0, [0x4_3FFF, 6]);
    words.queue(5, &[[0, 0, 1, 2, 3, 0x4_3FFF, 6]]);
    words.app_break(7, 0x2001_0000);
    words.slot(7, 63, [0x4_E000, 0]);
    words.slot(7, 64, [0x4_E000, 0]);
    words.slot(7, 67, [0x4_E000, 0]);
    words.slot(7, 127, [0x2000_FFFF, 1]);
    words.slot(7, 190, [0x2000_E000, 0x2000]);
    words.slot(7, 191, [0x4_F000, 0x1000]);
    let upcall = |number: usize| [15, 3, number as u32, 0, 0xFFFF_FFFF, 0x4_E000, 0];
    words.queue(7, &std::array::from_fn::<_, 16, _>(upcall));
    words.claim(1, [1, 0]);
    words.claim(3, [0, 7]);
    words.claim(5, [5, 0x7FFF_FFFF]);
    words.claim(15, [8, 0x8000_0000]);
    words
}

fn alone() -> Words {
    let mut words = Words(vec![0; TABLE]);
    words.put(0, &[1]);
    words.process(0, [0x2000_0000, 0x2001_0000, 0x2001_0000, 0x2000_0000, 0x4_0000, 0x5_0000, 0]);
    words.app_break(0, 0x2000_8000);
    words
}

/// Runs a trace that is good to its end; what sees the state is called after
/// the start and after each step, with whether the step was accepted.
fn run(trace: &[u8], mut see: impl FnMut(&Machine, bool)) -> Machine {
    let mut reader = Reader::new(trace);
    let mut machine = Machine::start(&reader.board().expect("a board")).expect("a good board");
    see(&machine, true);
    while let Some(step) = reader.step().expect("a good record") {
        let accepted = machine.step(step).is_ok();
        see(&machine, accepted);
    }
    machine
}

#[test]
fn states_are_written_at_the_places_of_the_document() {
    let by_hand =
        [("fresh", fresh()), ("worked", worked()), ("limits", limits()), ("alone", alone())];
    for ((name, Words(words)), reached) in by_hand.into_iter().zip(reached()) {
        assert_eq!(name, reached.name);
        assert!(image(&run(&reached.trace, |_, _| ())) == words, "{name}");
        assert!(is_well_formed(&words), "{name}");
    }
}

#[test]
fn every_step_to_a_table_is_accepted() {
    for reached in reached() {
        run(&reached.trace, |_, accepted| assert!(accepted, "{}", reached.name));
    }
}

#[test]
fn every_step_of_a_walk_leaves_a_well_formed_table() {
    for index in 0..40 {
        let trace = generate(7, Kind::Walk, index);
        run(&trace, |machine, _| {
            assert!(machine.is_well_formed() && is_well_formed(&image(machine)), "walk {index}");
        });
    }
}

/// A change of one word of the worked table, and whether it is still well formed.
#[track_caller]
fn changed(at: usize, word: u32, well_formed: bool) {
    let Words(mut words) = worked();
    assert_ne!(words[at], word, "a change");
    words[at] = word;
    assert_eq!(is_well_formed(&words), well_formed, "word {at} as {word:#x}");
}

#[test]
fn counts_and_unused_rows() {
    for (at, count) in [(0, 0), (0, 1), (0, 3), (0, 9), (0, u32::MAX), (57, 1), (57, 17)] {
        changed(at, count, false);
    }
    changed(57, 3, true); // a driver with number 0 and no slots
    changed(57, 4, false); // two of them
    for unused in [15, 56, 68, 137, 142, 169, 170 + 2 * RUN, TABLE - 1] {
        changed(unused, 1, false);
    }
}

#[test]
fn boards() {
    changed(1, 0x2000_0001, false); // a buffer begins before it
    changed(8, 0x2000_2001, true);
    changed(1, 0x1FFF_FFFF, false);
    changed(2, 0x2000_2001, false); // reaches into process 1's RAM
    changed(3, 0x2000_2001, false);
    changed(4, 0x2000_1001, true); // the first break is not the break
    changed(6, 0x4_4001, false);
    changed(7, 1, true);
    changed(7, 4, false);
    changed(14, 1, false); // process 1 owns the second driver
    changed(58, 0x9_0000, false);
    changed(59, 3, true);
    changed(59, 5, false);
    changed(59, 1, false); // the second slot is held
    changed(62, 2, false);
    changed(62, 1, true);
    changed(67, 0, false);
}

#[test]
fn claims() {
    changed(138, 1, false);
    changed(139, 1, false);
    changed(140, 0, true);
    changed(140, 1, true);
    changed(140, 3, false);
    changed(140, u32::MAX, false);
    changed(141, 5, true);
}

#[test]
fn runs() {
    changed(170, 1, true);
    changed(170, 2, false);
    changed(170, 3, false);
    changed(171, 0x2000_1800, true);
    changed(171, 0x2000_1801, false);
    changed(171, 0x2000_0FFF, false); // under two buffers
    changed(172, 15, false); // the last upcall is still there
    changed(172, 17, false);
    changed(173, 0x4_0011, false); // upcalls of the slot are queued
    changed(174, 8, false);
    changed(177, 1, false); // the driver has two slots
    changed(173 + RUN, 0x4_4000, true);
    changed(173 + RUN, 0x4_3FFF, false);
    changed(173 + RUN + 1, 1, true);
    changed(173 + 128, 0x2000_0F01, false);
    changed(173 + 129, 0xFF, true);
    changed(173 + 129, u32::MAX, false);
    changed(173 + 256, 0x4_3FFE, true);
    changed(173 + 256, 0x4_4000, false);
    changed(173 + 257, 2, false);
}

#[test]
fn queues() {
    changed(557, 1, false);
    changed(557, u32::MAX, false);
    changed(558, 1, false);
    changed(558, 2, false);
    changed(559, 77, true);
    changed(562, 0, false);
    changed(563, 8, false);
}

#[test]
fn an_exited_process_is_cleared() {
    let exited = || {
        let Words(mut words) = worked();
        words[170..170 + RUN].fill(0);
        words[170..172].copy_from_slice(&[2, 0x2000_1000]);
        words
    };
    assert!(is_well_formed(&exited()));
    for (at, word) in [(171, 0x2000_1001), (174, 1), (301, 0x2000_0000), (140, 1)] {
        let mut words = exited();
        words[at] = word;
        assert!(!is_well_formed(&words), "word {at}");
    }
}

#[test]
fn no_process_a_queued_null_upcall_and_other_lengths() {
    assert!(!is_well_formed(&[0; TABLE]));
    let mut words = fresh();
    words.slot(0, 0, [0, 9]);
    assert!(is_well_formed(&words.0));
    words.queue(0, &[[0, 0, 1, 2, 3, 0, 9]]);
    assert!(!is_well_formed(&words.0));
    for length in [0, 1, TABLE - 1, TABLE + 1] {
        let Words(mut words) = alone();
        words.resize(length, 0);
        assert!(!is_well_formed(&words), "{length} words");
    }
}

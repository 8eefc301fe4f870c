//! The proved check of a table beside the second program's, which is its own reading of docs/LAYOUT.md: every word of tables that steps
//! reach, tried with other values. The tables are reached by steps of the library, and are the second program's states written as words.

mod steps;
mod words;

use makvluria::TABLE_WORDS;
use second::generate::tables::reached;
use second::generate::{generate, Kind};
use second::table::{RUNS_FROM, RUN_WORDS};

use words::{others, table_of};

/// How many tables both checks take, and how many both refuse.
#[derive(Clone, Copy, Debug, Default, PartialEq, Eq)]
struct Counts {
    taken: usize,
    refused: usize,
}

/// What the tables of `reached` give, each with every word tried.
const TAKEN_AND_REFUSED: [(&str, Counts); 11] = [
    ("fresh", counts(463, 95_855)),
    ("worked", counts(1_528, 95_107)),
    ("limits", counts(33_607, 63_534)),
    ("alone", counts(27, 96_226)),
    ("crowded", counts(41_313, 74_885)),
    ("exited", counts(157, 96_162)),
    ("restarted", counts(433, 95_921)),
    ("least", counts(141, 96_121)),
    ("denied", counts(930, 95_417)),
    ("gaps", counts(508, 95_881)),
    ("drained", counts(965, 95_573)),
];

/// What the tables at the end of generated walks give together.
const WALKS: u64 = 16;
const WALKS_SEED: u64 = 104;
const TAKEN_AND_REFUSED_OF_WALKS: Counts = counts(128_492, 1_415_657);

/// What the tables of `reached` give together, each with a part of another put over its own.
const TAKEN_AND_REFUSED_OF_PARTS: Counts = counts(743, 588);

const fn counts(taken: usize, refused: usize) -> Counts {
    Counts { taken, refused }
}

fn reached_tables() -> Vec<(&'static str, Vec<u32>)> {
    reached().iter().map(|reached| (reached.name, table_of(reached.name, &reached.trace))).collect()
}

fn walk_tables() -> Vec<(String, Vec<u32>)> {
    let walks =
        (0..WALKS).map(|index| (format!("walk {index}"), generate(WALKS_SEED, Kind::Walk, index)));
    walks.map(|(name, trace)| (name.clone(), table_of(&name, &trace))).collect()
}

impl Counts {
    /// Judges a table by both checks, which have to agree.
    fn judge(&mut self, table: &[u32], what: impl FnOnce() -> String) {
        let proved = makvluria::is_well_formed(table);
        let plain = second::table::is_well_formed(table);
        assert_eq!(proved, plain, "{}: the proved check, and the plain one", what());
        if proved {
            self.taken += 1;
        } else {
            self.refused += 1;
        }
    }

    /// Judges a table with every word tried, and the table itself.
    fn try_words(&mut self, name: &str, table: &mut [u32]) {
        self.judge(table, || String::from(name));
        for at in 0..table.len() {
            let word = table[at];
            for other in others(table, at) {
                table[at] = other;
                self.judge(table, || format!("{name}, word {at} as {other:#x} for {word:#x}"));
            }
            table[at] = word;
        }
    }
}

#[test]
fn every_word_of_reached_tables() {
    for ((name, mut table), (expected_name, expected)) in
        reached_tables().into_iter().zip(TAKEN_AND_REFUSED)
    {
        let mut found = Counts::default();
        found.try_words(name, &mut table);
        assert_eq!((name, found), (expected_name, expected));
    }
}

#[test]
fn every_word_of_tables_of_walks() {
    let mut found = Counts::default();
    for (name, mut table) in walk_tables() {
        found.try_words(&name, &mut table);
    }
    assert_eq!(found, TAKEN_AND_REFUSED_OF_WALKS);
}

/// The processes' areas, the drivers, the claims, and the runs.
fn parts() -> Vec<std::ops::Range<usize>> {
    let runs = (RUNS_FROM..TABLE_WORDS).step_by(RUN_WORDS).map(|at| at..at + RUN_WORDS);
    [0..57, 57..138, 138..RUNS_FROM].into_iter().chain(runs).collect()
}

#[test]
fn parts_of_one_table_in_another() {
    let mut found = Counts::default();
    let tables = reached_tables();
    for (name, table) in &tables {
        for (other_name, other) in &tables {
            for part in parts() {
                let mut mixed = table.clone();
                mixed[part.clone()].copy_from_slice(&other[part.clone()]);
                found.judge(&mixed, || format!("{name} with words {part:?} of {other_name}"));
            }
        }
    }
    assert_eq!(found, TAKEN_AND_REFUSED_OF_PARTS);
}

/// Not well formed in ways that no single word brings about.
#[test]
fn tables_that_no_step_reaches() {
    let mut found = Counts::default();
    found.judge(&[0; TABLE_WORDS], || String::from("no process at all"));
    let (name, fresh) = &reached_tables()[0];
    let mut null_upcall = fresh.clone();
    null_upcall[172..175].copy_from_slice(&[1, 0, 9]);
    null_upcall[557..564].copy_from_slice(&[0, 0, 1, 2, 3, 0, 9]);
    found.judge(&null_upcall, || String::from("a queued null upcall"));
    for length in [0, 1, 57, 170, TABLE_WORDS - 1, TABLE_WORDS + 1, 2 * TABLE_WORDS] {
        let mut words = fresh.clone();
        words.resize(length, 0);
        found.judge(&words, || format!("{name} with {length} words"));
    }
    assert_eq!(found, counts(0, 9));
}

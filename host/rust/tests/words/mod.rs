//! Tables that steps reach, and the other values that a word of one is tried with.

use makvluria::{Answer, IMAGE_BYTES, TABLE_WORDS};
use second::state::Machine;
use second::table::{image, RUN_WORDS};
use second::trace::Reader;

use super::steps;

/// The table after a trace that is good to its end, step by step that of the second program's state.
pub fn table_of(name: &str, trace: &[u8]) -> Vec<u32> {
    let (mut table, mut memory) = (vec![0; TABLE_WORDS], vec![0; IMAGE_BYTES]);
    let flash = vec![0; IMAGE_BYTES];
    let mut reader = Reader::new(trace);
    let board = reader.board().unwrap();
    let mut machine = Machine::start(&board).unwrap();
    assert_eq!(makvluria::start(&mut table, &board), Answer::Started, "{name}");
    assert!(table == image(&machine), "{name}: another table after the start");
    while let Some(next) = reader.step().unwrap() {
        let _ = steps::make(&mut table, &mut memory, &flash, next);
        let _ = machine.step(next);
        assert!(table == image(&machine), "{name}: another table after {next:?}");
    }
    table
}

/// The other values that a word is tried with: small ones, those near it, edges of the areas, and the words that stand beside it and at the
/// same place of the next process.
pub fn others(table: &[u32], at: usize) -> Vec<u32> {
    let word = table[at];
    let beside =
        [at.wrapping_sub(1), at + 1, at + RUN_WORDS].map(|at| table.get(at).copied().unwrap_or(7));
    let mut others: Vec<u32> = (0..=5).chain([8, 9, 15, 16, 17]).collect();
    others.extend([1, 2, u32::MAX, u32::MAX - 1].map(|change| word.wrapping_add(change)));
    others.extend([word ^ 0x8000_0000, word ^ 0x1000, 0x7FFF_FFFF, 0x8000_0000, u32::MAX]);
    others.extend([0x2000_0000, 0x2000_1000, 0x2000_FFFF, 0x2001_0000]);
    others.extend([0x0004_0000, 0x0004_0010, 0x0004_FFFF, 0x0005_0000]);
    others.extend(beside);
    others.sort_unstable();
    others.dedup();
    others.retain(|&other| other != word);
    others
}

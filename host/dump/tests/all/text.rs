//! The text of a table, for words of any length and content: it says what the proved check says, covers every word once, and names the value of
//! each that is not zero.

use dump::buffers::{held, own_area, proved_area};
use dump::reading::Reading;
use dump::table::dump;
use second::board::{FLASH, MAX_DRIVERS, MAX_PROCESSES, MAX_SLOTS, MEMORY};
use second::generate::{generate, Kind};
use second::random::Random;
use second::state::QUEUE_CAPACITY;
use second::table::{check, CLAIMS_FROM, DRIVERS_FROM, RUNS_FROM, RUN_WORDS, TABLE_WORDS};

use crate::common::{entries, reached_tables, says, table_of};

const PAGE: usize = 100;
const LENGTHS: [usize; 6] = [0, 1, TABLE_WORDS - 1, TABLE_WORDS, TABLE_WORDS + 1, 9000];

/// Looks at all that holds of the dump of any words.
fn see(what: &str, words: &[u32]) -> String {
    let text = dump(words);
    let proved = makvluria::is_well_formed(words);
    assert_eq!(check(words).is_ok(), proved, "{what}");
    let first = text.lines().next().unwrap();
    assert_eq!(first == "well formed", proved, "{what}: {first}");
    assert_eq!(first.starts_with("not well formed: word "), !proved, "{what}: {first}");
    let own_rule = text.contains("by the second program's rule");
    assert_eq!(own_rule, !proved, "{what}");
    for line in text.lines().skip(1) {
        assert!(line.is_ascii() && line.len() <= PAGE && line.trim_end() == line, "{what}: {line}");
    }
    covers(what, words, &text);
    text
}

/// Every word has one entry, in order, and its value stands there unless it is zero or one of many past the end.
fn covers(what: &str, words: &[u32], text: &str) {
    let mut next = 0;
    for entry in entries(text) {
        assert_eq!(entry.words.start, next, "{what}: {}", entry.text);
        next = entry.words.end;
        let shown = entry.words.end <= TABLE_WORDS || !entry.text.contains("not shown");
        for at in entry.words.filter(|_| shown) {
            let word = words[at];
            assert!(
                word == 0 || says(&entry.text, word),
                "{what}: word {at} = {word}: {}",
                entry.text
            );
        }
    }
    assert_eq!(next, words.len(), "{what}");
}

#[test]
fn tables_that_steps_reach() {
    for (name, table) in reached_tables() {
        assert!(see(name, &table).starts_with("well formed\n"));
    }
    for index in 0..40 {
        let trace = generate(11, Kind::Walk, index);
        see(&format!("walk {index}"), &table_of(&trace));
    }
}

/// Any word, and those that stand at edges.
fn any_word(random: &mut Random) -> u32 {
    let limits = [MAX_PROCESSES as u32, MAX_DRIVERS as u32, MAX_SLOTS, QUEUE_CAPACITY as u32];
    match random.below(5) {
        0 => 0,
        1 => random.pick(&limits) + random.within(0..=2),
        2 => random.within(0..=3),
        3 => {
            random.pick(&[MEMORY.start, MEMORY.end, FLASH.start, FLASH.end]) - 1
                + random.within(0..=2)
        }
        _ => random.word(),
    }
}

#[test]
fn any_words_of_any_length() {
    let mut random = Random::new(&[4162]);
    for turn in 0..60 {
        for length in LENGTHS {
            // Mostly zeros, a mixture, and all of them any words.
            let once_in = [length / 20 + 1, 2, 1][turn % 3];
            let words: Vec<u32> = (0..length)
                .map(|_| if random.one_in(once_in) { any_word(&mut random) } else { 0 })
                .collect();
            see(&format!("turn {turn}, {length} words"), &words);
        }
    }
    for length in LENGTHS {
        see("the largest words", &vec![u32::MAX; length]);
        see("zeros", &vec![0; length]);
    }
}

#[test]
fn good_tables_with_one_word_changed() {
    let mut random = Random::new(&[104]);
    for (name, table) in reached_tables() {
        let starts = [0, DRIVERS_FROM, CLAIMS_FROM, RUNS_FROM, RUNS_FROM + RUN_WORDS];
        let any = (0..150).map(|_| random.below(TABLE_WORDS)).collect::<Vec<_>>();
        let near = (0..150).map(|_| random.pick(&starts) + random.below(40)).collect::<Vec<_>>();
        for at in any.into_iter().chain(near).filter(|&at| at < TABLE_WORDS) {
            let mut words = table.clone();
            words[at] = match random.below(3) {
                0 => words[at].wrapping_add(random.pick(&[1, u32::MAX])),
                _ => any_word(&mut random),
            };
            see(&format!("{name}, word {at} as {:#x}", words[at]), &words);
        }
    }
}

#[test]
fn good_tables_that_are_cut_or_too_long() {
    for (name, table) in reached_tables() {
        for length in (0..RUNS_FROM + RUN_WORDS + 20).step_by(13).chain([TABLE_WORDS - 1, 5000]) {
            let mut words = table.clone();
            words.resize(length, 0);
            let text = see(&format!("{name}, {length} words"), &words);
            assert_eq!(text.contains("the words end here"), length < TABLE_WORDS);
            let whole_runs = length.saturating_sub(RUNS_FROM) / RUN_WORDS;
            let titles = text.lines().filter(|line| line.contains(", RAM, ")).count();
            assert_eq!(titles, whole_runs.min(table[0] as usize), "{name}, {length} words");
        }
    }
}

#[test]
fn both_rules_say_where_a_buffer_lies() {
    let mut seen = 0;
    let walks = (0..40).map(|index| table_of(&generate(12, Kind::Walk, index)));
    let tables = reached_tables().into_iter().map(|(_, table)| table).chain(walks);
    for table in tables {
        let reading = Reading::new(&table);
        for process in 0..reading.processes() {
            for held in held(&reading, process) {
                let proved = proved_area(&reading, process, held.slot);
                assert_eq!(proved, Some(own_area(&reading, process, held.slot)), "{held:?}");
                assert_eq!(proved, Some(held.area));
                seen += 1;
            }
        }
    }
    assert!(seen > 1000, "{seen} buffers");
}

#[test]
fn a_buffer_whose_end_passes_the_last_address() {
    let (_, mut table) = reached_tables().swap_remove(1);
    table[301..303].copy_from_slice(&[u32::MAX, u32::MAX]);
    let text = dump(&table);
    assert!(text.contains("outside [0xFFFFFFFF, 0x1FFFFFFFE), 4294967295 bytes"), "{text}");
    let fault = "word 301 (process 0, read-write slot 0 of driver 0, address) = 0xFFFFFFFF: \
                 the buffer lies outside of the process's RAM below its break";
    assert_eq!(text.lines().next(), Some(&*format!("not well formed: {fault}")));
}

//! Lines and names by hand, for words at the places of docs/LAYOUT.md.

use std::collections::HashSet;

use dump::names;
use dump::table::dump;
use second::board::{MAX_DRIVERS, MAX_PROCESSES, MAX_SLOTS};
use second::state::QUEUE_CAPACITY;
use second::table::TABLE_WORDS;

use crate::common::reached_tables;

/// A table that steps reach, with some words changed.
fn changed(name: &str, changes: &[(usize, u32)]) -> String {
    let tables = reached_tables();
    let (_, mut words) = tables.into_iter().find(|(found, _)| *found == name).unwrap();
    for &(at, word) in changes {
        words[at] = word;
    }
    dump(&words)
}

#[track_caller]
fn has(text: &str, lines: &[&str]) {
    for line in lines {
        assert!(text.lines().any(|found| found == *line), "{line}\n{text}");
    }
}

/// Process 0 holds buffers and has a full queue; process 1 waits, and owns the shared driver.
#[test]
fn a_table_in_use() {
    has(
        &changed("worked", &[]),
        &[
            "140..142    driver 1 (0x90000)        owner process 1 (word 2), latch -1 (0xFFFFFFFF)",
            "172         queued upcalls            16",
            "173..175    subscribe slot 0 of driver 0 (0x1)  pointer 0x00040010, data 7",
            "301..303    read-write slot 0 of driver 0 (0x1)  RAM [0x20000F00, 0x20001000), 256 bytes",
            "309..311    read-write slot 0 of driver 1 (0x90000)  RAM [0x20000000, 0x20001000), 4096 bytes",
            "429..431    read-only slot 0 of driver 0 (0x1)  flash [0x00043FFF, 0x00044000), 1 byte",
            "557..559    upcall 0                  driver 0 (0x1), slot 0",
            "559..564      arguments 0, 0, 0xFFFFFFFF  pointer 0x00040010, data 7",
            "662..664    upcall 15                 driver 0 (0x1), slot 1",
            "664..669      arguments 15, 1, 0x80000000  pointer 0x00043FFF, data 8",
            "669         status                    1, waiting",
            "670         break                     0x20003800",
            "672..674    subscribe slot 0 of driver 0 (0x1)  pointer 0x00000000 (null), data 9",
            "674..680    3 subscribe slots, all (0, 0), 1 of them on the board",
            "800..802    read-write slot 0 of driver 0 (0x1)  empty, address 0xFFFFFFFF, size 0",
        ],
    );
    has(&changed("exited", &[]), &["170         status                    2, exited"]);
    has(
        &changed("limits", &[]),
        &[
            "168..170    driver 15 (0xFFFFFFFF)    owner process 7 (word 8), latch -2147483648 (0x80000000)",
            "148..150    driver 5 (0x55555555)     owner process 4 (word 5), latch 2147483647",
        ],
    );
}

#[test]
fn words_where_only_zeros_may_be() {
    let text = changed(
        "fresh",
        &[(16, 5), (68, 6), (69, 1), (142, 7), (178, 8), (189, 3), (437, 9), (560, 10), (1170, 11)],
    );
    has(
        &text,
        &[
            "process 2, which the board does not have",
            "15          S, RAM starts             0x00000000",
            "16          E, RAM ends               0x00000005  ! only 0 may stand here",
            "68..73      driver 2                  number 0x6 subscribe 1 read-write 0 read-only 0 shared 0",
            "            ! only 0 may stand here",
            "142..144    driver 2 (none on the board)  owner process 6 (word 7), which the board does not have,",
            "            latch 0  ! only 0 may stand here",
            "177..179    subscribe slot 2 of driver 0  0x00000000, 8  ! only 0 may stand here",
            "189..191    subscribe slot 0 of driver 2  0x00000003, 0  ! only 0 may stand here",
            "437..439    read-only slot 0 of driver 1  0x00000009, 0  ! only 0 may stand here",
            "557..559    upcall 0                  driver 0 (0x1), slot 0",
            "559..564      arguments 0, 10, 0      pointer 0x00000000 (null), data 0  ! only 0 may stand here",
            "1170        queued upcalls            11  ! only 0 may stand here",
        ],
    );
    assert!(text.starts_with("not well formed: word 16 (process 2, E) = 5: the row is not in use"));
}

/// What the board's words do not say is not said.
#[test]
fn a_table_that_ends_within_its_board() {
    let (_, words) = reached_tables().into_iter().find(|(name, _)| *name == "worked").unwrap();
    let permissions = |length: usize, line: &str| has(&dump(&words[..length]), &[line]);
    permissions(57, "7           permissions               0x3");
    permissions(58, "7           permissions               0x3, driver 0, driver 1");
    permissions(59, "7           permissions               0x3, driver 0 (0x1), driver 1");
    permissions(
        64,
        "7           permissions               0x3, driver 0 (0x1), driver 1 (0x90000)",
    );
}

/// Only 1 may say that a driver is shared; its claim is told by any number but 0.
#[test]
fn a_driver_that_is_shared_otherwise() {
    let text = changed("worked", &[(67, 2)]);
    let claim =
        "140..142    driver 1 (0x90000)        owner process 1 (word 2), latch -1 (0xFFFFFFFF)";
    has(&text, &[claim]);
    assert!(text.starts_with("not well formed: word 67 (driver 1, shared) = 2"));
}

/// Places of twelve letters and more have a space behind them.
#[test]
fn places_that_fill_their_columns() {
    let (_, mut words) = reached_tables().swap_remove(0);
    words.resize(104_162, 0);
    has(&dump(&words), &["4162..104162 100000 words past the end, all 0"]);
}

#[test]
fn counts_beyond_their_limits() {
    let beyond = |most: usize| format!("{}, more than there are rows for: {most} follow", most + 1);
    let text = changed(
        "worked",
        &[
            (0, MAX_PROCESSES as u32 + 1),
            (57, MAX_DRIVERS as u32 + 1),
            (59, MAX_SLOTS + 1),
            (172, QUEUE_CAPACITY as u32 + 1),
        ],
    );
    has(
        &text,
        &[
            &format!("0           P, processes              {}", beyond(MAX_PROCESSES)),
            &format!("57          D, drivers                {}", beyond(MAX_DRIVERS)),
            &format!("172         queued upcalls            {}", beyond(QUEUE_CAPACITY)),
        ],
    );
    assert!(text.contains(&format!("subscribe {} (beyond {MAX_SLOTS})", MAX_SLOTS + 1)));
    assert!(text.contains("process 7, flash: no picture, as F and FE are not in order\n"));
}

#[test]
fn permissions() {
    has(
        &changed("fresh", &[(7, 0), (14, 0x8000_0005)]),
        &[
            "7           permissions               0x0, no driver",
            "14          permissions               0x80000005, driver 0 (0x1)  ! no driver at 2, 31",
        ],
    );
}

#[test]
fn words_past_the_end_and_missing_ones() {
    let (_, mut words) = reached_tables().swap_remove(0);
    words.extend([0, 0, 7]);
    words.extend([0; 1000]);
    words.extend([1, 2, 3, 4, 5, 6, 7, 8, 9, 10]);
    has(
        &dump(&words),
        &[
            "past the end, which is at word 4162",
            "4162..4164  2 words past the end, all 0",
            "4164        past the end              7",
            "4165..5165  1000 words past the end, all 0",
            "5165        past the end              1",
            "5171        past the end              7",
            "5172..5175  more words                3, not shown",
        ],
    );
    words.truncate(TABLE_WORDS - 1);
    has(
        &dump(&words),
        &[
            "3663..4161  498 words of a row that is cut, all 0",
            "the words end here: 1 word is missing",
        ],
    );
    has(&dump(&[]), &["the words end here: 4162 words are missing"]);
    has(
        &dump(&[2, 9]),
        &[
            "0           P, processes              2",
            "1           S, RAM starts             0x00000009",
        ],
    );
}

#[test]
fn names_of_words() {
    for (word, name) in [
        (0, "P, processes"),
        (3, "process 0, G"),
        (14, "process 1, permissions"),
        (56, "process 7, permissions"),
        (57, "D, drivers"),
        (58, "driver 0, number"),
        (61, "driver 0, read-only slots"),
        (137, "driver 15, shared"),
        (138, "claim on driver 0, owner"),
        (169, "claim on driver 15, latch"),
        (170, "process 0, status"),
        (171, "process 0, break"),
        (172, "process 0, queued upcalls"),
        (173, "process 0, subscribe slot 0 of driver 0, pointer"),
        (300, "process 0, subscribe slot 3 of driver 15, data"),
        (301, "process 0, read-write slot 0 of driver 0, address"),
        (928, "process 1, read-only slot 0 of driver 0, address"),
        (929, "process 1, read-only slot 0 of driver 0, size"),
        (557, "process 0, upcall 0, driver"),
        (560, "process 0, upcall 0, argument 1"),
        (4161, "process 7, upcall 15, data"),
        (4162, "past the end"),
    ] {
        assert_eq!(names::word(word), name, "{word}");
    }
    let all: HashSet<String> = (0..TABLE_WORDS).map(names::word).collect();
    assert_eq!(all.len(), TABLE_WORDS, "each word has a name of its own");
}

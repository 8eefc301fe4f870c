//! docs/LAYOUT.md: every number of the page is the one that is worked out here.

use std::fs;

use second::board::{
    board_words, DriverPlace, SlotKind, DRIVER_WORDS, MAX_BOARD_WORDS, PROCESS_WORDS,
};
use second::limits::{MAX_DRIVERS, MAX_PROCESSES, MAX_SLOTS, QUEUE_CAPACITY};
use second::state::Slot;
use second::table::{
    pair_at, AREAS_FROM, BREAK, CLAIMS_FROM, CLAIM_WORDS, DRIVERS_FROM, EXITED, PAIR_WORDS, QUEUED,
    QUEUE_FROM, RUNNING, RUNS_FROM, RUN_WORDS, SLOTS_FROM, SLOT_COUNT, STATUS, TABLE_WORDS,
    UPCALL_WORDS, WAITING,
};

/// A row of a table: a part of its words, and all its numbers in their order.
type Row<'a> = (&'a str, &'a [usize]);

/// A part of the page, from one heading to the next.
struct Section {
    /// With the heading.
    text: String,
    /// Of its table, without the two of its head.
    rows: Vec<String>,
}

fn sections() -> Vec<Section> {
    let path = concat!(env!("CARGO_MANIFEST_DIR"), "/../docs/LAYOUT.md");
    let page = fs::read_to_string(path).unwrap();
    let section = |part: &str| {
        let (rows, text): (Vec<&str>, Vec<&str>) =
            part.lines().partition(|line| line.starts_with('|'));
        let rows = rows.into_iter().skip(2).map(String::from).collect();
        Section { text: text.join("\n"), rows }
    };
    page.split("\n## ").map(section).collect()
}

/// Every run of digits.
fn numbers(text: &str) -> Vec<usize> {
    let runs = text.split(|letter: char| !letter.is_ascii_digit());
    runs.filter(|digits| !digits.is_empty()).map(|digits| digits.parse().unwrap()).collect()
}

/// That the section has this heading, these numbers outside of its table, and
/// these rows and no other.
#[track_caller]
fn expect(section: &Section, heading: &str, text: &[usize], rows: &[Row]) {
    assert!(section.text.starts_with(heading), "{heading}: {}", section.text);
    assert_eq!(numbers(&section.text), text, "{}", section.text);
    assert_eq!(section.rows.len(), rows.len(), "rows of {heading}");
    for (row, (words, expected)) in section.rows.iter().zip(rows) {
        assert!(row.contains(words), "{words}: {row}");
        assert_eq!(numbers(row), *expected, "{row}");
    }
}

#[test]
fn every_number_of_the_page() {
    let [first, whole, rows, run, board] = &sections()[..] else {
        panic!("another number of sections");
    };
    // 32-bit words.
    expect(first, "# The table", &[32, TABLE_WORDS], &[]);
    let drivers = DRIVERS_FROM + 1;
    expect(
        whole,
        "The whole",
        &[],
        &[
            ("P, the number of processes", &[0]),
            (
                "areas of each process",
                &[AREAS_FROM, DRIVERS_FROM - 1, MAX_PROCESSES, PROCESS_WORDS, AREAS_FROM],
            ),
            ("D, the number of drivers", &[DRIVERS_FROM, DRIVERS_FROM]),
            ("the drivers", &[drivers, CLAIMS_FROM - 1, MAX_DRIVERS, DRIVER_WORDS]),
            (
                "claim on each driver",
                &[CLAIMS_FROM, RUNS_FROM - 1, MAX_DRIVERS, CLAIM_WORDS, CLAIMS_FROM],
            ),
            (
                "run of each process",
                &[RUNS_FROM, TABLE_WORDS - 1, MAX_PROCESSES, RUN_WORDS, RUNS_FROM],
            ),
            ("all words", &[TABLE_WORDS]),
        ],
    );
    expect(
        rows,
        "A row",
        &[],
        &[
            ("areas (", &[PROCESS_WORDS]),
            // Shared is 0 or 1; an owner is 0 or p + 1.
            ("driver (", &[DRIVER_WORDS, 0, 1]),
            ("claim (", &[CLAIM_WORDS, 0, 1]),
        ],
    );
    let [subscribe, read_write, read_only] = SlotKind::ALL.map(|kind| kind as usize);
    let slots = MAX_SLOTS as usize;
    let [running, waiting, exited] = [RUNNING, WAITING, EXITED].map(|status| status as usize);
    expect(
        run,
        "A process's run",
        // The last is what a slot holds that the board does not have.
        &[RUN_WORDS, MAX_DRIVERS, slots, subscribe, read_write, read_only, 0, 0],
        &[
            ("status", &[STATUS, running, waiting, exited]),
            ("break", &[BREAK]),
            ("number of queued upcalls", &[QUEUED]),
            (
                "the slots, each a pair",
                &[SLOTS_FROM, QUEUE_FROM - 1, SLOT_COUNT, PAIR_WORDS, SLOTS_FROM],
            ),
            (
                "the queue, first upcall first",
                &[QUEUE_FROM, RUN_WORDS - 1, QUEUE_CAPACITY, UPCALL_WORDS, QUEUE_FROM],
            ),
        ],
    );
    let in_words = [PROCESS_WORDS, DRIVER_WORDS, board_words(0, 0), PROCESS_WORDS, DRIVER_WORDS];
    expect(
        board,
        "A board as it is lent to start",
        &[&in_words[..], &[MAX_BOARD_WORDS]].concat(),
        &[],
    );
}

/// The page's formula, with the two numbers that it says, gives every slot's place.
#[test]
fn where_a_slot_stands() {
    let page = sections().into_iter().map(|section| section.text).collect::<Vec<_>>().join(" ");
    let (_, formula) = page.split_once("pair (kind · ").expect("the formula");
    let (drivers, rest) = formula.split_once(" + k) · ").expect("the place of the driver");
    let (slots, _) = rest.split_once(" + j,").expect("the slot's number");
    let [drivers, slots]: [usize; 2] = [drivers, slots].map(|number| number.parse().unwrap());
    for kind in SlotKind::ALL {
        for driver in 0..MAX_DRIVERS {
            for number in 0..MAX_SLOTS {
                let pair = (kind as usize * drivers + driver) * slots + number as usize;
                let slot = Slot { kind, driver: DriverPlace(driver), number };
                assert_eq!(pair_at(slot), SLOTS_FROM + pair * PAIR_WORDS, "{slot:?}");
            }
        }
    }
}

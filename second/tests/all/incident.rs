//! The incident of the request, as an example in the text form.

use std::fs;

use crate::common::*;
use second::text::list::list_to_string;
use second::text::parse::assemble;
use second::trace::write_trace;

fn example(name: &str) -> Vec<u8> {
    let file = format!("{}/../examples/{name}", env!("CARGO_MANIFEST_DIR"));
    fs::read(&file).unwrap_or_else(|error| panic!("{file}: {error}"))
}

fn incident_text() -> String {
    String::from_utf8(example("incident.txt")).expect("the example is text")
}

/// A peak of -100, low byte first.
const PEAK: [u8; 4] = [0x9C, 0xFF, 0xFF, 0xFF];

#[test]
fn text_and_trace_agree() {
    assert_eq!(assemble(&incident_text()), Ok(example("incident.trace")));
}

/// The text without its comments is the listing, so its answers are true.
#[test]
fn text_is_the_listing_with_comments() {
    let text = incident_text();
    let told: Vec<&str> =
        text.lines().filter(|line| !line.is_empty() && !line.starts_with('#')).collect();
    let listing = list_to_string(&example("incident.trace"));
    assert_eq!(told, listing.lines().collect::<Vec<_>>());
}

#[test]
fn trace_has_these_steps_and_lines() {
    let steps = [
        (allow_rw(0, CORRELATOR, 0, [0xFFFF_FFFF, 2]), a(2, 6, 0xFFFF_FFFF, 2)),
        (deposit(0, CORRELATOR, 0, 0, &PEAK[..2]), x(9)),
        (allow_rw(1, CORRELATOR, 0, [0x2000_2100, 16]), a(130, 0, 0, 0)),
        (deposit(1, CORRELATOR, 0, 12, &PEAK), line('D', &[])),
        (deposit(1, CORRELATOR, 0, 13, &PEAK), x(9)),
        (allow_ro(1, CONSOLE, 0, [0x2000_210C, 4]), a(130, 0, 0, 0)),
        (fetch(1, CONSOLE, 0, 0, 4), line('F', &[4, 0x9C, 0xFF, 0xFF, 0xFF])),
    ];
    expect(&steps);
    let steps = steps.map(|(step, _)| step);
    assert_eq!(example("incident.trace"), write_trace(&CASE_BOARD, &steps));
}

#[test]
fn answers_of_the_listing() {
    let listing = list_to_string(&example("incident.trace"));
    let answers = listing.lines().filter_map(|line| line.split_once(" = "));
    let answers: Vec<&str> = answers.map(|(_, answer)| answer).collect();
    let expected = [
        "started",
        "Failure with 2 u32 INVAL: 0xFFFFFFFF, 2",
        "refused 9 (offset + length exceeds the held size)",
        "Success with 2 u32: 0x00000000, 0",
        "deposited",
        "refused 9 (offset + length exceeds the held size)",
        "Success with 2 u32: 0x00000000, 0",
        "fetched 4 bytes: 9C FF FF FF",
    ];
    assert_eq!(answers, expected);
}

//! Where a run over a trace pauses, to the byte: the library beside a run of the second program that stops by the rule of the C header. Fewer
//! than 64 bytes of room are left before the board or a record, or fewer than 23 + 4 * length before the line of an accepted fetch.

use makvluria::{replay, Progress, IMAGE_BYTES, TABLE_WORDS};
use second::generate::corpus::small_corpus;
use second::generate::{generate, Kind};
use second::lines::Lines;
use second::random::Random;
use second::state::Machine;
use second::step::{Answer, Step};
use second::table::image;
use second::trace::Reader;

/// What a lent byte is before a run, which writes no such one.
const UNWRITTEN: u8 = 0xA5;

const LINE_ROOM: usize = 64;

/// The rooms that runs are given one after the other: too small for any line, at the edge, and for some lines or fetched parts.
const ROOMS: [usize; 12] = [63, 64, 65, 84, 86, 0, 100, 127, 128, 279, 280, 4_000];

/// The second program's run, within one room after another.
struct Run<'a> {
    reader: Reader<'a>,
    machine: Option<Machine>,
}

/// Where a run stopped: at its end, or before a place of the trace.
type Stop = Option<usize>;

impl<'a> Run<'a> {
    fn new(trace: &'a [u8]) -> Run<'a> {
        Run { reader: Reader::new(trace), machine: None }
    }

    fn go_on(&mut self, room: usize) -> (Stop, Lines) {
        let mut lines = Lines::default();
        let stop = self.write(&mut lines, room);
        (stop, lines)
    }

    fn write(&mut self, lines: &mut Lines, room: usize) -> Stop {
        if self.machine.is_none() {
            if room < LINE_ROOM {
                return Some(0);
            }
            match self.reader.board().map(|words| Machine::start(&words)) {
                Ok(Ok(machine)) => self.machine = Some(machine),
                Ok(Err(refusal)) => lines.refused(refusal),
                Err(broken) => lines.broken(broken),
            }
        }
        let machine = self.machine.as_mut()?;
        while !self.reader.is_at_end() {
            let (place, left) = (self.reader.place(), room - lines.length());
            if left < LINE_ROOM {
                return Some(place);
            }
            let before = self.reader.clone();
            let step = match self.reader.step() {
                Ok(step) => step?,
                Err(broken) => {
                    lines.broken(broken);
                    return None;
                }
            };
            let outcome = machine.step(step);
            if let (Step::Fetch { length, .. }, Ok(Answer::Fetched(_))) = (step, &outcome) {
                if left < 23 + 4 * length as usize {
                    self.reader = before;
                    return Some(place);
                }
            }
            lines.outcome(machine, outcome);
        }
        None
    }
}

/// Both runs over a trace, in these rooms in turn, until they end.
fn compare(what: &str, trace: &[u8], rooms: impl Iterator<Item = usize>) -> usize {
    let (mut table, mut memory) = (vec![0; TABLE_WORDS], vec![0; IMAGE_BYTES]);
    let flash = vec![0; IMAGE_BYTES];
    let mut run = Run::new(trace);
    let (mut at, mut pauses) = (0, 0);
    for room in rooms {
        let (stop, expected) = run.go_on(room);
        let mut lines = vec![UNWRITTEN; room];
        let progress = replay(trace, at, &mut table, &mut memory, &flash, &mut lines);
        let written = expected.length();
        let told = match stop {
            None => Progress::Ended { written },
            Some(at) => Progress::Paused { at, written },
        };
        assert_eq!(progress, told, "{what}: from {at} in {room} bytes");
        assert!(
            lines[..written] == *expected.written(),
            "{what}: other lines from {at} in {room} bytes"
        );
        assert!(
            lines[written..].iter().all(|&byte| byte == UNWRITTEN),
            "{what}: from {at} in {room} bytes"
        );
        if let Some(machine) = &run.machine {
            assert!(table == image(machine), "{what}: another table, from {at} in {room} bytes");
            assert!(memory == machine.memory, "{what}: another memory, from {at} in {room} bytes");
        }
        match stop {
            None => return pauses,
            Some(next) => at = next,
        }
        pauses += 1;
    }
    panic!("{what}: no end");
}

#[test]
fn small_traces_pause_where_the_rule_says() {
    let mut pauses = 0;
    for (index, trace) in small_corpus().iter().enumerate() {
        for first in 0..ROOMS.len() {
            let rooms = ROOMS.iter().copied().cycle().skip(first).take(10_000);
            pauses += compare(&format!("small trace {index}"), trace, rooms);
        }
    }
    assert!(pauses > 50, "{pauses} pauses");
}

#[test]
fn generated_traces_pause_where_the_rule_says() {
    let mut pauses = 0;
    for kind in [Kind::Walk, Kind::Boundary, Kind::Broken] {
        for index in 0..40 {
            let mut random = Random::new(&[104, index]);
            let rooms = std::iter::repeat_with(|| match random.word() % 64 {
                0 => random.word() as usize % 130,
                1..=60 => LINE_ROOM + random.word() as usize % 200,
                61 | 62 => random.word() as usize % 5_000,
                _ => 300_000,
            });
            pauses += compare(
                &format!("{} {index}", kind.name()),
                &generate(104, kind, index),
                rooms.take(100_000),
            );
        }
    }
    assert!(pauses > 1_000, "{pauses} pauses");
    println!("{pauses} pauses, each where the rule says");
}

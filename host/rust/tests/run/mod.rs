//! What a host may lend to the run over a trace: anything, and for its lines a buffer of any length.

use makvluria::{is_well_formed, raw, Class, Progress, IMAGE_BYTES, LINES_BYTES, TABLE_WORDS};
use second::board::{DriverNumber, ProcessIndex};
use second::generate::corpus::small_corpus;
use second::step::Step;
use second::trace::write_trace;

use super::{Host, BOARD, SHARED, UNSHARED};

/// What a lent byte is before a run, which writes no such one.
const UNWRITTEN: u8 = 0xA5;

/// The least room in which a line that is not a fetch's is begun.
const LINE_ROOM: usize = 64;

/// What the line of a fetch of so many bytes has to have room for.
const fn fetch_room(length: usize) -> usize {
    23 + 4 * length
}

fn call_step(class: Class, registers: [u32; 4]) -> Step<'static> {
    Step::Call { process: ProcessIndex(0), class: class.0, registers }
}

fn fetch_step(length: u32) -> Step<'static> {
    let (process, driver) = (ProcessIndex(0), DriverNumber(UNSHARED.0));
    Step::Fetch { process, driver, slot: 0, offset: 0, length }
}

/// A step of each kind and its line; each of them changes something or tells what another changed.
fn steps() -> [(Step<'static>, &'static str); 10] {
    let (process, driver, slot) = (ProcessIndex(0), DriverNumber(UNSHARED.0), 0);
    [
        (call_step(Class::READ_WRITE_ALLOW, [UNSHARED.0, 0, 0x2000_0100, 16]), "A 130 0 0 0\n"),
        (Step::Deposit { process, driver, slot, offset: 1, bytes: &[9, 8, 7] }, "D\n"),
        (call_step(Class::READ_ONLY_ALLOW, [UNSHARED.0, 0, 0x2000_0100, 16]), "A 130 0 0 0\n"),
        (fetch_step(4), "F 4 0 9 8 7\n"),
        (call_step(Class::SUBSCRIBE, [UNSHARED.0, 0, 0x0004_0010, 7]), "A 130 0 0 0\n"),
        (Step::Event { process, driver, slot, arguments: [1, 2, 3] }, "Q\n"),
        (call_step(Class::YIELD, [1, 0, 0, 0]), "U 262160 1 2 3 7\n"),
        (call_step(Class::YIELD, [1, 0, 0, 0]), "W\n"),
        (Step::Resume { process }, "W\n"),
        (Step::Latch { driver: DriverNumber(SHARED.0), peak: -5 }, "L\n"),
    ]
}

fn trace_of_steps(board: &[u32]) -> Vec<u8> {
    write_trace(board, &steps().map(|(step, _)| step))
}

/// The place of the first record after the board.
fn records_at() -> usize {
    write_trace(&BOARD, &[]).len()
}

/// Fetches of so many bytes out of flash, with another line after each.
fn trace_of_fetches(lengths: &[u32]) -> Vec<u8> {
    let mut steps = vec![call_step(Class::READ_ONLY_ALLOW, [UNSHARED.0, 0, 0x0004_0000, 0x4000])];
    for &length in lengths {
        steps.extend([fetch_step(length), call_step(Class::MEMOP, [2, 0, 0, 0])]);
    }
    write_trace(&BOARD, &steps)
}

/// Fetches of a whole image, so many times.
fn trace_of_whole_images(times: usize) -> Vec<u8> {
    #[rustfmt::skip]
    let board = [
        1, 0x2000_0000, 0x2001_0000, 0x2001_0000, 0x2000_0000, 0x0004_0000, 0x0005_0000, 1,
        1, UNSHARED.0, 0, 0, 1, 0,
    ];
    let mut steps = vec![call_step(Class::READ_ONLY_ALLOW, [UNSHARED.0, 0, 0x0004_0000, 65_536])];
    steps.extend(vec![fetch_step(65_536); times]);
    write_trace(&board, &steps)
}

/// The lines of a whole trace whose buffers have these sizes in turn; `None` where the run pauses in the last of them.
fn run_in_pieces(
    host: &mut Host,
    trace: &[u8],
    sizes: impl Iterator<Item = usize>,
) -> Option<String> {
    let (mut all, mut at) = (Vec::new(), 0);
    for size in sizes {
        let mut lines = vec![UNWRITTEN; size];
        let (next, written) = match host.replay(trace, at, &mut lines) {
            Progress::Ended { written } => (None, written),
            Progress::Paused { at, written } => (Some(at), written),
        };
        let (lines, rest) = lines.split_at(written);
        assert!(rest.iter().all(|&byte| byte == UNWRITTEN), "size {size}, from {at}");
        assert!(lines.last().is_none_or(|&byte| byte == b'\n'), "size {size}, from {at}");
        all.extend_from_slice(lines);
        match next {
            None => return Some(String::from_utf8(all).unwrap()),
            Some(next) => {
                assert!(at < next || (at == next && written == 0), "size {size}, from {at}");
                at = next;
            }
        }
    }
    None
}

/// Traces, each with the least room in which every call comes further.
fn traces_with_room() -> Vec<(Vec<u8>, usize)> {
    let small = small_corpus().into_iter().map(|trace| (trace, LINE_ROOM));
    let fetches = [
        (trace_of_steps(&BOARD), LINE_ROOM),
        (trace_of_fetches(&[0, 1, 10, 9]), LINE_ROOM),
        (trace_of_fetches(&[11, 0, 11]), fetch_room(11)),
        (trace_of_fetches(&[3, 80, 20, 40, 80]), fetch_room(80)),
    ];
    small.chain(fetches).collect()
}

#[test]
fn a_run_in_a_buffer_of_any_size_gives_the_same_lines() {
    for (trace, room) in traces_with_room() {
        let mut whole = Host::fresh();
        let lines = whole.run(&trace);
        for size in LINE_ROOM..400 {
            let mut host = Host::fresh();
            let sizes = std::iter::repeat_n(size, trace.len());
            let in_pieces = run_in_pieces(&mut host, &trace, sizes);
            assert_eq!(in_pieces, (size >= room).then(|| lines.clone()), "size {size}");
            assert!(size < room || host == whole, "size {size}");
        }
    }
}

#[test]
fn a_buffer_may_be_another_one_at_every_call() {
    const SIZES: usize = 401; // a prime, so that every stride comes to every size
    for (trace, _) in traces_with_room() {
        let mut whole = Host::fresh();
        let lines = whole.run(&trace);
        for stride in [1, 2, 37, 64, 200, 337, 400] {
            let mut host = Host::fresh();
            let sizes = (0..trace.len() * SIZES).map(|call| call * stride % SIZES);
            let in_pieces = run_in_pieces(&mut host, &trace, sizes);
            assert_eq!(in_pieces.as_ref(), Some(&lines), "stride {stride}");
            assert!(host == whole, "stride {stride}");
        }
    }
}

#[test]
fn nothing_is_begun_in_fewer_than_64_bytes() {
    let trace = trace_of_steps(&BOARD);
    let mut host = Host::busy();
    let before = host.clone();
    for size in 0..LINE_ROOM {
        let mut lines = [UNWRITTEN; LINE_ROOM];
        for (trace, at) in [(&trace[..], 0), (&trace, records_at()), (&[], 0), (&[0xFF], 0)] {
            let progress = host.replay(trace, at, &mut lines[..size]);
            assert_eq!(progress, Progress::Paused { at, written: 0 }, "size {size}");
        }
        assert!(before == host, "size {size}");
        assert_eq!(lines, [UNWRITTEN; LINE_ROOM]);
    }
}

#[test]
fn past_the_trace_a_run_has_ended() {
    let trace = trace_of_steps(&BOARD);
    let mut host = Host::busy();
    let before = host.clone();
    for at in [trace.len(), trace.len() + 1, usize::MAX] {
        assert_eq!(host.replay(&trace, at, &mut []), Progress::Ended { written: 0 });
    }
    assert!(before == host);
}

#[test]
fn a_run_may_be_asked_for_from_any_place() {
    let trace = trace_of_steps(&BOARD);
    for at in 1..trace.len() {
        let mut host = Host::fresh();
        let mut lines = [UNWRITTEN; 1024];
        let Progress::Ended { written } = host.replay(&trace, at, &mut lines) else {
            panic!("there is room for all lines from {at} on");
        };
        assert_eq!(lines[written - 1], b'\n', "from {at}");
        assert!(lines[written..].iter().all(|&byte| byte == UNWRITTEN), "from {at}");
        assert!(is_well_formed(&host.table), "from {at}");
    }
}

#[test]
fn the_longest_line_needs_all_the_room() {
    let line = format!("F 65536{}\n", " 255".repeat(65_536));
    let expected = format!("A 130 0 0 0\n{line}{line}{line}");
    let mut host = Host::fresh();
    assert!(host.run(&trace_of_whole_images(3)) == expected);

    let trace = trace_of_whole_images(1);
    let at = trace_of_whole_images(0).len();
    let mut lines = vec![UNWRITTEN; LINES_BYTES];
    let short = host.replay(&trace, at, &mut lines[1..]);
    assert_eq!(short, Progress::Paused { at, written: 0 });
    assert!(lines.iter().all(|&byte| byte == UNWRITTEN));
    assert_eq!(host.replay(&trace, at, &mut lines), Progress::Ended { written: line.len() });
    assert!(lines.starts_with(line.as_bytes()));
}

#[test]
fn a_short_slice_for_the_progress_stops_a_run() {
    let trace = trace_of_steps(&BOARD);
    for (room, at) in [(0, 0), (1, 0), (2, 0), (2, records_at()), (2, trace.len())] {
        let before = Host::busy();
        let Host { mut table, mut memory, flash } = before.clone();
        let (mut lines, mut words) = ([UNWRITTEN; 256], [77; 3]);
        let out = &mut words[..room];
        assert!(!raw::replay(&trace, at, &mut table, &mut memory, &flash, &mut lines, out));
        assert!(before == Host { table, memory, flash });
        assert_eq!((lines, words), ([UNWRITTEN; 256], [77; 3]));
    }
}

#[test]
fn a_longer_slice_for_the_progress_keeps_the_rest() {
    let trace = trace_of_steps(&BOARD);
    let Host { mut table, mut memory, flash } = Host::fresh();
    let (mut lines, mut words) = ([UNWRITTEN; 64], [77; 5]);
    assert!(raw::replay(&trace, 0, &mut table, &mut memory, &flash, &mut lines, &mut words));
    let first = "A 130 0 0 0\n".len() as u64;
    let next = write_trace(&BOARD, &[steps()[0].0]).len() as u64;
    assert_eq!(words, [1, next, first, 77, 77]);
}

#[test]
fn a_run_takes_a_table_of_any_words() {
    let trace = trace_of_steps(&BOARD);
    let mut fresh = Host::fresh();
    assert_eq!(fresh.run(&trace), steps().map(|(_, line)| line).concat());
    for word in [1, 0x2000_0000, u32::MAX] {
        let mut host = Host { table: vec![word; TABLE_WORDS], ..Host::fresh() };
        assert_eq!(host.run(&trace), steps().map(|(_, line)| line).concat());
        assert!(host == fresh);
    }
}

#[test]
fn a_run_over_a_table_of_another_length_refuses_each_step_with_2() {
    let mut overlapping = BOARD;
    overlapping[8] = 0x2000_1FFF; // row 2 stands before row 13, and does not end the run
    for length in [0, 1, TABLE_WORDS - 1, TABLE_WORDS + 1] {
        let mut host = Host::busy();
        host.table.resize(length, 0);
        let before = host.clone();
        for board in [BOARD, overlapping] {
            assert_eq!(host.run(&trace_of_steps(&board)), "X 2\n".repeat(1 + steps().len()));
        }
        assert!(before == host);
    }
}

#[test]
fn a_run_that_goes_on_with_a_changed_word_refuses_each_step_with_2() {
    let trace = trace_of_steps(&BOARD);
    let refusals = "X 2\n".repeat(steps().len());
    let busy = Host::busy();
    let mut refused = 0;
    for word in 0..TABLE_WORDS {
        let mut host = busy.clone();
        host.table[word] ^= u32::MAX;
        if is_well_formed(&host.table) {
            continue;
        }
        refused += 1;
        let before = host.clone();
        let mut lines = [UNWRITTEN; 256];
        let progress = host.replay(&trace, records_at(), &mut lines);
        assert_eq!(progress, Progress::Ended { written: refusals.len() }, "word {word}");
        assert!(lines.starts_with(refusals.as_bytes()), "word {word}");
        assert!(before == host, "word {word}");
    }
    assert!(refused > TABLE_WORDS / 2, "{refused}");
}

#[test]
fn a_run_with_an_image_of_another_length_refuses_what_takes_it_with_1() {
    let trace = trace_of_steps(&BOARD);
    let lines = steps().map(|(_, line)| line);
    let (mut without_memory, mut without_flash) = (["X 1\n"; 10], lines);
    without_memory[5] = "X 11\n"; // nothing was subscribed, and nobody waits
    without_memory[8] = "X 6\n";
    without_memory[9] = "L\n";
    without_flash[3] = "X 1\n";
    for length in [0, 1, IMAGE_BYTES - 1, IMAGE_BYTES + 1] {
        let image = vec![5; length];
        let mut host = Host { memory: image.clone(), ..Host::fresh() };
        assert_eq!(host.run(&trace), without_memory.concat());
        assert!(host.memory == image);
        let mut host = Host { flash: image, ..Host::fresh() };
        assert_eq!(host.run(&trace), without_flash.concat());
    }
}

#[test]
fn a_bad_board_and_a_broken_record_end_a_run() {
    let mut host = Host::busy();
    let before = host.clone();
    let mut nobody = BOARD;
    nobody[0] = 0;
    assert_eq!(host.run(&trace_of_steps(&nobody)), "X 13\n");
    assert_eq!(host.run(&[]), "B 0\n");
    assert_eq!(host.run(&[1, 0xFF]), "B 0\n");
    assert!(before == host);

    let latch = Step::Latch { driver: DriverNumber(SHARED.0), peak: 0 };
    let mut trace = write_trace(&BOARD, &[latch]);
    let at = trace.len();
    trace.extend([6, 2, 0]); // no record is of kind 6
    assert_eq!(host.run(&trace), format!("L\nB {at}\n"));
}

#[test]
fn words_that_are_no_progress_are_not_read() {
    assert_eq!(Progress::decode([2, 0, 0]), None);
    assert_eq!(Progress::decode([0, 1, 0]), None);
}

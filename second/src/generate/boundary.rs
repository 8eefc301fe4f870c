//! Boundary traces: sweeps over values at and next to every edge.

use crate::board::{DriverNumber, ProcessIndex, SlotKind};
use crate::generate::boards::{good_board, Shape};
use crate::generate::script::{Script, SlotPlace};
use crate::generate::walk::{deposit_part, reveal, set_break};
use crate::limits::{MAX_SLOTS, QUEUE_CAPACITY};
use crate::random::Random;

const MOST_BYTES: usize = 24_000;

type Sweep = fn(&mut Script, ProcessIndex);

const SWEEPS: &[Sweep] = &[
    sweep_allows,
    sweep_allows,
    sweep_parts,
    sweep_parts,
    sweep_breaks,
    sweep_breaks,
    sweep_pointers,
    sweep_fields,
    sweep_numbers,
    sweep_processes,
    sweep_queue,
    sweep_waiting,
    sweep_latches,
];

pub fn boundary(mut random: Random) -> Vec<u8> {
    let shape = random.pick(&[Shape::Ordinary, Shape::Tight, Shape::Tight, Shape::Full]);
    let words = good_board(&mut random, shape);
    let sweeps = 5 + random.below(20);
    let mut script = Script::new(random, &words);
    for _ in 0..sweeps {
        if script.length() > MOST_BYTES {
            break;
        }
        if let Some(process) = script.pick_process(Script::is_running) {
            let sweep = script.random.pick(SWEEPS);
            sweep(&mut script, process);
        }
    }
    reveal(&mut script);
    script.into_trace()
}

/// A slot that this running process may use.
fn own_slot(script: &mut Script, process: ProcessIndex, kind: SlotKind) -> Option<SlotPlace> {
    script.pick_slot(kind, |script, place| place.process == process && script.is_usable(place))
}

fn sweep_allows(script: &mut Script, process: ProcessIndex) {
    let access = script.pick_access();
    let Some(place) = own_slot(script, process, access) else {
        return;
    };
    for _ in 0..16 {
        let buffer = script.edge_buffer(process);
        script.allow(access, place, buffer);
    }
}

/// Parts of a held buffer that end at its end, one before and one after it.
fn sweep_parts(script: &mut Script, process: ProcessIndex) {
    let access = script.pick_access();
    let Some(place) = own_slot(script, process, access) else {
        return;
    };
    let buffer = script.good_buffer(process, access);
    script.allow(access, place, buffer);
    let driver = script.driver_number(place.driver);
    for _ in 0..12 {
        if access == SlotKind::ReadWrite {
            let (offset, length) = deposit_part(script, buffer.size);
            script.deposit(process, driver, place.slot, offset, length);
        } else {
            let (offset, length) = script.edge_part(buffer.size);
            script.fetch(process, driver, place.slot, offset, length);
        }
    }
}

/// The break to every edge and next to it, in any order.
fn sweep_breaks(script: &mut Script, process: ProcessIndex) {
    let mut edges = script.edges(process);
    script.random.shuffle(&mut edges);
    for edge in edges {
        let beside = script.random.pick(&[0, 1, u32::MAX]);
        set_break(script, process, edge.wrapping_add(beside));
    }
}

/// Subscribes with pointers at every edge.
fn sweep_pointers(script: &mut Script, process: ProcessIndex) {
    let Some(place) = own_slot(script, process, SlotKind::Subscribe) else {
        return;
    };
    let flash = script.machine.process_board(process).flash;
    let beside = [flash.start - 1, flash.start, flash.end - 1, flash.end];
    for pointer in beside.into_iter().chain([0, 1, u32::MAX]) {
        script.subscribe(place, pointer);
    }
    for _ in 0..4 {
        let pointer = script.edge(process);
        script.subscribe(place, pointer);
    }
}

/// Yield no-wait with its field at and next to both ends of accessible RAM,
/// with and without an upcall to deliver.
fn sweep_fields(script: &mut Script, process: ProcessIndex) {
    let subscribed =
        |script: &Script, place: SlotPlace| place.process == process && script.is_subscribed(place);
    let ram = script.machine.accessible_ram(process);
    let ends = [ram.start.wrapping_sub(1), ram.start, ram.end.wrapping_sub(1), ram.end];
    for field in ends.into_iter().chain([0, u32::MAX]) {
        if let Some(place) = script.pick_slot(SlotKind::Subscribe, subscribed) {
            script.event(place);
        }
        for _ in 0..script.random.within(1..=2) {
            script.yield_no_wait(process, field);
        }
    }
    let place = own_slot(script, process, SlotKind::ReadOnly);
    if let Some(place) = place.filter(|_| ram.start < ram.end) {
        let driver = script.driver_number(place.driver);
        for address in [ram.start, ram.end - 1] {
            script.slot_call(SlotKind::ReadOnly, place, [address, 1]);
            script.fetch(process, driver, place.slot, 0, 1);
        }
    }
}

/// Every small slot, command, memop, yield and exit number, and some classes.
fn sweep_numbers(script: &mut Script, process: ProcessIndex) {
    let driver = script.any_driver().0;
    for class in 1..=4 {
        for number in 0..=MAX_SLOTS {
            let value = script.any_pointer(process);
            script.call(process, class, [driver, number, value, 0]);
        }
    }
    for number in 2..=12 {
        script.call(process, 5, [number, 0, 0, 0]);
    }
    for class in [0, 6, 7, 8, 127, 128, 255] {
        script.call(process, class, [2, 0, 0, 0]);
        script.call(process, class, [u32::MAX, 0, 0, 0]);
    }
    if script.random.one_in(3) {
        let number = script.random.within(0..=1);
        script.call(process, 6, [number, 7, 0, 0]);
    }
}

/// Steps on the last process of the board and on the one after it.
fn sweep_processes(script: &mut Script, _: ProcessIndex) {
    let count = script.machine.processes.len() as u32;
    let driver = script.any_driver();
    for process in [count - 1, count, count + 1, u32::MAX].map(ProcessIndex) {
        script.call(process, 5, [2, 0, 0, 0]);
        script.event_by_number(process, driver, 0);
        script.resume(process);
        script.deposit(process, driver, 0, 0, 0);
        script.fetch(process, driver, 0, 0, 0);
        script.fetch(process, driver, 0, 1, 0);
    }
}

/// Fills the queue to one less than it takes, to the last and past it, takes
/// one away and adds one again, then empties it and fills it again.
fn sweep_queue(script: &mut Script, process: ProcessIndex) {
    let Some(place) = own_slot(script, process, SlotKind::Subscribe) else {
        return;
    };
    let pointer = script.good_pointer(process);
    script.subscribe(place, pointer);
    for _ in 0..2 {
        for _ in script.queued(process)..QUEUE_CAPACITY + 1 {
            script.event(place);
        }
        script.take_upcall(process);
        script.event(place);
        script.event(place);
        for _ in 0..QUEUE_CAPACITY {
            script.take_upcall(process);
        }
    }
}

/// Waits with an empty queue, tries a call of every class, and is woken.
fn sweep_waiting(script: &mut Script, process: ProcessIndex) {
    let Some(place) = own_slot(script, process, SlotKind::Subscribe) else {
        return;
    };
    let pointer = script.good_pointer(process);
    script.subscribe(place, pointer);
    while script.queued(process) > 0 {
        script.take_upcall(process);
    }
    script.yield_wait(process);
    script.resume(process);
    for class in 0..=7 {
        script.call(process, class, [0, 0, 0, 0]);
    }
    script.event(place);
    script.resume(process);
    script.resume(process);
}

/// Every driver latched to the ends of the signed range, and read.
fn sweep_latches(script: &mut Script, process: ProcessIndex) {
    let drivers = script.machine.board.drivers();
    let numbers: Vec<DriverNumber> = drivers.iter().map(|driver| driver.number).collect();
    for driver in numbers {
        let value = script.random.pick(&[0, 1, 0x7FFF_FFFF, 0x8000_0000, u32::MAX]);
        script.latch(driver, value);
        script.latch(DriverNumber(driver.0.wrapping_add(1)), value);
        for command in [1, 3, script.random.pick(&[2, 3])] {
            script.call(process, 2, [driver.0, command, 0, 0]);
        }
    }
}

//! Walks: long runs of moves, each chosen for the state that is reached.

use crate::board::{DriverNumber, ProcessIndex, SlotKind, FLASH, MEMORY};
use crate::generate::boards::{board_of_most_processes, good_board, Shape};
use crate::generate::script::{Script, SlotPlace};
use crate::limits::QUEUE_CAPACITY;
use crate::random::Random;
use crate::state::{Activity, Buffer};
use crate::trace::MAX_DEPOSIT_BYTES;

/// Bytes after which a walk makes no more moves, and after which the look at
/// the final state stops.
const WALK_BYTES: usize = 32_000;
const REVEAL_BYTES: usize = 60_000;

type Move = fn(&mut Script);

/// Every move with how often it is wanted. A walk multiplies these with
/// factors of its own, so that some walks do much of one thing.
const MOVES: &[(Move, usize)] = &[
    (subscribe, 8),
    (subscribe_wrongly, 3),
    (some_events, 8),
    (event_wrongly, 3),
    (fill_queue, 3),
    (drain_queue, 5),
    (cancel, 4),
    (cancel_among_twins, 2),
    (allow, 8),
    (allow_at_edges, 4),
    (move_break, 6),
    (lower_break_onto_buffers, 2),
    (deposit, 6),
    (fetch, 6),
    (look_at_memory, 3),
    (fetch_flash_beside_memory, 2),
    (yield_once, 4),
    (wait_and_resume, 3),
    (call_while_waiting, 2),
    (resume_any, 2),
    (command, 6),
    (latch, 3),
    (call_denied, 5),
    (restart, 1),
    (terminate, 1),
    (ask_memop, 2),
    (unknown_call, 2),
    (nonsense_call, 3),
    (nonsense_step, 3),
];

/// The moves that walks at the limits make besides.
const MOVES_AT_LIMITS: &[(Move, usize)] = &[(fill_last_queue, 3), (refill_queue, 6)];

/// A whole trace of moves, ending with a look at all that was reached.
pub fn walk(mut random: Random) -> Vec<u8> {
    let shape = match random.below(16) {
        0 => Shape::Bare,
        1 | 2 => Shape::Full,
        3..=6 => Shape::Tight,
        _ => Shape::Ordinary,
    };
    let words = good_board(&mut random, shape);
    let moves = random.pick(&[8, 40, 100, 200, 400]);
    let mut script = Script::new(random, &words);
    make_moves(&mut script, moves, WALK_BYTES);
    reveal(&mut script);
    script.into_trace()
}

/// A walk on a board of as many processes as there can be, with queues that are
/// filled, have room again and are filled again.
pub fn walk_at_limits(mut random: Random) -> Vec<u8> {
    let shape = random.pick(&[Shape::Ordinary, Shape::Tight, Shape::Full]);
    let words = board_of_most_processes(&mut random, shape);
    let count = random.pick(&[40, 100, 200, 400]);
    let mut script = Script::new(random, &words);
    let moves = [MOVES, MOVES_AT_LIMITS].concat();
    make_moves_of(&mut script, &moves, count, WALK_BYTES);
    reveal(&mut script);
    script.into_trace()
}

/// Up to `count` moves, with weights of this walk's own.
pub fn make_moves(script: &mut Script, count: usize, most_bytes: usize) {
    make_moves_of(script, MOVES, count, most_bytes);
}

fn make_moves_of(script: &mut Script, moves: &[(Move, usize)], count: usize, most_bytes: usize) {
    let factors = [0, 1, 1, 2, 4];
    let weighted: Vec<(Move, usize)> = moves
        .iter()
        .map(|&(chosen, weight)| (chosen, weight * script.random.pick(&factors)))
        .collect();
    // The first moves prepare the ground: without them most others do nothing.
    for _ in 0..6 {
        if script.length() > most_bytes {
            return;
        }
        subscribe(script);
        allow(script);
    }
    for _ in 0..count {
        if script.length() > most_bytes {
            return;
        }
        wake_one_if_none_runs(script);
        pick_move(script, &weighted)(script);
    }
}

fn pick_move(script: &mut Script, weighted: &[(Move, usize)]) -> Move {
    let total: usize = weighted.iter().map(|&(_, weight)| weight).sum();
    let mut left = script.random.below(total.max(1));
    for &(chosen, weight) in weighted {
        if left < weight {
            return chosen;
        }
        left -= weight;
    }
    nonsense_step
}

fn subscribe(script: &mut Script) {
    let Some(place) = script.pick_slot(SlotKind::Subscribe, Script::is_usable) else {
        return;
    };
    let pointer = match script.random.below(8) {
        0 => 0,
        _ => script.good_pointer(place.process),
    };
    script.subscribe(place, pointer);
}

fn subscribe_wrongly(script: &mut Script) {
    let Some(process) = script.pick_process(Script::is_running) else {
        return;
    };
    let driver = script.any_driver().0;
    let slot = script.any_slot();
    let pointer = script.any_pointer(process);
    let data = script.value();
    script.call(process, 1, [driver, slot, pointer, data]);
}

fn some_events(script: &mut Script) {
    for _ in 0..script.random.within(1..=5) {
        let Some(place) = script.pick_slot(SlotKind::Subscribe, Script::is_subscribed) else {
            return;
        };
        script.event(place);
    }
}

fn event_wrongly(script: &mut Script) {
    let process = script.any_process();
    let driver = script.any_driver();
    let slot = script.any_slot();
    script.event_by_number(process, driver, slot);
}

/// Events until the queue is full, then some that find it full, and one on a
/// slot with pointer 0, which is told apart even then.
fn fill_queue(script: &mut Script) {
    let Some(process) = script.pick_process(Script::is_live) else {
        return;
    };
    fill_queue_of(script, process);
}

fn fill_queue_of(script: &mut Script, process: ProcessIndex) {
    for _ in 0..script.random.within(0..=3) {
        subscribe_for(script, process);
    }
    if events_past_full(script, process).is_none() {
        return;
    }
    let is_null = |script: &Script, place: SlotPlace| {
        place.process == process && script.upcall(place).is_null()
    };
    if let Some(place) = script.pick_slot(SlotKind::Subscribe, is_null) {
        script.event(place);
    }
}

/// Events until the queue is full, and up to three more; or none where no slot is
/// subscribed.
fn events_past_full(script: &mut Script, process: ProcessIndex) -> Option<()> {
    let more = script.random.within(0..=3) as usize;
    for _ in 0..QUEUE_CAPACITY - script.queued(process) + more {
        let place = pick_subscribed(script, process)?;
        script.event(place);
    }
    Some(())
}

/// As `fill_queue`, of the last process.
fn fill_last_queue(script: &mut Script) {
    let last = ProcessIndex(script.machine.processes.len() as u32 - 1);
    if script.is_live(last) {
        fill_queue_of(script, last);
    }
}

/// A full queue has room again, by deliveries or by a cancel, and takes upcalls
/// until it is full again.
fn refill_queue(script: &mut Script) {
    let is_full = |script: &Script, process| script.queued(process) == QUEUE_CAPACITY;
    let Some(process) = script.pick_process(is_full) else {
        return;
    };
    if script.is_running(process) && script.random.one_in(2) {
        let place = queued_slot(script, process);
        let pointer = script.any_pointer(process);
        script.subscribe(place, pointer);
    } else {
        for _ in 0..script.random.within(1..=3) {
            script.take_upcall(process);
        }
    }
    events_past_full(script, process);
}

fn subscribe_for(script: &mut Script, process: ProcessIndex) {
    let usable = |script: &Script, place: SlotPlace| {
        place.process == process && script.is_usable(place) && script.upcall(place).is_null()
    };
    if let Some(place) = script.pick_slot(SlotKind::Subscribe, usable) {
        let pointer = script.good_pointer(process);
        script.subscribe(place, pointer);
    }
}

fn pick_subscribed(script: &mut Script, process: ProcessIndex) -> Option<SlotPlace> {
    script.pick_slot(SlotKind::Subscribe, |script, place| {
        place.process == process && script.is_subscribed(place)
    })
}

/// Deliveries until the queue is empty, or nearly.
fn drain_queue(script: &mut Script) {
    let Some(process) = script.pick_process(|script, process| script.queued(process) > 0) else {
        return;
    };
    let left = match script.random.below(3) {
        0 => script.random.below(script.queued(process)),
        _ => 0,
    };
    while script.queued(process) > left {
        script.take_upcall(process);
    }
    if script.is_running(process) && script.random.one_in(2) {
        let field = script.any_address(process);
        script.yield_no_wait(process, field);
    }
}

/// A new subscribe to a slot that has queued upcalls; some of these fail and
/// must cancel nothing.
fn cancel(script: &mut Script) {
    let Some(process) = script
        .pick_process(|script, process| script.is_running(process) && script.queued(process) > 0)
    else {
        return;
    };
    let place = queued_slot(script, process);
    if script.random.one_in(4) {
        // The pair that is held already: it cancels like any other.
        let held = script.upcall(place);
        script.slot_call(SlotKind::Subscribe, place, [held.pointer, held.data]);
    } else {
        let pointer = script.any_pointer(process);
        script.subscribe(place, pointer);
    }
    if script.random.one_in(3) {
        drain_all(script, process);
    }
}

/// The slot of some queued upcall.
fn queued_slot(script: &mut Script, process: ProcessIndex) -> SlotPlace {
    let entry = script.random.below(script.queued(process));
    let queued = script.machine.processes[process.place()].queue[entry];
    SlotPlace { process, driver: queued.driver, slot: queued.slot }
}

fn drain_all(script: &mut Script, process: ProcessIndex) {
    while script.queued(process) > 0 {
        script.take_upcall(process);
    }
}

/// Queues upcalls of slots with one number at several drivers, cancels those
/// of one driver and looks at what is left.
fn cancel_among_twins(script: &mut Script) {
    let Some(place) = script.pick_slot(SlotKind::Subscribe, Script::is_usable) else {
        return;
    };
    let mut twins = script.slots(SlotKind::Subscribe);
    twins.retain(|&twin| {
        twin.process == place.process && twin.slot == place.slot && script.is_usable(twin)
    });
    for &twin in &twins {
        let pointer = script.good_pointer(twin.process);
        script.subscribe(twin, pointer);
    }
    for _ in 0..script.random.within(2..=10) {
        let twin = script.random.pick(&twins);
        script.event(twin);
    }
    let pointer = script.any_pointer(place.process);
    script.subscribe(place, pointer);
    if script.random.one_in(2) {
        drain_all(script, place.process);
    }
}

fn allow(script: &mut Script) {
    let access = script.pick_access();
    let Some(place) = script.pick_slot(access, Script::is_usable) else {
        return;
    };
    let buffer = script.good_buffer(place.process, access);
    script.allow(access, place, buffer);
}

fn allow_at_edges(script: &mut Script) {
    let access = script.pick_access();
    let Some(place) = script.pick_slot(access, Script::is_usable) else {
        return;
    };
    let buffer = script.edge_buffer(place.process);
    script.allow(access, place, buffer);
}

fn move_break(script: &mut Script) {
    let Some(process) = script.pick_process(Script::is_running) else {
        return;
    };
    let board = *script.machine.process_board(process);
    let to = match script.random.below(4) {
        0 => script.edge(process),
        1 => script.random.pick(&[board.ram.start, board.grant_start]),
        _ => script.random.within(board.ram.start..=board.grant_start),
    };
    set_break(script, process, to);
}

/// The break to an address, by one of the two memops; or by an extreme.
pub fn set_break(script: &mut Script, process: ProcessIndex, to: u32) {
    let change = to.wrapping_sub(script.app_break(process));
    let extreme = script.random.pick(&[0, 0x7FFF_FFFF, 0x8000_0000, u32::MAX]);
    let registers = match script.random.below(9) {
        0 => [1, extreme, 0, 0],
        1..=4 => [1, change, 0, 0],
        _ => [0, to, 0, 0],
    };
    script.call(process, 5, registers);
}

/// The break to the end of a held buffer, above it and below it.
fn lower_break_onto_buffers(script: &mut Script) {
    let access = script.pick_access();
    let held = |script: &Script, place: SlotPlace| {
        script.is_usable(place) && !script.buffer(access, place).is_empty()
    };
    let Some(place) = script.pick_slot(access, held) else {
        return;
    };
    let buffer = script.buffer(access, place);
    let end = buffer.address + buffer.size;
    for to in [end + 1, end, end - 1] {
        set_break(script, place.process, to);
    }
    if script.random.one_in(2) {
        let address = script.any_address(place.process);
        script.allow(access, place, Buffer { address, size: 0 });
        set_break(script, place.process, end - 1);
    }
}

fn deposit(script: &mut Script) {
    let access = SlotKind::ReadWrite;
    let Some(place) = pick_held(script, access) else {
        return;
    };
    let size = script.buffer(access, place).size;
    let (offset, length) = deposit_part(script, size);
    let driver = script.driver_number(place.driver);
    script.deposit(place.process, driver, place.slot, offset, length);
}

/// A slot of a live process, mostly one that holds a non-empty buffer.
fn pick_held(script: &mut Script, access: SlotKind) -> Option<SlotPlace> {
    let any = script.random.one_in(6);
    script.pick_slot(access, |script, place| {
        script.is_live(place.process) && (any || !script.buffer(access, place).is_empty())
    })
}

/// As `edge_part`, with a length that a deposit record can have.
pub fn deposit_part(script: &mut Script, size: u32) -> (u32, u32) {
    let (offset, length) = script.edge_part(size);
    if length <= MAX_DEPOSIT_BYTES {
        return (offset, length);
    }
    let length = script.random.pick(&[1, 2, 16, 16, MAX_DEPOSIT_BYTES]);
    let end = size + script.random.within(0..=1);
    (end.saturating_sub(length), length)
}

fn fetch(script: &mut Script) {
    let access = SlotKind::ReadOnly;
    let Some(place) = pick_held(script, access) else {
        return;
    };
    let size = script.buffer(access, place).size;
    let (offset, length) = script.edge_part(size);
    let driver = script.driver_number(place.driver);
    script.fetch(place.process, driver, place.slot, offset, length);
}

/// Lends some written bytes and the bytes beside them read-only, and fetches
/// them: what a step wrote, and where, comes into the output.
fn look_at_memory(script: &mut Script) {
    if let Some(place) = script.pick_slot(SlotKind::ReadOnly, Script::is_usable) {
        look_through(script, place);
    }
}

fn look_through(script: &mut Script, place: SlotPlace) {
    let Some(address) = script.touched_address(place.process) else {
        return;
    };
    let ram = script.machine.accessible_ram(place.process);
    let first = address.saturating_sub(12).max(ram.start);
    let size = (ram.end - first).min(24);
    script.allow(SlotKind::ReadOnly, place, Buffer { address: first, size });
    let driver = script.driver_number(place.driver);
    script.fetch(place.process, driver, place.slot, 0, size);
}

/// Fetches from flash after a deposit at the same place of the memory image:
/// flash bytes are zeros, so a mix-up of the images shows.
fn fetch_flash_beside_memory(script: &mut Script) {
    let access = SlotKind::ReadOnly;
    let Some(reader) = script.pick_slot(access, Script::is_usable) else {
        return;
    };
    let flash = script.machine.process_board(reader.process).flash;
    let size = (flash.end - flash.start).min(8);
    let twin = Buffer { address: MEMORY.start + (flash.start - FLASH.start), size };
    let can_lend = |script: &Script, place: SlotPlace| {
        let process = &script.machine.processes[place.process.place()];
        script.is_usable(place) && process.accepts(SlotKind::ReadWrite, [twin.address, twin.size])
    };
    let Some(writer) = script.pick_slot(SlotKind::ReadWrite, can_lend) else {
        return;
    };
    script.allow(SlotKind::ReadWrite, writer, twin);
    let driver = script.driver_number(writer.driver);
    script.deposit(writer.process, driver, writer.slot, 0, size);
    script.allow(access, reader, Buffer { address: flash.start, size });
    let driver = script.driver_number(reader.driver);
    script.fetch(reader.process, driver, reader.slot, 0, size);
}

fn yield_once(script: &mut Script) {
    let Some(process) = script.pick_process(Script::is_running) else {
        return;
    };
    if script.random.one_in(6) {
        script.yield_wait(process);
    } else {
        let field = script.any_address(process);
        script.yield_no_wait(process, field);
    }
}

/// Waiting with an empty queue, found waiting, then woken by an event.
fn wait_and_resume(script: &mut Script) {
    let Some(process) = script.pick_process(Script::is_running) else {
        return;
    };
    subscribe_for(script, process);
    drain_all(script, process);
    script.yield_wait(process);
    for _ in 0..script.random.within(0..=2) {
        script.resume(process);
    }
    for _ in 0..script.random.within(1..=3) {
        if let Some(place) = pick_subscribed(script, process) {
            script.event(place);
        }
    }
    script.resume(process);
}

fn call_while_waiting(script: &mut Script) {
    let waiting = |script: &Script, process| script.activity(process) == Activity::Waiting;
    if let Some(process) = script.pick_process(waiting) {
        any_call(script, process);
    }
}

fn resume_any(script: &mut Script) {
    let process = script.any_process();
    script.resume(process);
}

/// Claim, release and read, by processes that do and do not own the driver.
fn command(script: &mut Script) {
    let Some(process) = script.pick_process(Script::is_running) else {
        return;
    };
    let driver = pick_shared(script).unwrap_or_else(|| script.any_driver());
    let number = match script.random.below(10) {
        0 => 0,
        1 => script.random.pick(&[4, 5, 7, 0x8000_0000, u32::MAX]),
        2 => 2,
        3..=5 => 3,
        _ => 1,
    };
    let unused = [script.value(), script.value()];
    script.call(process, 2, [driver.0, number, unused[0], unused[1]]);
}

/// A shared driver, most of the time.
fn pick_shared(script: &mut Script) -> Option<DriverNumber> {
    let drivers = script.machine.board.drivers().iter();
    let shared: Vec<DriverNumber> =
        drivers.filter(|driver| driver.shared).map(|driver| driver.number).collect();
    if script.random.one_in(6) {
        return None;
    }
    script.random.pick_any(&shared)
}

fn latch(script: &mut Script) {
    let driver = pick_shared(script).unwrap_or_else(|| script.any_driver());
    let value = script.value();
    script.latch(driver, value);
}

/// Calls of a driver that the process may not call. Each is followed by the
/// driver's own step on the slot that it named: nothing must have been stored.
fn call_denied(script: &mut Script) {
    let Some((process, driver)) = script.pick_denied() else {
        return;
    };
    for _ in 0..script.random.within(1..=4) {
        let slot = script.any_slot();
        let class = script.random.pick(&[1, 2, 3, 4]);
        let [first, second] = slot_values(script, process, class);
        script.call(process, class, [driver.0, slot, first, second]);
        match class {
            1 => script.event_by_number(process, driver, slot),
            3 => script.deposit(process, driver, slot, 0, 1),
            4 => script.fetch(process, driver, slot, 0, 1),
            _ => {}
        }
    }
}

/// What a call of classes 1 to 4 may pass: values that a slot would take, or
/// that it would not.
fn slot_values(script: &mut Script, process: ProcessIndex, class: u8) -> [u32; 2] {
    let buffer = match class {
        1 => return [script.any_pointer(process), script.value()],
        2 => return [script.value(), script.value()],
        3 if script.random.one_in(2) => script.good_buffer(process, SlotKind::ReadWrite),
        4 if script.random.one_in(2) => script.good_buffer(process, SlotKind::ReadOnly),
        _ => script.edge_buffer(process),
    };
    [buffer.address, buffer.size]
}

fn restart(script: &mut Script) {
    exit(script, 1);
}

/// Ends a process, then tries every step on it.
fn terminate(script: &mut Script) {
    if let Some(process) = exit(script, 0) {
        haunt(script, process);
    }
}

fn exit(script: &mut Script, number: u32) -> Option<ProcessIndex> {
    let process = script.pick_process(Script::is_running)?;
    let code = script.value();
    script.call(process, 6, [number, code, 0, 0]);
    Some(process)
}

/// Every step on a process that has exited.
fn haunt(script: &mut Script, process: ProcessIndex) {
    let driver = script.any_driver();
    let slot = script.any_slot();
    any_call(script, process);
    script.event_by_number(process, driver, slot);
    script.resume(process);
    script.deposit(process, driver, slot, 0, 1);
    script.fetch(process, driver, slot, 0, 0);
}

fn ask_memop(script: &mut Script) {
    if let Some(process) = script.pick_process(Script::is_running) {
        let number = script.random.within(2..=6);
        let unused = script.value();
        script.call(process, 5, [number, unused, 0, 0]);
    }
}

/// Classes and numbers that are not known. The second register is an address
/// of the process's RAM, to show that no byte changes.
fn unknown_call(script: &mut Script) {
    let Some(process) = script.pick_process(Script::is_running) else {
        return;
    };
    let address = script.any_address(process);
    let number = script.random.pick(&[2, 3, 7, 8, 11, 12, 0x100, 0x8000_0000, u32::MAX]);
    let class = script.random.pick(&[0, 0, 5, 6, 7, 8, 127, 128, 255]);
    let number = if class == 5 { number.max(7) } else { number };
    script.call(process, class, [number, address, 0, 0]);
}

fn nonsense_call(script: &mut Script) {
    if let Some(process) = script.pick_process(Script::is_live) {
        any_call(script, process);
    }
}

fn nonsense_step(script: &mut Script) {
    let process = script.any_process();
    let driver = script.any_driver();
    let slot = script.any_slot();
    let (offset, length) = (script.value(), script.value());
    match script.random.below(6) {
        0 => {
            let class = script.random.pick(&[0, 1, 2, 3, 4, 5, 7, 255]);
            script.call(process, class, [driver.0, slot, offset, length]);
        }
        1 => script.event_by_number(process, driver, slot),
        2 => script.resume(process),
        3 => script.deposit(process, driver, slot, offset, length % 8),
        4 => script.fetch(process, driver, slot, offset, length),
        _ => script.latch(driver, offset),
    }
}

/// A call of any class but exit, with registers that may mean something.
fn any_call(script: &mut Script, process: ProcessIndex) {
    let class = script.random.pick(&[0, 1, 2, 3, 4, 5, 5, 7, 200]);
    let r0 = match class {
        1..=4 => script.any_driver().0,
        _ => script.random.within(0..=8),
    };
    let r1 = match class {
        0 | 5 => script.any_address(process),
        _ => script.any_slot(),
    };
    let r2 = match class {
        1 => script.any_pointer(process),
        _ => script.edge(process),
    };
    let r3 = script.value();
    script.call(process, class, [r0, r1, r2, r3]);
}

/// Brings the state into the output: queues, slots, breaks, latches and some
/// of the written bytes.
pub fn reveal(script: &mut Script) {
    for process in script.processes() {
        if script.length() > REVEAL_BYTES {
            return;
        }
        wake(script, process);
        if script.is_running(process) {
            script.call(process, 5, [1, 0, 0, 0]);
            drain_all(script, process);
            reveal_memory(script, process);
            reveal_slots(script, process);
            reveal_latches(script, process);
        }
    }
}

/// Without a running process few moves do anything.
fn wake_one_if_none_runs(script: &mut Script) {
    if script.pick_process(Script::is_running).is_none() {
        for process in script.processes() {
            wake(script, process);
        }
    }
}

/// Makes a waiting process run, if anything can.
fn wake(script: &mut Script, process: ProcessIndex) {
    if script.activity(process) == Activity::Waiting {
        if let Some(place) = pick_subscribed(script, process) {
            script.event(place);
        }
        script.resume(process);
    }
}

fn reveal_memory(script: &mut Script, process: ProcessIndex) {
    let own =
        |script: &Script, place: SlotPlace| place.process == process && script.is_usable(place);
    for _ in 0..3 {
        if let Some(place) = script.pick_slot(SlotKind::ReadOnly, own) {
            look_through(script, place);
        }
    }
}

/// Takes everything back. On large boards most slots that hold nothing are
/// passed over.
fn reveal_slots(script: &mut Script, process: ProcessIndex) {
    for kind in SlotKind::ALL {
        let mut places = script.slots(kind);
        places.retain(|&place| place.process == process && script.permits(place));
        for place in places {
            if script.pair(kind, place) != [0, 0] || script.random.one_in(5) {
                script.slot_call(kind, place, [0, 0]);
            }
        }
    }
}

fn reveal_latches(script: &mut Script, process: ProcessIndex) {
    let drivers = script.machine.board.drivers().iter();
    let shared: Vec<u32> =
        drivers.filter(|driver| driver.shared).map(|driver| driver.number.0).collect();
    for number in shared {
        for command in [3, 1, 3, 2] {
            script.call(process, 2, [number, command, 0, 0]);
        }
    }
}

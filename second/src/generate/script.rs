//! A trace in the making, together with the state that it has reached.

use crate::board::{Area, DriverNumber, DriverPlace, ProcessIndex, SlotKind, FLASH, MEMORY};
use crate::limits::{MAX_DRIVERS, MAX_SLOTS};
use crate::random::Random;
use crate::state::{Activity, Buffer, Machine, Pair, Slot, Upcall};
use crate::step::{Answer, Refusal, Step};
use crate::trace::{write_board, write_step};
use crate::variant::Registers;

/// Bytes that the fetches of one trace give together, at most; it keeps the
/// outputs small.
const FETCH_BUDGET: u32 = 40_000;

/// One process's slot at one driver.
#[derive(Clone, Copy, Debug, PartialEq, Eq)]
pub struct SlotPlace {
    pub process: ProcessIndex,
    pub driver: DriverPlace,
    pub slot: u32,
}

pub struct Script {
    pub random: Random,
    pub machine: Machine,
    trace: Vec<u8>,
    fetch_budget: u32,
    /// Memory addresses that a step has written, to be looked at later.
    touched: Vec<u32>,
    /// Whether calls are left out after which no process could ever run.
    goes_on: bool,
}

// Building the trace.
impl Script {
    /// A trace that begins with this good board.
    pub fn new(mut random: Random, words: &[u32]) -> Script {
        let machine = Machine::start(words).expect("a script needs a good board");
        let mut trace = Vec::new();
        write_board(&mut trace, words);
        // Now and then a fetch may give a whole image.
        let fetch_budget = if random.one_in(16) { 2 * FETCH_BUDGET } else { FETCH_BUDGET };
        let goes_on = !random.one_in(12);
        Script { random, machine, trace, fetch_budget, touched: Vec::new(), goes_on }
    }

    /// The same script, which certainly goes on as long as it is asked to.
    pub fn going_on(mut self) -> Script {
        self.goes_on = true;
        self
    }

    pub fn into_trace(self) -> Vec<u8> {
        self.trace
    }

    pub fn length(&self) -> usize {
        self.trace.len()
    }

    pub fn push(&mut self, step: Step) -> Result<Answer, Refusal> {
        write_step(&mut self.trace, step);
        self.machine.step(step)
    }

    pub fn call(&mut self, process: ProcessIndex, class: u8, registers: Registers) {
        if self.goes_on && self.would_end(process, class, registers) {
            return;
        }
        let _ = self.push(Step::Call { process, class, registers });
    }

    /// Whether the call would stop the last process that can act.
    fn would_end(&self, process: ProcessIndex, class: u8, registers: Registers) -> bool {
        let stops = match (class, registers[0]) {
            (0, 1) => !self.can_be_woken(process),
            (6, 0) => true,
            _ => false,
        };
        stops && !self.machine.indices().any(|other| other != process && self.can_act(other))
    }

    fn can_act(&self, process: ProcessIndex) -> bool {
        match self.activity(process) {
            Activity::Running => true,
            Activity::Waiting => self.can_be_woken(process),
            Activity::Exited => false,
        }
    }

    /// An upcall is queued, or one can be.
    fn can_be_woken(&self, process: ProcessIndex) -> bool {
        let Some(record) = self.machine.processes.get(process.place()) else {
            return false;
        };
        let mut slots = self.machine.slots_of(SlotKind::Subscribe);
        !record.queue.is_empty() || slots.any(|slot| !Upcall::from(record.pair(slot)).is_null())
    }

    /// A call of classes 1, 3 or 4 that names an existing slot.
    pub fn slot_call(&mut self, kind: SlotKind, place: SlotPlace, values: [u32; 2]) {
        let class = match kind {
            SlotKind::Subscribe => 1,
            SlotKind::ReadWrite => 3,
            SlotKind::ReadOnly => 4,
        };
        let number = self.driver_number(place.driver).0;
        self.call(place.process, class, [number, place.slot, values[0], values[1]]);
    }

    pub fn subscribe(&mut self, place: SlotPlace, pointer: u32) {
        let data = self.value();
        self.slot_call(SlotKind::Subscribe, place, [pointer, data]);
    }

    pub fn allow(&mut self, access: SlotKind, place: SlotPlace, buffer: Buffer) {
        self.slot_call(access, place, [buffer.address, buffer.size]);
    }

    pub fn event(&mut self, place: SlotPlace) {
        let driver = self.driver_number(place.driver);
        self.event_by_number(place.process, driver, place.slot);
    }

    pub fn event_by_number(&mut self, process: ProcessIndex, driver: DriverNumber, slot: u32) {
        let arguments = [(); 3].map(|()| self.value());
        let _ = self.push(Step::Event { process, driver, slot, arguments });
    }

    pub fn resume(&mut self, process: ProcessIndex) {
        let _ = self.push(Step::Resume { process });
    }

    pub fn deposit(
        &mut self,
        process: ProcessIndex,
        driver: DriverNumber,
        slot: u32,
        offset: u32,
        length: u32,
    ) {
        let bytes = self.random.bytes(length as usize);
        let step = Step::Deposit { process, driver, slot, offset, bytes: &bytes };
        if self.push(step).is_ok() {
            if let Ok(held) = self.machine.held(process, driver, SlotKind::ReadWrite, slot) {
                self.touch(held.address.wrapping_add(offset));
                self.touch(held.address.wrapping_add(offset).wrapping_add(length));
            }
        }
    }

    /// A fetch, left out if its bytes would be too many for this trace.
    pub fn fetch(
        &mut self,
        process: ProcessIndex,
        driver: DriverNumber,
        slot: u32,
        offset: u32,
        length: u32,
    ) {
        let accepted = self.machine.fetch(process, driver, slot, offset, length).is_ok();
        if accepted {
            let Some(left) = self.fetch_budget.checked_sub(length) else {
                return;
            };
            self.fetch_budget = left;
        }
        let _ = self.push(Step::Fetch { process, driver, slot, offset, length });
    }

    pub fn latch(&mut self, driver: DriverNumber, value: u32) {
        let _ = self.push(Step::Latch { driver, peak: value as i32 });
    }

    pub fn yield_no_wait(&mut self, process: ProcessIndex, field: u32) {
        self.call(process, 0, [0, field, 0, 0]);
        self.touch(field);
    }

    pub fn yield_wait(&mut self, process: ProcessIndex) {
        self.call(process, 0, [1, 0, 0, 0]);
    }

    /// Delivers one queued upcall, one way or another.
    pub fn take_upcall(&mut self, process: ProcessIndex) {
        if self.activity(process) == Activity::Waiting {
            self.resume(process);
        } else if self.random.one_in(2) {
            self.yield_wait(process);
        } else {
            let field = self.any_address(process);
            self.yield_no_wait(process, field);
        }
    }

    fn touch(&mut self, address: u32) {
        if MEMORY.contains(address) {
            self.touched.push(address);
        }
    }

    /// Some touched address in the process's accessible RAM.
    pub fn touched_address(&mut self, process: ProcessIndex) -> Option<u32> {
        let ram = self.machine.accessible_ram(process);
        let own: Vec<u32> = self.touched.iter().copied().filter(|&a| ram.contains(a)).collect();
        self.random.pick_any(&own)
    }
}

// What the state holds.
impl Script {
    pub fn processes(&self) -> Vec<ProcessIndex> {
        self.machine.indices().collect()
    }

    pub fn activity(&self, process: ProcessIndex) -> Activity {
        self.machine.processes[process.place()].activity
    }

    pub fn is_running(&self, process: ProcessIndex) -> bool {
        self.activity(process) == Activity::Running
    }

    pub fn is_live(&self, process: ProcessIndex) -> bool {
        self.activity(process) != Activity::Exited
    }

    pub fn queued(&self, process: ProcessIndex) -> usize {
        self.machine.processes[process.place()].queue.len()
    }

    pub fn app_break(&self, process: ProcessIndex) -> u32 {
        self.machine.processes[process.place()].app_break
    }

    pub fn driver_number(&self, driver: DriverPlace) -> DriverNumber {
        self.machine.board.drivers()[driver.0].number
    }

    /// What the slot holds.
    pub fn pair(&self, kind: SlotKind, place: SlotPlace) -> Pair {
        let slot = Slot { kind, driver: place.driver, number: place.slot };
        self.machine.processes[place.process.place()].pair(slot)
    }

    pub fn upcall(&self, place: SlotPlace) -> Upcall {
        self.pair(SlotKind::Subscribe, place).into()
    }

    pub fn buffer(&self, access: SlotKind, place: SlotPlace) -> Buffer {
        self.pair(access, place).into()
    }

    pub fn permits(&self, place: SlotPlace) -> bool {
        self.machine.process_board(place.process).permits(place.driver)
    }

    /// A running process may use the slot.
    pub fn is_usable(&self, place: SlotPlace) -> bool {
        self.is_running(place.process) && self.permits(place)
    }

    /// An event on the slot would be taken, if the queue has room.
    pub fn is_subscribed(&self, place: SlotPlace) -> bool {
        self.is_live(place.process) && !self.upcall(place).is_null()
    }
}

// Choosing from what the state holds.
impl Script {
    pub fn pick_process(
        &mut self,
        wanted: impl Fn(&Script, ProcessIndex) -> bool,
    ) -> Option<ProcessIndex> {
        let mut processes = self.processes();
        processes.retain(|&process| wanted(self, process));
        self.random.pick_any(&processes)
    }

    /// Every slot of a kind.
    pub fn slots(&self, kind: SlotKind) -> Vec<SlotPlace> {
        let mut places = Vec::new();
        for process in self.machine.indices() {
            let slots = self.machine.slots_of(kind);
            places.extend(slots.map(|Slot { driver, number, .. }| SlotPlace {
                process,
                driver,
                slot: number,
            }));
        }
        places
    }

    pub fn pick_slot(
        &mut self,
        kind: SlotKind,
        wanted: impl Fn(&Script, SlotPlace) -> bool,
    ) -> Option<SlotPlace> {
        let mut places = self.slots(kind);
        places.retain(|&place| wanted(self, place));
        self.random.pick_any(&places)
    }

    /// A running process, and an installed driver that it may not call.
    pub fn pick_denied(&mut self) -> Option<(ProcessIndex, DriverNumber)> {
        let mut denied = Vec::new();
        for process in self.machine.indices().filter(|&process| self.is_running(process)) {
            let board = self.machine.process_board(process);
            let drivers = self.machine.board.drivers().iter().enumerate();
            let drivers = drivers.filter(|&(place, _)| !board.permits(DriverPlace(place)));
            denied.extend(drivers.map(|(_, driver)| (process, driver.number)));
        }
        self.random.pick_any(&denied)
    }

    pub fn pick_access(&mut self) -> SlotKind {
        self.random.pick(&[SlotKind::ReadWrite, SlotKind::ReadOnly])
    }

    /// Any process index, now and then one that is not on the board.
    pub fn any_process(&mut self) -> ProcessIndex {
        let count = self.machine.processes.len() as u32;
        ProcessIndex(match self.random.below(12) {
            0 => count,
            1 => self.random.pick(&[count + 1, 0x100, 0x8000_0000, u32::MAX]),
            _ => self.random.within(0..=count - 1),
        })
    }

    /// Mostly an installed driver.
    pub fn any_driver(&mut self) -> DriverNumber {
        let numbers: Vec<u32> =
            self.machine.board.drivers().iter().map(|driver| driver.number.0).collect();
        let installed = self.random.pick_any(&numbers).unwrap_or(0);
        DriverNumber(match self.random.below(10) {
            0 => installed.wrapping_add(1),
            1 => self.random.within(0..=MAX_DRIVERS as u32 + 4),
            2 => self.random.pick(&[u32::MAX, 0x9_0000, 0x8000_0000]),
            _ => installed,
        })
    }

    pub fn any_slot(&mut self) -> u32 {
        match self.random.below(12) {
            0 => MAX_SLOTS,
            1 => self.random.pick(&[MAX_SLOTS + 1, 0x100, 0x8000_0000, u32::MAX]),
            _ => self.random.within(0..=MAX_SLOTS - 1),
        }
    }

    /// A word for arguments, data and codes.
    pub fn value(&mut self) -> u32 {
        match self.random.below(4) {
            0 => self.random.word(),
            1 => self.random.pick(&[0, 1, 127, 128, 0x7FFF_FFFF, 0x8000_0000, u32::MAX]),
            _ => self.random.within(0..=300),
        }
    }

    /// A pointer that a subscribe takes, other than 0.
    pub fn good_pointer(&mut self, process: ProcessIndex) -> u32 {
        let Area { start, end } = self.machine.process_board(process).flash;
        match self.random.below(6) {
            0 => start,
            1 => end - 1,
            _ => self.random.within(start..=end - 1),
        }
    }

    /// A pointer that a subscribe of this process does not take.
    pub fn bad_pointer(&mut self, process: ProcessIndex) -> u32 {
        let flash = self.machine.process_board(process).flash;
        let beside = self.random.pick(&[flash.start - 1, flash.end]);
        match self.random.below(3) {
            0 => beside,
            1 => self.random.pick(&[1, u32::MAX, MEMORY.start, FLASH.end]),
            // Another process's flash, if there is one.
            _ => self
                .pick_process(|_, other| other != process)
                .map_or(beside, |other| self.machine.process_board(other).flash.start),
        }
    }

    pub fn any_pointer(&mut self, process: ProcessIndex) -> u32 {
        match self.random.below(4) {
            0 => 0,
            1 => self.bad_pointer(process),
            _ => self.good_pointer(process),
        }
    }

    /// A buffer that an allow takes.
    pub fn good_buffer(&mut self, process: ProcessIndex, access: SlotKind) -> Buffer {
        let ram = self.machine.accessible_ram(process);
        let flash = self.machine.process_board(process).flash;
        let area = match access {
            SlotKind::ReadOnly if self.random.one_in(3) => flash,
            _ => ram,
        };
        if area.start == area.end || self.random.one_in(10) {
            return Buffer { address: self.any_address(process), size: 0 };
        }
        self.buffer_inside(area)
    }

    /// A non-empty buffer inside the area, often reaching one of its ends.
    fn buffer_inside(&mut self, area: Area) -> Buffer {
        let near = area.end - area.start.max(area.end.saturating_sub(64));
        let first = match self.random.below(5) {
            0 => area.start,
            1 => area.end - 1,
            2 => area.end - near,
            _ => self.random.within(area.start..=area.end - 1),
        };
        let most = area.end - first;
        let size = match self.random.below(5) {
            0 => most,
            1 => 1,
            2 => self.random.within(1..=most),
            _ => self.random.within(1..=most.min(64)),
        };
        Buffer { address: first, size }
    }

    /// Every address at which something begins or ends for this process.
    pub fn edges(&self, process: ProcessIndex) -> Vec<u32> {
        let board = self.machine.process_board(process);
        let mut edges = vec![0, 0x8000_0000, MEMORY.start, MEMORY.end, FLASH.start, FLASH.end];
        edges.extend([board.ram.start, board.ram.end, board.flash.start, board.flash.end]);
        edges.extend([board.grant_start, board.first_break, self.app_break(process)]);
        edges.extend(self.buffer_ends(process));
        edges
    }

    /// Where the non-empty held buffers begin and end.
    fn buffer_ends(&self, process: ProcessIndex) -> Vec<u32> {
        self.machine.processes[process.place()]
            .held_buffers()
            .filter(|held| !held.is_empty())
            .flat_map(|held| [held.address, held.address + held.size])
            .collect()
    }

    /// An edge or an address next to one.
    pub fn edge(&mut self, process: ProcessIndex) -> u32 {
        let edges = self.edges(process);
        let edge = self.random.pick(&edges);
        edge.wrapping_add(self.random.pick(&[0, 0, 1, u32::MAX]))
    }

    /// An address in accessible RAM if there is any, mostly; else any edge.
    pub fn any_address(&mut self, process: ProcessIndex) -> u32 {
        let ram = self.machine.accessible_ram(process);
        match self.random.below(8) {
            0 => self.random.pick(&[0, u32::MAX, ram.end]),
            1 | 2 => self.edge(process),
            _ if ram.start == ram.end => ram.start,
            3 => ram.end - 1,
            4 => ram.start,
            _ => self.random.within(ram.start..=ram.end - 1),
        }
    }

    /// A buffer at an edge whose end is at an edge too, taken modulo 2^32.
    pub fn edge_buffer(&mut self, process: ProcessIndex) -> Buffer {
        let address = self.edge(process);
        let size = match self.random.below(5) {
            0 => self.random.within(0..=2),
            1 => self.random.pick(&[u32::MAX, 0x8000_0000, 0xFFFF, 0x1_0000, 0x1_0001]),
            _ => self.edge(process).wrapping_sub(address),
        };
        Buffer { address, size }
    }

    /// Offset and length at or next to the end of a held buffer.
    pub fn edge_part(&mut self, size: u32) -> (u32, u32) {
        let ends = [0, 1, size / 2, size.saturating_sub(1), size, size.wrapping_add(1)];
        let offset = match self.random.below(8) {
            0 => self.random.pick(&[u32::MAX, 0x8000_0000, 0_u32.wrapping_sub(size)]),
            _ => self.random.pick(&ends),
        };
        let left = size.saturating_sub(offset);
        let length = match self.random.below(6) {
            0 => 0,
            1 => left.wrapping_add(1),
            2 => left.saturating_sub(1),
            3 => size.wrapping_sub(offset),
            4 => self.random.within(0..=left),
            _ => left,
        };
        (offset, length)
    }
}

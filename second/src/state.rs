//! What is kept between steps: processes with their slots and queues, the
//! claims on shared drivers, and the two images.

use std::collections::VecDeque;

use crate::board::{
    Area, Board, BufferArea, DriverBoard, DriverPlace, ProcessBoard, ProcessIndex, SlotKind, FLASH,
    MEMORY, SLOT_KINDS,
};
use crate::limits::{IMAGE_SIZE, MAX_DRIVERS, MAX_SLOTS};
use crate::step::Refusal;

pub use crate::limits::QUEUE_CAPACITY;

/// What a slot holds: an upcall's pointer and data, or a buffer's address and
/// size. A fresh slot of any kind holds (0, 0).
pub type Pair = [u32; 2];

/// What a subscribe slot holds. Pointer 0 is the Null Upcall.
#[derive(Clone, Copy, Debug, Default, PartialEq, Eq)]
pub struct Upcall {
    pub pointer: u32,
    pub data: u32,
}

impl Upcall {
    pub fn is_null(self) -> bool {
        self.pointer == 0
    }
}

impl From<Pair> for Upcall {
    fn from([pointer, data]: Pair) -> Upcall {
        Upcall { pointer, data }
    }
}

/// What an allow slot holds. A buffer of size 0 may have any address.
#[derive(Clone, Copy, Debug, Default, PartialEq, Eq)]
pub struct Buffer {
    pub address: u32,
    pub size: u32,
}

impl Buffer {
    pub fn is_empty(self) -> bool {
        self.size == 0
    }

    /// The address after the last byte, exact.
    pub fn end(self) -> u64 {
        u64::from(self.address) + u64::from(self.size)
    }
}

impl From<Pair> for Buffer {
    fn from([address, size]: Pair) -> Buffer {
        Buffer { address, size }
    }
}

/// A slot of a process: a kind, a driver and a number that the driver has.
#[derive(Clone, Copy, Debug, PartialEq, Eq)]
pub struct Slot {
    pub kind: SlotKind,
    pub driver: DriverPlace,
    pub number: u32,
}

/// An upcall that waits for delivery. It keeps the pointer and data that its
/// slot held when the event was taken.
#[derive(Clone, Copy, Debug, PartialEq, Eq)]
pub struct QueuedUpcall {
    pub driver: DriverPlace,
    pub slot: u32,
    pub arguments: [u32; 3],
    pub upcall: Upcall,
}

#[derive(Clone, Copy, Debug, PartialEq, Eq)]
pub enum Activity {
    Running,
    Waiting,
    Exited,
}

/// A process: what the board says of it, and what steps change.
#[derive(Clone, Debug, PartialEq, Eq)]
pub struct Process {
    pub board: ProcessBoard,
    pub activity: Activity,
    /// The break: accessible RAM ends before it.
    pub app_break: u32,
    /// By kind, driver and number. Those that the board does not have stay
    /// (0, 0).
    slots: [[[Pair; MAX_SLOTS as usize]; MAX_DRIVERS]; SLOT_KINDS],
    pub queue: VecDeque<QueuedUpcall>,
}

impl Process {
    fn fresh(board: ProcessBoard) -> Process {
        Process {
            board,
            activity: Activity::Running,
            app_break: board.first_break,
            slots: Default::default(),
            queue: VecDeque::with_capacity(QUEUE_CAPACITY),
        }
    }

    /// What an exit leaves of it, whichever way it exits: a fresh one.
    pub fn clear(&mut self) {
        *self = Process::fresh(self.board);
    }

    /// What a slot holds.
    #[inline(always)]
    pub fn pair(&self, slot: Slot) -> Pair {
        self.slots[slot.kind as usize][slot.driver.0][slot.number as usize]
    }

    #[inline(always)]
    pub fn pair_mut(&mut self, slot: Slot) -> &mut Pair {
        &mut self.slots[slot.kind as usize][slot.driver.0][slot.number as usize]
    }

    /// [S, break)
    #[inline(always)]
    pub fn accessible_ram(&self) -> Area {
        Area { end: self.app_break, ..self.board.ram }
    }

    /// Where a buffer lies.
    #[inline(always)]
    pub fn area_of(&self, Buffer { address, size }: Buffer) -> BufferArea {
        self.board.area_of(self.app_break, [address, size])
    }

    /// Whether a slot of this kind may hold the pair.
    #[inline(always)]
    pub fn accepts(&self, kind: SlotKind, pair: Pair) -> bool {
        self.board.accepts(self.app_break, kind, pair)
    }

    /// Removes the queued upcalls of one slot; the others keep their order.
    /// Slots of other drivers may have the same number.
    pub fn cancel(&mut self, driver: DriverPlace, slot: u32) {
        self.queue.retain(|queued| (queued.driver, queued.slot) != (driver, slot));
    }

    /// Every held buffer, read-write and read-only, driver by driver.
    pub fn held_buffers(&self) -> impl Iterator<Item = Buffer> + '_ {
        let [_, read_write, read_only] = &self.slots;
        let pairs = read_write.iter().zip(read_only).flat_map(|(rw, ro)| rw.iter().chain(ro));
        pairs.map(|&pair| Buffer::from(pair))
    }
}

/// What changes about a driver: who has claimed it, and its latch.
#[derive(Clone, Copy, Debug, Default, PartialEq, Eq)]
pub struct DriverState {
    pub owner: Option<ProcessIndex>,
    /// A signed peak.
    pub latch: i32,
}

/// Everything that a step reads or writes.
#[derive(Clone, Debug, PartialEq, Eq)]
pub struct Machine {
    pub board: Board,
    pub processes: Vec<Process>,
    /// In board order.
    pub drivers: Vec<DriverState>,
    pub memory: Vec<u8>,
    pub flash: Vec<u8>,
}

impl Machine {
    /// The start: a fresh state on a good board, with images of zeros.
    pub fn start(words: &[u32]) -> Result<Machine, Refusal> {
        let board = Board::from_words(words).ok_or(Refusal::BoardNotGood)?;
        Ok(Machine {
            processes: board.processes().iter().copied().map(Process::fresh).collect(),
            drivers: vec![DriverState::default(); board.drivers().len()],
            memory: vec![0; IMAGE_SIZE],
            flash: vec![0; IMAGE_SIZE],
            board,
        })
    }

    /// What the board says of a process that exists.
    pub fn process_board(&self, process: ProcessIndex) -> &ProcessBoard {
        &self.processes[process.place()].board
    }

    /// [S, break) of a process that exists.
    pub fn accessible_ram(&self, process: ProcessIndex) -> Area {
        self.processes[process.place()].accessible_ram()
    }

    /// Well formed as document 01 says, for a state instead of a table. Every
    /// step keeps it; the tests ask.
    pub fn is_well_formed(&self) -> bool {
        self.processes.iter().all(|process| self.has_well_formed_state(process))
            && self.board.drivers().iter().zip(&self.drivers).all(|(board, state)| {
                match (board.shared, state.owner) {
                    (true, owner) => owner.is_none_or(|owner| self.may_own(owner, board)),
                    (false, owner) => owner.is_none() && state.latch == 0,
                }
            })
    }

    /// Every process index of the board.
    pub fn indices(&self) -> impl Iterator<Item = ProcessIndex> {
        (0..self.processes.len() as u32).map(ProcessIndex)
    }

    /// Every slot that the board's drivers have.
    pub fn slots(&self) -> impl Iterator<Item = Slot> + '_ {
        SlotKind::ALL.into_iter().flat_map(|kind| self.slots_of(kind))
    }

    /// Every slot of this kind that the board's drivers have.
    pub fn slots_of(&self, kind: SlotKind) -> impl Iterator<Item = Slot> + '_ {
        self.board.drivers().iter().enumerate().flat_map(move |(place, driver)| {
            let driver_place = DriverPlace(place);
            (0..driver.slots(kind)).map(move |number| Slot { kind, driver: driver_place, number })
        })
    }

    fn may_own(&self, owner: ProcessIndex, driver: &DriverBoard) -> bool {
        let Some(process) = self.processes.get(owner.place()) else {
            return false;
        };
        let place = self.board.find_driver(driver.number);
        process.activity != Activity::Exited
            && place.is_some_and(|place| process.board.permits(place))
    }

    fn has_well_formed_state(&self, process: &Process) -> bool {
        process.board.ram.start <= process.app_break
            && process.app_break <= process.board.grant_start
            && self.slots().all(|slot| process.accepts(slot.kind, process.pair(slot)))
            && process.queue.len() <= QUEUE_CAPACITY
            && process.queue.iter().all(|queued| self.is_well_formed_entry(process, queued))
            && (process.activity != Activity::Exited || is_cleared(process))
    }

    /// The entry names an existing slot and carries what that slot holds.
    fn is_well_formed_entry(&self, process: &Process, queued: &QueuedUpcall) -> bool {
        let &QueuedUpcall { driver, slot: number, upcall, .. } = queued;
        let slot = Slot { kind: SlotKind::Subscribe, driver, number };
        let exists = self.slots_of(SlotKind::Subscribe).any(|other| other == slot);
        exists && !upcall.is_null() && Upcall::from(process.pair(slot)) == upcall
    }
}

fn is_cleared(process: &Process) -> bool {
    let cleared = Process { activity: process.activity, ..Process::fresh(process.board) };
    *process == cleared
}

/// Where an address stands in the memory image. Only for addresses in it.
pub fn memory_place(address: u32) -> usize {
    (address - MEMORY.start) as usize
}

/// Where an address stands in the flash image. Only for addresses in it.
pub fn flash_place(address: u32) -> usize {
    (address - FLASH.start) as usize
}

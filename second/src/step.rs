//! The steps, their answers and their refusals. Calls are in `call`.

use crate::board::{BufferArea, DriverNumber, DriverPlace, ProcessIndex, SlotKind};
use crate::limits::QUEUE_CAPACITY;
use crate::state::{
    flash_place, memory_place, Activity, Buffer, Machine, Process, QueuedUpcall, Slot, Upcall,
};
use crate::variant::{Registers, ReturnVariant};

/// A step after the start. A deposit's bytes are a part of the trace.
#[derive(Clone, Copy, Debug, PartialEq, Eq)]
pub enum Step<'a> {
    Call { process: ProcessIndex, class: u8, registers: Registers },
    Event { process: ProcessIndex, driver: DriverNumber, slot: u32, arguments: [u32; 3] },
    Resume { process: ProcessIndex },
    Deposit { process: ProcessIndex, driver: DriverNumber, slot: u32, offset: u32, bytes: &'a [u8] },
    Fetch { process: ProcessIndex, driver: DriverNumber, slot: u32, offset: u32, length: u32 },
    Latch { driver: DriverNumber, peak: i32 },
}

impl Step<'_> {
    /// The process that the step names. A latch names none.
    pub fn process(&self) -> Option<ProcessIndex> {
        match *self {
            Step::Call { process, .. }
            | Step::Event { process, .. }
            | Step::Resume { process }
            | Step::Deposit { process, .. }
            | Step::Fetch { process, .. } => Some(process),
            Step::Latch { .. } => None,
        }
    }
}

/// Refusals by number. 1 and 2 (a lent image or table that is not right) have
/// no place here: this program lends nothing.
#[derive(Clone, Copy, Debug, PartialEq, Eq)]
pub enum Refusal {
    NoSuchProcess = 3,
    ProcessExited = 4,
    CallWhileWaiting = 5,
    ResumeWhileRunning = 6,
    DriverNotInstalled = 7,
    NoSuchSlot = 8,
    BeyondHeldSize = 9,
    QueueFull = 10,
    NullUpcall = 11,
    NotShared = 12,
    BoardNotGood = 13,
}

/// What an accepted step gives.
#[derive(Clone, Copy, Debug, PartialEq, Eq)]
pub enum Answer {
    Returned(ReturnVariant),
    /// A delivery: the upcall's pointer and its four registers.
    Delivered {
        pointer: u32,
        registers: Registers,
    },
    Waiting,
    Nothing,
    Exited {
        code: u32,
    },
    Restarted {
        code: u32,
    },
    EventTaken,
    Deposited,
    Latched,
    Fetched(Part),
}

#[derive(Clone, Copy, Debug, PartialEq, Eq)]
pub enum Image {
    Memory,
    Flash,
}

/// A part of one of the two images.
#[derive(Clone, Copy, Debug, PartialEq, Eq)]
pub struct Part {
    pub image: Image,
    pub start: usize,
    pub length: usize,
}

impl Part {
    /// What a fetch of length 0 hands back: it touches no address.
    pub const EMPTY: Part = Part { image: Image::Memory, start: 0, length: 0 };

    /// A non-empty part of a held buffer that lies there, already known to lie
    /// inside it.
    fn of(held: Buffer, area: BufferArea, offset: u32, length: u32) -> Part {
        let address = held.address + offset;
        let (image, start) = match area {
            BufferArea::Flash => (Image::Flash, flash_place(address)),
            _ => (Image::Memory, memory_place(address)),
        };
        Part { image, start, length: length as usize }
    }
}

impl Machine {
    /// One step. A refusal changes nothing.
    pub fn step(&mut self, step: Step) -> Result<Answer, Refusal> {
        match step {
            Step::Call { process, class, registers } => self.call(process, class, registers),
            Step::Event { process, driver, slot, arguments } => {
                self.event(process, driver, slot, arguments)
            }
            Step::Resume { process } => self.resume(process),
            Step::Deposit { process, driver, slot, offset, bytes } => {
                self.deposit(process, driver, slot, offset, bytes)
            }
            Step::Fetch { process, driver, slot, offset, length } => {
                self.fetch(process, driver, slot, offset, length)
            }
            Step::Latch { driver, peak } => self.latch(driver, peak),
        }
    }

    /// Queues an upcall. Refused in the order 3, 4, 7, 8, 11, 10.
    pub fn event(
        &mut self,
        process: ProcessIndex,
        driver: DriverNumber,
        slot: u32,
        arguments: [u32; 3],
    ) -> Result<Answer, Refusal> {
        self.not_exited(process)?;
        let named = self.existing(SlotKind::Subscribe, driver, slot)?;
        let record = &mut self.processes[process.place()];
        let upcall = Upcall::from(record.pair(named));
        if upcall.is_null() {
            return Err(Refusal::NullUpcall);
        }
        if record.queue.len() == QUEUE_CAPACITY {
            return Err(Refusal::QueueFull);
        }
        record.queue.push_back(QueuedUpcall { driver: named.driver, slot, arguments, upcall });
        Ok(Answer::EventTaken)
    }

    /// Delivers to a waiting process. Refused in the order 3, 4, 6.
    pub fn resume(&mut self, process: ProcessIndex) -> Result<Answer, Refusal> {
        if self.not_exited(process)?.activity == Activity::Running {
            return Err(Refusal::ResumeWhileRunning);
        }
        Ok(self.processes[process.place()].deliver_or_wait())
    }

    /// Writes into a held read-write buffer. Refused in the order 3, 4, 7, 8, 9.
    pub fn deposit(
        &mut self,
        process: ProcessIndex,
        driver: DriverNumber,
        slot: u32,
        offset: u32,
        bytes: &[u8],
    ) -> Result<Answer, Refusal> {
        let held = self.held(process, driver, SlotKind::ReadWrite, slot)?;
        check_within(held, offset, bytes.len() as u64)?;
        // An empty deposit touches no address: the buffer's may be outside the image.
        if !bytes.is_empty() {
            let start = memory_place(held.address + offset);
            self.memory[start..start + bytes.len()].copy_from_slice(bytes);
        }
        Ok(Answer::Deposited)
    }

    /// Reads a held read-only buffer. Refused in the order 3, 4, 7, 8, 9.
    pub fn fetch(
        &self,
        process: ProcessIndex,
        driver: DriverNumber,
        slot: u32,
        offset: u32,
        length: u32,
    ) -> Result<Answer, Refusal> {
        let held = self.held(process, driver, SlotKind::ReadOnly, slot)?;
        check_within(held, offset, u64::from(length))?;
        if length == 0 {
            return Ok(Answer::Fetched(Part::EMPTY));
        }
        let area = self.processes[process.place()].area_of(held);
        Ok(Answer::Fetched(Part::of(held, area, offset, length)))
    }

    /// Stores a shared driver's value. Refused in the order 7, 12.
    pub fn latch(&mut self, driver: DriverNumber, peak: i32) -> Result<Answer, Refusal> {
        let driver = self.installed(driver)?;
        if !self.board.drivers()[driver.0].shared {
            return Err(Refusal::NotShared);
        }
        self.drivers[driver.0].latch = peak;
        Ok(Answer::Latched)
    }

    /// The bytes of a part that a fetch handed back.
    pub fn bytes(&self, part: Part) -> &[u8] {
        let image = match part.image {
            Image::Memory => &self.memory,
            Image::Flash => &self.flash,
        };
        &image[part.start..part.start + part.length]
    }

    /// Refusals 3 and 4.
    #[inline(always)]
    pub(crate) fn not_exited(&self, process: ProcessIndex) -> Result<&Process, Refusal> {
        let record = self.processes.get(process.place()).ok_or(Refusal::NoSuchProcess)?;
        match record.activity {
            Activity::Exited => Err(Refusal::ProcessExited),
            Activity::Running | Activity::Waiting => Ok(record),
        }
    }

    /// Refusal 7. Drivers' own steps do not look at the permission mask.
    fn installed(&self, driver: DriverNumber) -> Result<DriverPlace, Refusal> {
        self.board.find_driver(driver).ok_or(Refusal::DriverNotInstalled)
    }

    /// The slot that a step names: refusals 7 and 8.
    fn existing(&self, kind: SlotKind, driver: DriverNumber, number: u32) -> Result<Slot, Refusal> {
        let driver = self.installed(driver)?;
        if number >= self.board.drivers()[driver.0].slots(kind) {
            return Err(Refusal::NoSuchSlot);
        }
        Ok(Slot { kind, driver, number })
    }

    /// The held buffer that a deposit or fetch names: refusals 3, 4, 7, 8.
    pub(crate) fn held(
        &self,
        process: ProcessIndex,
        driver: DriverNumber,
        kind: SlotKind,
        slot: u32,
    ) -> Result<Buffer, Refusal> {
        let record = self.not_exited(process)?;
        let slot = self.existing(kind, driver, slot)?;
        Ok(record.pair(slot).into())
    }
}

impl Process {
    /// Removes the first queued upcall and gives it to the process.
    #[inline(always)]
    pub(crate) fn deliver(&mut self) -> Option<Answer> {
        let QueuedUpcall { arguments, upcall, .. } = self.queue.pop_front()?;
        let [argument0, argument1, argument2] = arguments;
        Some(Answer::Delivered {
            pointer: upcall.pointer,
            registers: [argument0, argument1, argument2, upcall.data],
        })
    }

    /// What yield-wait and resume share: after a delivery the process runs,
    /// with an empty queue it waits.
    pub(crate) fn deliver_or_wait(&mut self) -> Answer {
        match self.deliver() {
            Some(delivered) => {
                self.activity = Activity::Running;
                delivered
            }
            None => {
                self.activity = Activity::Waiting;
                Answer::Waiting
            }
        }
    }
}

/// Refusal 9, the sum taken exactly.
fn check_within(held: Buffer, offset: u32, length: u64) -> Result<(), Refusal> {
    if u64::from(offset) + length <= u64::from(held.size) {
        Ok(())
    } else {
        Err(Refusal::BeyondHeldSize)
    }
}

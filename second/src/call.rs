//! The seven call classes.

use crate::board::{
    Board, BufferArea, DriverNumber, DriverPlace, ProcessBoard, ProcessIndex, SlotKind,
};
use crate::limits::IMAGE_SIZE;
use crate::state::{Activity, DriverState, Machine, Pair, Process, Slot};
use crate::step::{Answer, Refusal};
use crate::variant::{ErrorCode, Registers, ReturnVariant};

use ErrorCode::{Invalid, NoDevice, NoMem, NoSupport, Reserve};
use ReturnVariant::{Failure, FailureWith2U32, Success, SuccessWith2U32, SuccessWithU32};

/// The kind of slot that classes 1, 3 and 4 are about, by class. A table, as a
/// choice between the three could not be guessed.
const KIND_OF_CLASS: [SlotKind; 5] = {
    use SlotKind::{ReadOnly, ReadWrite, Subscribe};
    [Subscribe, Subscribe, Subscribe, ReadWrite, ReadOnly]
};

/// What takes the outcome of a call.
pub trait TakesOutcome {
    type Taken;

    fn take(self, outcome: Result<Answer, Refusal>) -> Self::Taken;
}

/// Gets the outcome as it is.
struct Caller;

impl TakesOutcome for Caller {
    type Taken = Result<Answer, Refusal>;

    fn take(self, outcome: Result<Answer, Refusal>) -> Self::Taken {
        outcome
    }
}

impl Machine {
    /// A call. Refused in the order 3, 4, 5; only then is the register set read.
    pub fn call(
        &mut self,
        process: ProcessIndex,
        class: u8,
        registers: Registers,
    ) -> Result<Answer, Refusal> {
        self.call_for(process, class, registers, Caller)
    }

    /// A call whose outcome is handed over. The frequent classes do so each in
    /// a place of its own: one choice by class then serves the call and what
    /// is done with its outcome.
    #[inline(always)]
    pub fn call_for<T: TakesOutcome>(
        &mut self,
        process: ProcessIndex,
        class: u8,
        registers: Registers,
        taker: T,
    ) -> T::Taken {
        if let Err(refusal) = self.may_call(process) {
            return taker.take(Err(refusal));
        }
        let record = &mut self.processes[process.place()];
        match class {
            0 => taker.take(Ok(record.yields(registers, &mut self.memory))),
            1 | 3 | 4 => {
                let kind = KIND_OF_CLASS[usize::from(class)];
                taker.take(Ok(Answer::Returned(record.exchange(&self.board, kind, registers))))
            }
            _ => taker.take(Ok(self.other_call(process, class, registers))),
        }
    }

    /// Refusals 3, 4 and 5.
    #[inline(always)]
    fn may_call(&self, process: ProcessIndex) -> Result<(), Refusal> {
        match self.not_exited(process)?.activity {
            Activity::Waiting => Err(Refusal::CallWhileWaiting),
            Activity::Running | Activity::Exited => Ok(()),
        }
    }

    #[inline(never)]
    fn other_call(&mut self, process: ProcessIndex, class: u8, registers: Registers) -> Answer {
        Answer::Returned(match class {
            2 => self.command(process, registers),
            5 => self.processes[process.place()].memop(registers),
            6 => return self.exit(process, registers),
            _ => Failure(NoSupport),
        })
    }

    fn command(&mut self, process: ProcessIndex, [driver, number, ..]: Registers) -> ReturnVariant {
        let Some(driver) = reach(&self.board, self.process_board(process), DriverNumber(driver))
        else {
            return Failure(NoDevice);
        };
        let shared = self.board.drivers()[driver.0].shared;
        let state = &mut self.drivers[driver.0];
        match number {
            0 => Success,
            1 if shared => state.claim(process),
            2 if shared => state.release(process),
            3 if shared => state.read(process),
            _ => Failure(NoSupport),
        }
    }

    /// RAM bytes and latches stay.
    fn exit(&mut self, process: ProcessIndex, [number, code, ..]: Registers) -> Answer {
        let (activity, answer) = match number {
            0 => (Activity::Exited, Answer::Exited { code }),
            1 => (Activity::Running, Answer::Restarted { code }),
            _ => return Answer::Returned(Failure(NoSupport)),
        };
        let record = &mut self.processes[process.place()];
        record.clear();
        record.activity = activity;
        for driver in &mut self.drivers {
            if driver.owner == Some(process) {
                driver.owner = None;
            }
        }
        answer
    }
}

/// The driver that a process calls, where it is to be had. A driver that is
/// denied is as one that is not installed: no class tells them apart.
#[inline(always)]
fn reach(board: &Board, process: &ProcessBoard, number: DriverNumber) -> Option<DriverPlace> {
    board.find_driver(number).filter(|&driver| process.permits(driver))
}

/// The answer to a subscribe or an allow that reaches no driver.
fn unreached(kind: SlotKind, [first, second]: Pair) -> ReturnVariant {
    match kind {
        SlotKind::Subscribe => FailureWith2U32(NoDevice, 0, 0),
        SlotKind::ReadWrite | SlotKind::ReadOnly => FailureWith2U32(NoDevice, first, second),
    }
}

impl Process {
    /// Subscribe and both allows: a pair goes into a slot, and the old one
    /// comes back. A subscribe also cancels what is queued of its slot.
    #[inline(always)]
    fn exchange(
        &mut self,
        board: &Board,
        kind: SlotKind,
        [driver, number, first, second]: Registers,
    ) -> ReturnVariant {
        let Some(driver) = reach(board, &self.board, DriverNumber(driver)) else {
            return unreached(kind, [first, second]);
        };
        if number >= board.drivers()[driver.0].slots(kind) {
            return FailureWith2U32(NoSupport, first, second);
        }
        if !self.accepts(kind, [first, second]) {
            return FailureWith2U32(Invalid, first, second);
        }
        if !self.queue.is_empty() && kind == SlotKind::Subscribe {
            self.cancel(driver, number);
        }
        let held = self.pair_mut(Slot { kind, driver, number });
        let [old_first, old_second] = std::mem::replace(held, [first, second]);
        SuccessWith2U32(old_first, old_second)
    }

    #[inline(always)]
    fn yields(&mut self, [number, field, ..]: Registers, memory: &mut [u8]) -> Answer {
        match number {
            0 => self.yield_no_wait(field, memory),
            1 => self.deliver_or_wait(),
            _ => Answer::Nothing,
        }
    }

    /// The byte at `field` tells whether an upcall came, if the process may
    /// write there. Some byte is written in any case, else with what it held:
    /// whether the field is the process's own could not be guessed.
    #[inline(always)]
    fn yield_no_wait(&mut self, field: u32, memory: &mut [u8]) -> Answer {
        let delivered = self.deliver();
        // The memory image begins at a multiple of its size.
        let byte = &mut memory[field as usize % IMAGE_SIZE];
        let kept = u8::from(self.accessible_ram().contains(field)).wrapping_sub(1);
        *byte = *byte & kept | u8::from(delivered.is_some()) & !kept;
        delivered.unwrap_or(Answer::Nothing)
    }

    fn memop(&mut self, [number, argument, ..]: Registers) -> ReturnVariant {
        match number {
            0 => self.break_to(argument),
            1 => self.break_by(argument as i32),
            2 => SuccessWithU32(self.board.ram.start),
            3 => SuccessWithU32(self.board.ram.end),
            4 => SuccessWithU32(self.board.flash.start),
            5 => SuccessWithU32(self.board.flash.end),
            6 => SuccessWithU32(self.board.grant_start),
            _ => Failure(NoSupport),
        }
    }

    fn break_to(&mut self, to: u32) -> ReturnVariant {
        match self.set_break(i64::from(to)) {
            Some(_) => Success,
            None => Failure(NoMem),
        }
    }

    fn break_by(&mut self, change: i32) -> ReturnVariant {
        match self.set_break(i64::from(self.app_break) + i64::from(change)) {
            Some(old) => SuccessWithU32(old),
            None => Failure(NoMem),
        }
    }

    /// Moves the break and gives the old one, or None and no change.
    fn set_break(&mut self, new: i64) -> Option<u32> {
        let ProcessBoard { ram, grant_start, .. } = self.board;
        let new = u32::try_from(new).ok()?;
        if new < ram.start || grant_start < new {
            return None;
        }
        let blocked = self
            .held_buffers()
            .any(|held| self.area_of(held) == BufferArea::Ram && held.end() > u64::from(new));
        if blocked {
            return None;
        }
        Some(std::mem::replace(&mut self.app_break, new))
    }
}

impl DriverState {
    fn claim(&mut self, process: ProcessIndex) -> ReturnVariant {
        if self.owner.is_some_and(|owner| owner != process) {
            return Failure(Reserve);
        }
        self.owner = Some(process);
        Success
    }

    fn release(&mut self, process: ProcessIndex) -> ReturnVariant {
        if self.owner != Some(process) {
            return Failure(Reserve);
        }
        self.owner = None;
        Success
    }

    fn read(&self, process: ProcessIndex) -> ReturnVariant {
        if self.owner != Some(process) {
            return Failure(Reserve);
        }
        SuccessWithU32(self.latch as u32)
    }
}

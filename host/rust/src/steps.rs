//! The steps, the question and the run over a trace, on what the host owns and lends. An answer is `must_use`, as any step may be refused.

#[cfg(feature = "std")]
use std::{
    io::{self, Write},
    vec,
};

use crate::{
    raw, Answer, Class, Driver, Held, Process, Progress, Refusal, Registers, ANSWER_WORDS,
    BOARD_WORDS, FLASH_BASE, IMAGE_BYTES, MAX_DRIVERS, MAX_PROCESSES, MAX_QUEUED, MAX_SLOTS,
    MEMORY_BASE, RUN_WORDS, TABLE_WORDS,
};

/// Lends six words to a step or a question, and gives what it left there.
fn told(step: impl FnOnce(&mut [u32]) -> bool) -> [u32; ANSWER_WORDS] {
    let mut words = [0; ANSWER_WORDS];
    assert!(step(&mut words), "six words are room enough");
    words
}

fn answer(step: impl FnOnce(&mut [u32]) -> bool) -> Answer {
    Answer::decode(told(step)).expect("the layer tells no other words")
}

/// Whether the library that is linked was built for the limits and sizes of this crate. An older one may stand where the build looks for it;
/// a table of another length than its own is then refused by every step.
///
/// ```
/// assert!(makvluria::sizes_agree());
/// ```
#[must_use]
pub fn sizes_agree() -> bool {
    let sizes = [
        MAX_PROCESSES,
        MAX_DRIVERS,
        MAX_SLOTS,
        MAX_QUEUED,
        TABLE_WORDS,
        BOARD_WORDS,
        IMAGE_BYTES,
        MEMORY_BASE as usize,
        FLASH_BASE as usize,
    ];
    (0..).zip(sizes).all(|(number, size)| raw::size(number) == size as u64)
}

/// Whether the words are a table: the image of a state with a good board.
#[must_use]
pub fn is_well_formed(table: &[u32]) -> bool {
    raw::is_well_formed(table)
}

/// Makes the table that of the fresh state of a board.
///
/// ```
/// use makvluria::{is_well_formed, start, Answer, Refusal, TABLE_WORDS};
///
/// let board = [1, 0x2000_0000, 0x2000_1000, 0x2000_1000, 0x2000_0000, 0x0004_0000, 0x0004_1000, 0, 0];
/// let mut table = [0; TABLE_WORDS];
/// assert_eq!(start(&mut table, &board), Answer::Started);
/// assert!(is_well_formed(&table));
/// assert_eq!(start(&mut table[1..], &board), Answer::Refused(Refusal::NoTable));
/// ```
#[must_use]
pub fn start(table: &mut [u32], board: &[u32]) -> Answer {
    answer(|out| raw::start(table, board, out))
}

/// A call of a process: its class, and its four registers.
///
/// ```
/// use makvluria::{call, start, Answer, Class, ErrorCode, Process, Returned, IMAGE_BYTES, TABLE_WORDS};
///
/// const DRIVER: u32 = 1;
/// #[rustfmt::skip]
/// let board = [
///     1, 0x2000_0000, 0x2000_1000, 0x2000_1000, 0x2000_1000, 0x0004_0000, 0x0004_1000, 1,
///     1, DRIVER, 0, 1, 0, 0,
/// ];
/// let (mut table, mut memory) = ([0; TABLE_WORDS], [0; IMAGE_BYTES]);
/// assert_eq!(start(&mut table, &board), Answer::Started);
/// let mut lend = |address, size| {
///     let registers = [DRIVER, 0, address, size];
///     call(&mut table, &mut memory, Process(0), Class::READ_WRITE_ALLOW, registers).returned()
/// };
///
/// // The end of this buffer wraps in 32 bits.
/// let (address, size) = (0xFFFF_FFFF, 2);
/// assert_eq!(lend(address, size), Some(Returned::FailureWith2U32(ErrorCode::Inval, address, size)));
/// // An accepted buffer gives back the one held before.
/// assert_eq!(lend(0x2000_0F00, 0x100), Some(Returned::SuccessWith2U32(0, 0)));
/// assert_eq!(lend(0, 0), Some(Returned::SuccessWith2U32(0x2000_0F00, 0x100)));
/// ```
#[must_use]
pub fn call(
    table: &mut [u32],
    memory: &mut [u8],
    process: Process,
    class: Class,
    registers: Registers,
) -> Answer {
    answer(|out| raw::call(table, memory, process, class.0, registers, out))
}

/// A driver's event for a process's subscribe slot, with three arguments.
#[must_use]
pub fn event(
    table: &mut [u32],
    process: Process,
    driver: Driver,
    slot: u32,
    arguments: [u32; 3],
) -> Answer {
    answer(|out| raw::event(table, process, driver, slot, arguments, out))
}

/// A process that waits is asked again.
#[must_use]
pub fn resume(table: &mut [u32], process: Process) -> Answer {
    answer(|out| raw::resume(table, process, out))
}

/// A driver's bytes for a process's read-write buffer, from an offset in it on.
#[must_use]
pub fn deposit(
    table: &[u32],
    memory: &mut [u8],
    process: Process,
    driver: Driver,
    slot: u32,
    offset: u32,
    bytes: &[u8],
) -> Answer {
    answer(|out| raw::deposit(table, memory, process, driver, slot, offset, bytes, out))
}

/// Bytes of a process's read-only buffer, from an offset in it on. The answer says where they lie: [`Answer::part`] takes them from there.
#[must_use]
#[allow(clippy::too_many_arguments)] // the layer's step has these
pub fn fetch(
    table: &[u32],
    memory: &[u8],
    flash: &[u8],
    process: Process,
    driver: Driver,
    slot: u32,
    offset: u32,
    length: u32,
) -> Answer {
    answer(|out| raw::fetch(table, memory, flash, process, driver, slot, offset, length, out))
}

/// A shared driver's value: a signed peak.
#[must_use]
pub fn latch(table: &mut [u32], driver: Driver, peak: i32) -> Answer {
    answer(|out| raw::latch(table, driver, peak, out))
}

/// Where the buffer lies that a process holds in a slot of a driver. The class is that of the allow that lends it,
/// [`Class::READ_WRITE_ALLOW`] or [`Class::READ_ONLY_ALLOW`]. It is no step: the table is only read, and an exited process, which holds no
/// buffer, can be asked about too.
///
/// # Errors
///
/// The table is not well formed, or there is no such process, driver or slot; a driver has no buffers of any other class.
///
/// ```
/// use makvluria::{area, Area, Class, Driver, Held, Layer, Process, Refusal};
///
/// #[rustfmt::skip]
/// let board = [
///     1, 0x2000_0000, 0x2000_2000, 0x2000_1800, 0x2000_1000, 0x0004_0000, 0x0004_4000, 1,
///     1, 5, 0, 0, 1, 0,
/// ];
/// let mut layer = Layer::started(&board)?;
/// layer.call(Process(0), Class::READ_ONLY_ALLOW, [5, 0, 0x0004_0100, 3]).accepted()?;
/// let held = area(layer.table(), Process(0), Class::READ_ONLY_ALLOW, Driver(5), 0);
/// assert_eq!(held, Ok(Held { area: Area::Flash, address: 0x0004_0100, size: 3 }));
/// let held = area(layer.table(), Process(0), Class::READ_WRITE_ALLOW, Driver(5), 0);
/// assert_eq!(held, Err(Refusal::NoSlot));
/// # Ok::<(), Refusal>(())
/// ```
pub fn area(
    table: &[u32],
    process: Process,
    class: Class,
    driver: Driver,
    slot: u32,
) -> Result<Held, Refusal> {
    let words = told(|out| raw::area(table, process, class.0, driver, slot, out));
    Held::decode(words).expect("the layer tells no other words")
}

/// The run over a trace, from the place `at` on: 0 for all of it, from the board on; or the place at which it paused, with the table and
/// the images as it left them. Whole lines go to the front of `lines`, and the rest of it stays.
///
/// It pauses where fewer than 64 bytes of room are left, or fewer than `23 + 4 * length` before a fetch's line. With
/// [`LINES_BYTES`](crate::LINES_BYTES) in `lines` every call comes further; with fewer, a pause at `at` itself says that this room is too
/// small.
///
/// ```
/// use makvluria::{replay, Progress, IMAGE_BYTES, TABLE_WORDS};
///
/// let mut table = vec![0; TABLE_WORDS];
/// let (mut memory, flash) = (vec![0; IMAGE_BYTES], vec![0; IMAGE_BYTES]);
/// let mut lines = [0; 64];
/// let trace = std::fs::read("../../examples/whole-case.trace")?;
/// let progress = replay(&trace, 0, &mut table, &mut memory, &flash, &mut lines);
/// // Fewer than 64 bytes are left after the first line.
/// assert_eq!(progress, Progress::Paused { at: 37, written: 20 });
/// assert_eq!(&lines[..20], b"A 129 536870912 0 0\n");
/// let progress = replay(&trace, 37, &mut table, &mut memory, &flash, &mut lines);
/// assert_eq!(progress, Progress::Paused { at: 44, written: 2 });
/// # Ok::<(), std::io::Error>(())
/// ```
pub fn replay(
    trace: &[u8],
    at: usize,
    table: &mut [u32],
    memory: &mut [u8],
    flash: &[u8],
    lines: &mut [u8],
) -> Progress {
    let mut words = [0; RUN_WORDS];
    let done = raw::replay(trace, at, table, memory, flash, lines, &mut words);
    assert!(done, "three words are room enough");
    Progress::decode(words).expect("the layer tells no other words")
}

/// The run over a whole trace: its lines are written to `out` as they come. It needs the feature `std`.
///
/// # Errors
///
/// Where `out` gives one. The table and the memory are then as the steps made so far have left them.
///
/// ```
/// use makvluria::{replay_all, IMAGE_BYTES, TABLE_WORDS};
///
/// let mut table = vec![0; TABLE_WORDS];
/// let (mut memory, flash) = (vec![0; IMAGE_BYTES], vec![0; IMAGE_BYTES]);
/// let mut lines = Vec::new();
/// let trace = std::fs::read("../../examples/whole-case.trace")?;
/// replay_all(&trace, &mut table, &mut memory, &flash, &mut lines)?;
/// assert_eq!(lines, b"A 129 536870912 0 0\nW\nW\n");
/// # Ok::<(), std::io::Error>(())
/// ```
#[cfg(feature = "std")]
pub fn replay_all(
    trace: &[u8],
    table: &mut [u32],
    memory: &mut [u8],
    flash: &[u8],
    out: &mut impl Write,
) -> io::Result<()> {
    let mut lines = vec![0; crate::LINES_BYTES];
    let mut at = 0;
    loop {
        match replay(trace, at, table, memory, flash, &mut lines) {
            Progress::Ended { written } => return out.write_all(&lines[..written]),
            Progress::Paused { at: next, written } => {
                out.write_all(&lines[..written])?;
                assert!(at < next, "there was room for any line");
                at = next;
            }
        }
    }
}

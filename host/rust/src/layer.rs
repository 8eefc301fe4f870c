//! What a host owns, with the steps and the question as methods.

use core::fmt;
#[cfg(feature = "std")]
use std::{boxed::Box, io};

use crate::{
    steps, Answer, Class, Driver, Held, Process, Progress, Refusal, Registers, IMAGE_BYTES,
    TABLE_WORDS,
};

/// A table and two images, with the steps and the question as methods.
///
/// It is plain arrays, some 150,000 bytes: `Layer::started` puts it on the heap, and a kernel without one has it as a `static`, by
/// [`Layer::new`]. Only steps change the table, so once it is started no step is refused for its table or an image
/// ([`Refusal::NoTable`], [`Refusal::NoImage`]). The images are the host's own to read and to write.
///
/// ```
/// use makvluria::{Answer, Class, Driver, Layer, Process, Refusal, Returned};
///
/// const RADIO: Driver = Driver(0x3_0001);
/// const APP: Process = Process(0);
///
/// #[rustfmt::skip]
/// let board = [
///     1, 0x2000_0000, 0x2000_2000, 0x2000_1800, 0x2000_1000, 0x0004_0000, 0x0004_4000, 1,
///     1, RADIO.0, 1, 1, 1, 0,
/// ];
/// let mut layer = Layer::started(&board)?;
///
/// // The process lends a buffer, subscribes and waits.
/// let lent = layer.call(APP, Class::READ_WRITE_ALLOW, [RADIO.0, 0, 0x2000_0100, 16]);
/// assert_eq!(lent.returned(), Some(Returned::SuccessWith2U32(0, 0)));
/// let subscribed = layer.call(APP, Class::SUBSCRIBE, [RADIO.0, 0, 0x0004_0010, 7]);
/// assert_eq!(subscribed.returned(), Some(Returned::SuccessWith2U32(0, 0)));
/// assert_eq!(layer.call(APP, Class::YIELD, [1, 0, 0, 0]), Answer::Waiting);
///
/// // The driver fills the buffer and says so; the process is asked again, and its upcall comes.
/// layer.deposit(APP, RADIO, 0, 0, b"packet").accepted()?;
/// assert_eq!(layer.memory[0x100..0x106], *b"packet");
/// layer.event(APP, RADIO, 0, [6, 0, 0]).accepted()?;
/// let upcall = layer.resume(APP);
/// assert_eq!(upcall, Answer::Delivered { pointer: 0x0004_0010, registers: [6, 0, 0, 7] });
///
/// // No byte goes past the end of the buffer.
/// assert_eq!(layer.deposit(APP, RADIO, 0, 11, b"packet").accepted(), Err(Refusal::PastTheBuffer));
/// # Ok::<(), Refusal>(())
/// ```
#[derive(Clone, PartialEq, Eq)]
pub struct Layer {
    table: [u32; TABLE_WORDS],
    /// The memory image, from [`MEMORY_BASE`](crate::MEMORY_BASE) on.
    pub memory: [u8; IMAGE_BYTES],
    /// The flash image, from [`FLASH_BASE`](crate::FLASH_BASE) on.
    pub flash: [u8; IMAGE_BYTES],
}

impl Layer {
    /// Zeros: every step but [`Layer::start`] is refused with [`Refusal::NoTable`]. It can stand in a `static`.
    ///
    /// ```
    /// use std::sync::Mutex;
    ///
    /// use makvluria::{Answer, Layer, Process, Refusal};
    ///
    /// static LAYER: Mutex<Layer> = Mutex::new(Layer::new());
    ///
    /// let board = [1, 0x2000_0000, 0x2000_1000, 0x2000_1000, 0x2000_0000, 0x0004_0000, 0x0004_1000, 0, 0];
    /// let mut layer = LAYER.lock().unwrap();
    /// assert_eq!(layer.resume(Process(0)), Answer::Refused(Refusal::NoTable));
    /// assert_eq!(layer.start(&board), Answer::Started);
    /// assert_eq!(layer.resume(Process(0)), Answer::Refused(Refusal::ProcessRuns));
    /// ```
    pub const fn new() -> Layer {
        Layer { table: [0; TABLE_WORDS], memory: [0; IMAGE_BYTES], flash: [0; IMAGE_BYTES] }
    }

    /// A new one on the heap, started with a board. It needs the feature `std`.
    ///
    /// # Errors
    ///
    /// [`Refusal::NoBoard`] where the board is not good.
    #[cfg(feature = "std")]
    pub fn started(board: &[u32]) -> Result<Box<Layer>, Refusal> {
        let mut layer = Box::new(Layer::new());
        layer.start(board).accepted()?;
        Ok(layer)
    }

    /// Makes the table that of the fresh state of a board. The images stay as they are.
    #[must_use]
    pub fn start(&mut self, board: &[u32]) -> Answer {
        steps::start(&mut self.table, board)
    }

    /// The table's words (docs/LAYOUT.md), to be read.
    pub const fn table(&self) -> &[u32; TABLE_WORDS] {
        &self.table
    }

    /// A call of a process: its class, and its four registers.
    #[must_use]
    pub fn call(&mut self, process: Process, class: Class, registers: Registers) -> Answer {
        steps::call(&mut self.table, &mut self.memory, process, class, registers)
    }

    /// A driver's event for a process's subscribe slot, with three arguments.
    #[must_use]
    pub fn event(
        &mut self,
        process: Process,
        driver: Driver,
        slot: u32,
        arguments: [u32; 3],
    ) -> Answer {
        steps::event(&mut self.table, process, driver, slot, arguments)
    }

    /// A process that waits is asked again.
    #[must_use]
    pub fn resume(&mut self, process: Process) -> Answer {
        steps::resume(&mut self.table, process)
    }

    /// A driver's bytes for a process's read-write buffer, from an offset in it on.
    #[must_use]
    pub fn deposit(
        &mut self,
        process: Process,
        driver: Driver,
        slot: u32,
        offset: u32,
        bytes: &[u8],
    ) -> Answer {
        steps::deposit(&self.table, &mut self.memory, process, driver, slot, offset, bytes)
    }

    /// Bytes of a process's read-only buffer, from an offset in it on: the part of the image itself. Where it lies is told by the function
    /// [`fetch`](crate::fetch).
    ///
    /// # Errors
    ///
    /// The refusal, where the fetch is refused.
    ///
    /// ```
    /// use makvluria::{Class, Driver, Layer, Process, Refusal};
    ///
    /// #[rustfmt::skip]
    /// let board = [
    ///     1, 0x2000_0000, 0x2000_2000, 0x2000_1800, 0x2000_1000, 0x0004_0000, 0x0004_4000, 1,
    ///     1, 5, 0, 0, 1, 0,
    /// ];
    /// let mut layer = Layer::started(&board)?;
    /// layer.flash[0x100..0x103].copy_from_slice(b"map");
    /// layer.call(Process(0), Class::READ_ONLY_ALLOW, [5, 0, 0x0004_0100, 3]).accepted()?;
    /// assert_eq!(layer.fetch(Process(0), Driver(5), 0, 1, 2)?, b"ap");
    /// assert_eq!(layer.fetch(Process(0), Driver(5), 0, 1, 3), Err(Refusal::PastTheBuffer));
    /// # Ok::<(), Refusal>(())
    /// ```
    pub fn fetch(
        &self,
        process: Process,
        driver: Driver,
        slot: u32,
        offset: u32,
        length: u32,
    ) -> Result<&[u8], Refusal> {
        let Layer { table, memory, flash } = self;
        let answer = steps::fetch(table, memory, flash, process, driver, slot, offset, length);
        Ok(answer.accepted()?.part(memory, flash))
    }

    /// A shared driver's value: a signed peak.
    #[must_use]
    pub fn latch(&mut self, driver: Driver, peak: i32) -> Answer {
        steps::latch(&mut self.table, driver, peak)
    }

    /// Where the buffer lies that a process holds in a slot of a driver, as the function [`area`](crate::area) tells it.
    ///
    /// # Errors
    ///
    /// There is no such process, driver or slot; or the layer is not started.
    pub fn area(
        &self,
        process: Process,
        class: Class,
        driver: Driver,
        slot: u32,
    ) -> Result<Held, Refusal> {
        steps::area(&self.table, process, class, driver, slot)
    }

    /// The run over a trace, from the place `at` on, as the function [`replay`](crate::replay) makes it. From place 0 on it begins with the
    /// trace's own board.
    pub fn replay(&mut self, trace: &[u8], at: usize, lines: &mut [u8]) -> Progress {
        steps::replay(trace, at, &mut self.table, &mut self.memory, &self.flash, lines)
    }

    /// The run over a whole trace: its lines are written to `out` as they come. It needs the feature `std`.
    ///
    /// # Errors
    ///
    /// Where `out` gives one. The layer is then as the steps made so far have left it.
    ///
    /// ```
    /// use makvluria::Layer;
    ///
    /// let trace = std::fs::read("../../examples/incident.trace")?;
    /// let (mut layer, mut lines) = (Box::new(Layer::new()), Vec::new());
    /// layer.replay_all(&trace, &mut lines)?;
    /// assert!(lines.starts_with(b"A 2 6 4294967295 2\nX 9\n"));
    /// # Ok::<(), std::io::Error>(())
    /// ```
    #[cfg(feature = "std")]
    pub fn replay_all(&mut self, trace: &[u8], out: &mut impl io::Write) -> io::Result<()> {
        steps::replay_all(trace, &mut self.table, &mut self.memory, &self.flash, out)
    }
}

impl Default for Layer {
    fn default() -> Layer {
        Layer::new()
    }
}

/// Without its words and bytes, of which there are too many.
impl fmt::Debug for Layer {
    fn fmt(&self, f: &mut fmt::Formatter) -> fmt::Result {
        f.debug_struct("Layer").finish_non_exhaustive()
    }
}

//! The proved layer for a Rust host: a system call layer with Tock's interface (TRD 104).
//!
//! [`Layer`] owns what the layer works on, a table of [`TABLE_WORDS`] words and two images of [`IMAGE_BYTES`] bytes, and its methods are the
//! steps: start, call, event, resume, deposit, fetch and latch; and a question, [`Layer::area`]: where a buffer that a process holds lies.
//! Here process 0 lends a buffer whose end wraps in 32 bits, which is refused:
//!
//! ```
//! use makvluria::{Area, Class, Driver, ErrorCode, Layer, Process, Refusal, Returned};
//!
//! const RECEIVER: Driver = Driver(0x9_0001);
//!
//! // A process: RAM from and to, grant, break, flash from and to, permissions. A driver: number, slots to subscribe, to write and to read,
//! // shared.
//! #[rustfmt::skip]
//! let board = [
//!     1, 0x2000_0000, 0x2000_2000, 0x2000_1800, 0x2000_1000, 0x0004_0000, 0x0004_4000, 1,
//!     1, RECEIVER.0, 1, 1, 1, 0,
//! ];
//! let mut layer = Layer::started(&board)?;
//!
//! let answer = layer.call(Process(0), Class::READ_WRITE_ALLOW, [RECEIVER.0, 0, 0xFFFF_FFFF, 2]);
//! assert_eq!(answer.to_string(), "Failure with 2 u32 INVAL: 0xFFFFFFFF, 2");
//! assert_eq!(
//!     answer.returned(),
//!     Some(Returned::FailureWith2U32(ErrorCode::Inval, 0xFFFF_FFFF, 2))
//! );
//!
//! // Nothing is lent, so there is no place for a driver's bytes.
//! let held = layer.area(Process(0), Class::READ_WRITE_ALLOW, RECEIVER, 0)?;
//! assert_eq!(held.area, Area::Empty);
//! let answer = layer.deposit(Process(0), RECEIVER, 0, 0, b"fix");
//! assert_eq!(answer.accepted(), Err(Refusal::PastTheBuffer));
//! # Ok::<(), Refusal>(())
//! ```
//!
//! Beside it stands a function for each step and for the question, over slices that the host lends ([`start`], [`call()`] and so on,
//! [`area`]), for a kernel whose memory is not an array of its own. Any slice may be lent: what does not fit is refused by number, and a
//! refusal changes nothing. [`replay`] makes the steps of a whole trace.
//!
//! The crate is `no_std`. The feature `std`, on by default, brings what allocates or writes to an `io::Write`: `Layer::started` and the two
//! `replay_all`. `build.rs` says where the proved library comes from, and the variable `MAKVLURIA_LIB` names another place for it.

#![no_std]
#![warn(missing_docs)]

#[cfg(feature = "std")]
extern crate std;

mod answer;
mod held;
mod layer;
mod names;
pub mod raw;
mod returned;
mod sizes;
mod steps;

pub use answer::{Answer, Image, Progress};
pub use held::{Area, Held};
pub use layer::Layer;
pub use names::{Class, ErrorCode, Refusal, ReturnVariant};
pub use returned::{Registers, Returned};
pub use sizes::{
    BOARD_WORDS, FLASH_BASE, IMAGE_BYTES, MAX_DRIVERS, MAX_PROCESSES, MAX_QUEUED, MAX_SLOTS,
    MEMORY_BASE, TABLE_WORDS,
};
#[cfg(feature = "std")]
pub use steps::replay_all;
pub use steps::{
    area, call, deposit, event, fetch, is_well_formed, latch, replay, resume, sizes_agree, start,
};

/// How many words an answer takes.
pub const ANSWER_WORDS: usize = 6;

/// How many words it takes to say how far a run came.
pub const RUN_WORDS: usize = 3;

/// Room for the longest line of a run, that of a fetch of a whole image.
pub const LINES_BYTES: usize = 23 + 4 * IMAGE_BYTES;

/// A process's index. It and a driver's number are different types, so that neither can be passed for the other.
///
/// ```
/// use makvluria::{event, Answer, Driver, Process, Refusal};
///
/// let answer = event(&mut [], Process(0), Driver(1), 0, [2, 3, 4]);
/// assert_eq!(answer, Answer::Refused(Refusal::NoTable));
/// ```
///
/// ```compile_fail,E0308
/// use makvluria::{event, Answer, Driver, Process, Refusal};
///
/// let answer = event(&mut [], Driver(1), Driver(1), 0, [2, 3, 4]);
/// assert_eq!(answer, Answer::Refused(Refusal::NoTable));
/// ```
#[derive(Clone, Copy, Debug, PartialEq, Eq, Hash, PartialOrd, Ord)]
pub struct Process(pub u32);

/// A driver's number. A process's index cannot be passed for it:
///
/// ```compile_fail,E0308
/// use makvluria::{event, Answer, Driver, Process, Refusal};
///
/// let answer = event(&mut [], Process(0), Process(0), 0, [2, 3, 4]);
/// assert_eq!(answer, Answer::Refused(Refusal::NoTable));
/// ```
#[derive(Clone, Copy, Debug, PartialEq, Eq, Hash, PartialOrd, Ord)]
pub struct Driver(pub u32);

//! Names for numbers, each number in one place: call classes, refusals, return variants, error codes.

use core::fmt;

/// A call class (TRD 104, 4), eight bits. A process may pass any number; from 7 on the layer answers Failure NOSUPPORT.
///
/// ```
/// use makvluria::Class;
///
/// assert_eq!(Class::READ_WRITE_ALLOW, Class(3));
/// assert_eq!(Class::READ_WRITE_ALLOW.to_string(), "read-write allow");
/// assert_eq!(Class(7).to_string(), "class 7");
/// ```
#[derive(Clone, Copy, Debug, PartialEq, Eq, Hash, PartialOrd, Ord)]
pub struct Class(pub u8);

#[allow(missing_docs)] // the TRD's names
impl Class {
    pub const YIELD: Class = Class(0);
    pub const SUBSCRIBE: Class = Class(1);
    pub const COMMAND: Class = Class(2);
    pub const READ_WRITE_ALLOW: Class = Class(3);
    pub const READ_ONLY_ALLOW: Class = Class(4);
    pub const MEMOP: Class = Class(5);
    pub const EXIT: Class = Class(6);
}

impl fmt::Display for Class {
    fn fmt(&self, f: &mut fmt::Formatter) -> fmt::Result {
        f.write_str(match *self {
            Class::YIELD => "yield",
            Class::SUBSCRIBE => "subscribe",
            Class::COMMAND => "command",
            Class::READ_WRITE_ALLOW => "read-write allow",
            Class::READ_ONLY_ALLOW => "read-only allow",
            Class::MEMOP => "memop",
            Class::EXIT => "exit",
            Class(other) => return write!(f, "class {other}"),
        })
    }
}

/// An enum whose cases have a number and a text, with the ways from one to the other.
macro_rules! numbered {
    ($(#[$about:meta])* $kind:ident { $($(#[$doc:meta])* $case:ident = $number:literal $text:literal,)* }) => {
        $(#[$about])*
        #[derive(Clone, Copy, Debug, PartialEq, Eq, Hash, PartialOrd, Ord)]
        pub enum $kind {
            $(
                #[doc = concat!("`", $number, "`, ", $text, ". ")]
                $(#[$doc])*
                $case = $number,
            )*
        }

        impl $kind {
            /// All of them, by number.
            pub const ALL: &'static [$kind] = &[$($kind::$case),*];

            /// Its number.
            pub const fn number(self) -> u32 {
                self as u32
            }

            /// The one with this number, if there is one.
            pub fn from_number(number: u32) -> Option<$kind> {
                $kind::ALL.iter().copied().find(|one| one.number() == number)
            }

            /// What it is called.
            pub const fn text(self) -> &'static str {
                match self {
                    $($kind::$case => $text,)*
                }
            }
        }
    };
}

numbered! {
    /// Why a step or a question is refused. The first that applies is given, in this order but for [`Refusal::NullUpcall`], which stands
    /// before [`Refusal::QueueFull`]. A refusal changes nothing.
    ///
    /// It is an error, and says its number and its reason:
    ///
    /// ```
    /// use makvluria::{Layer, Refusal};
    ///
    /// let refusal = Layer::started(&[]).unwrap_err();
    /// assert_eq!(refusal, Refusal::NoBoard);
    /// assert_eq!(refusal.number(), 13);
    /// assert_eq!(refusal.to_string(), "refused 13 (the board is not good)");
    /// ```
    Refusal {
        /// It does not have [`IMAGE_BYTES`](crate::IMAGE_BYTES) bytes. A call and a deposit take memory, a fetch both images.
        NoImage = 1 "a lent image has another length",
        /// For a start: it does not have [`TABLE_WORDS`](crate::TABLE_WORDS) words.
        NoTable = 2 "the table is not well formed",
        NoProcess = 3 "no such process",
        ProcessExited = 4 "the process has exited",
        ProcessWaits = 5 "call by a waiting process",
        ProcessRuns = 6 "resume of a running process",
        /// For an event, a deposit, a fetch, a latch or a question; a call is answered NODEVICE.
        NoDriver = 7 "driver not installed",
        /// An event names a subscribe slot, a deposit a read-write one, a fetch a read-only one, a question one of these two; a call is
        /// answered NOSUPPORT.
        NoSlot = 8 "no such slot",
        /// The sum is taken exactly.
        PastTheBuffer = 9 "offset + length exceeds the held size",
        /// As many upcalls are queued for the process as there may be.
        QueueFull = 10 "the queue is full",
        /// An event for a slot with the null upcall.
        NullUpcall = 11 "the slot's pointer is 0",
        NotShared = 12 "latch on an unshared driver",
        /// For a start.
        NoBoard = 13 "the board is not good",
    }
}

impl fmt::Display for Refusal {
    fn fmt(&self, f: &mut fmt::Formatter) -> fmt::Result {
        write!(f, "refused {} ({})", self.number(), self.text())
    }
}

impl core::error::Error for Refusal {}

numbered! {
    /// What r0 of a call's return registers says of the others (TRD 104, 3.2). [`Returned`](crate::Returned) reads them all.
    ReturnVariant {
        /// A command, a memop, an exit or a call of an unknown class may give it.
        Failure = 0 "Failure",
        /// No call gives it.
        FailureWithU32 = 1 "Failure with u32",
        /// Subscribe and the allows give it, with the passed values; a subscribe that is answered NODEVICE gives it with zeros.
        FailureWith2U32 = 2 "Failure with 2 u32",
        /// No call gives it.
        FailureWithU64 = 3 "Failure with u64",
        /// Commands, and a break to an address.
        Success = 128 "Success",
        /// A latch that is read, and memops that tell an address.
        SuccessWithU32 = 129 "Success with u32",
        /// Subscribe and the allows give it, with the values held before.
        SuccessWith2U32 = 130 "Success with 2 u32",
        /// No call gives it.
        SuccessWithU64 = 131 "Success with u64",
        /// No call gives it.
        SuccessWith3U32 = 132 "Success with 3 u32",
    }
}

impl fmt::Display for ReturnVariant {
    fn fmt(&self, f: &mut fmt::Formatter) -> fmt::Result {
        f.write_str(self.text())
    }
}

numbered! {
    /// r1 of a Failure (TRD 104, 3.3). The layer gives RESERVE, INVAL, NOMEM, NOSUPPORT and NODEVICE.
    ///
    /// It is an error, and says its name:
    ///
    /// ```
    /// use makvluria::ErrorCode;
    ///
    /// assert_eq!(ErrorCode::from_number(6), Some(ErrorCode::Inval));
    /// assert_eq!(ErrorCode::Inval.to_string(), "INVAL");
    /// ```
    ErrorCode {
        /// No further information is available.
        Fail = 1 "FAIL",
        /// Retry later.
        Busy = 2 "BUSY",
        /// The operation is already ongoing.
        Already = 3 "ALREADY",
        /// The subsystem is powered off.
        Off = 4 "OFF",
        /// The call requires a reservation: a command to a shared driver that the process has not claimed.
        Reserve = 5 "RESERVE",
        /// A parameter is invalid: a buffer outside accessible memory, or an upcall outside flash. TRD 104 draft 8 lists it as INVALID.
        Inval = 6 "INVAL",
        /// The size is too large or too small.
        Size = 7 "SIZE",
        /// The operation was cancelled.
        Cancel = 8 "CANCEL",
        /// Memory is not available: a break that cannot be moved there.
        NoMem = 9 "NOMEM",
        /// The call is not supported.
        NoSupport = 10 "NOSUPPORT",
        /// The driver is not installed, or denied to the process; no call tells which.
        NoDevice = 11 "NODEVICE",
        /// The resource was removed.
        Uninstalled = 12 "UNINSTALLED",
        /// The packet was not acknowledged.
        NoAck = 13 "NOACK",
        /// For a userspace library: another variant than the call should return. No kernel gives it.
        BadRval = 1024 "BADRVAL",
    }
}

impl fmt::Display for ErrorCode {
    fn fmt(&self, f: &mut fmt::Formatter) -> fmt::Result {
        f.write_str(self.text())
    }
}

impl core::error::Error for ErrorCode {}

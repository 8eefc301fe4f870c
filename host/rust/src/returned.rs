//! A call's return registers, read by their variant.

use core::fmt;

use crate::{ErrorCode, ReturnVariant};

/// r0 to r3, of a call or of its return.
pub type Registers = [u32; 4];

/// What a call returns, by TRD 104's variants. `Display` gives the variant, the code and the values, those from 0x10000 on in hex.
///
/// ```
/// use makvluria::{ErrorCode, Returned};
///
/// let returned = Returned::read([2, 6, 0xFFFF_FFFF, 2]).unwrap();
/// assert_eq!(returned, Returned::FailureWith2U32(ErrorCode::Inval, 0xFFFF_FFFF, 2));
/// assert_eq!(returned.code(), Some(ErrorCode::Inval));
/// assert_eq!(returned.to_string(), "Failure with 2 u32 INVAL: 0xFFFFFFFF, 2");
/// ```
#[derive(Clone, Copy, Debug, PartialEq, Eq, Hash)]
#[allow(missing_docs)] // the TRD's names, which ReturnVariant explains
pub enum Returned {
    Failure(ErrorCode),
    FailureWithU32(ErrorCode, u32),
    FailureWith2U32(ErrorCode, u32, u32),
    FailureWithU64(ErrorCode, u64),
    Success,
    SuccessWithU32(u32),
    SuccessWith2U32(u32, u32),
    SuccessWithU64(u64),
    SuccessWith3U32(u32, u32, u32),
}

impl Returned {
    /// Reads return registers; `None` where variant or code is not known, or an unused register is not 0.
    pub fn read(registers: Registers) -> Option<Returned> {
        let [variant, r1, r2, r3] = registers;
        let code = ErrorCode::from_number(r1);
        let returned = match ReturnVariant::from_number(variant)? {
            ReturnVariant::Failure => Returned::Failure(code?),
            ReturnVariant::FailureWithU32 => Returned::FailureWithU32(code?, r2),
            ReturnVariant::FailureWith2U32 => Returned::FailureWith2U32(code?, r2, r3),
            ReturnVariant::FailureWithU64 => Returned::FailureWithU64(code?, join(r2, r3)),
            ReturnVariant::Success => Returned::Success,
            ReturnVariant::SuccessWithU32 => Returned::SuccessWithU32(r1),
            ReturnVariant::SuccessWith2U32 => Returned::SuccessWith2U32(r1, r2),
            ReturnVariant::SuccessWithU64 => Returned::SuccessWithU64(join(r1, r2)),
            ReturnVariant::SuccessWith3U32 => Returned::SuccessWith3U32(r1, r2, r3),
        };
        (returned.registers() == registers).then_some(returned)
    }

    /// The registers, unused ones 0.
    pub fn registers(self) -> Registers {
        let variant = self.variant().number();
        let code = self.code().map_or(0, ErrorCode::number);
        match self {
            Returned::Failure(_) => [variant, code, 0, 0],
            Returned::FailureWithU32(_, a) => [variant, code, a, 0],
            Returned::FailureWith2U32(_, a, b) => [variant, code, a, b],
            Returned::FailureWithU64(_, a) => [variant, code, low(a), high(a)],
            Returned::Success => [variant, 0, 0, 0],
            Returned::SuccessWithU32(a) => [variant, a, 0, 0],
            Returned::SuccessWith2U32(a, b) => [variant, a, b, 0],
            Returned::SuccessWithU64(a) => [variant, low(a), high(a), 0],
            Returned::SuccessWith3U32(a, b, c) => [variant, a, b, c],
        }
    }

    /// The variant alone.
    pub const fn variant(self) -> ReturnVariant {
        match self {
            Returned::Failure(_) => ReturnVariant::Failure,
            Returned::FailureWithU32(..) => ReturnVariant::FailureWithU32,
            Returned::FailureWith2U32(..) => ReturnVariant::FailureWith2U32,
            Returned::FailureWithU64(..) => ReturnVariant::FailureWithU64,
            Returned::Success => ReturnVariant::Success,
            Returned::SuccessWithU32(_) => ReturnVariant::SuccessWithU32,
            Returned::SuccessWith2U32(..) => ReturnVariant::SuccessWith2U32,
            Returned::SuccessWithU64(_) => ReturnVariant::SuccessWithU64,
            Returned::SuccessWith3U32(..) => ReturnVariant::SuccessWith3U32,
        }
    }

    /// The error code of a failure; `None` for a success.
    pub const fn code(self) -> Option<ErrorCode> {
        match self {
            Returned::Failure(code)
            | Returned::FailureWithU32(code, _)
            | Returned::FailureWith2U32(code, ..)
            | Returned::FailureWithU64(code, _) => Some(code),
            _ => None,
        }
    }
}

impl fmt::Display for Returned {
    fn fmt(&self, f: &mut fmt::Formatter) -> fmt::Result {
        write!(f, "{}", self.variant())?;
        if let Some(code) = self.code() {
            write!(f, " {code}")?;
        }
        match *self {
            Returned::Failure(_) | Returned::Success => Ok(()),
            Returned::FailureWithU32(_, a) | Returned::SuccessWithU32(a) => {
                write!(f, ": {}", Value(a.into()))
            }
            Returned::FailureWith2U32(_, a, b) | Returned::SuccessWith2U32(a, b) => {
                write!(f, ": {}", Values(&[a, b]))
            }
            Returned::FailureWithU64(_, a) | Returned::SuccessWithU64(a) => {
                write!(f, ": {}", Value(a))
            }
            Returned::SuccessWith3U32(a, b, c) => write!(f, ": {}", Values(&[a, b, c])),
        }
    }
}

/// The halves of a 64-bit value stand in two registers, the low one first.
const fn join(low: u32, high: u32) -> u64 {
    (high as u64) << 32 | low as u64
}

const fn low(value: u64) -> u32 {
    value as u32
}

const fn high(value: u64) -> u32 {
    (value >> 32) as u32
}

/// A value whose meaning is not known: in decimal while it is small, then like an address.
struct Value(u64);

impl fmt::Display for Value {
    fn fmt(&self, f: &mut fmt::Formatter) -> fmt::Result {
        match self.0 {
            0..=0xFFFF => write!(f, "{}", self.0),
            large => write!(f, "0x{large:08X}"),
        }
    }
}

/// Such values, with commas between.
pub(crate) struct Values<'a>(pub &'a [u32]);

impl fmt::Display for Values<'_> {
    fn fmt(&self, f: &mut fmt::Formatter) -> fmt::Result {
        for (index, &value) in self.0.iter().enumerate() {
            let comma = if index == 0 { "" } else { ", " };
            write!(f, "{comma}{}", Value(value.into()))?;
        }
        Ok(())
    }
}

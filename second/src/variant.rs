//! The return variants and error codes of TRD 104 that some call gives.

/// r0 to r3.
pub type Registers = [u32; 4];

#[derive(Clone, Copy, Debug, PartialEq, Eq)]
pub enum ErrorCode {
    Reserve = 5,
    Invalid = 6,
    NoMem = 9,
    NoSupport = 10,
    NoDevice = 11,
}

#[derive(Clone, Copy, Debug, PartialEq, Eq)]
pub enum ReturnVariant {
    Failure(ErrorCode),
    FailureWith2U32(ErrorCode, u32, u32),
    Success,
    SuccessWithU32(u32),
    SuccessWith2U32(u32, u32),
}

impl ReturnVariant {
    /// The variant's number in r0, its values after it; unused registers are 0.
    pub fn registers(self) -> Registers {
        match self {
            ReturnVariant::Failure(code) => [0, code as u32, 0, 0],
            ReturnVariant::FailureWith2U32(code, a, b) => [2, code as u32, a, b],
            ReturnVariant::Success => [128, 0, 0, 0],
            ReturnVariant::SuccessWithU32(a) => [129, a, 0, 0],
            ReturnVariant::SuccessWith2U32(a, b) => [130, a, b, 0],
        }
    }
}

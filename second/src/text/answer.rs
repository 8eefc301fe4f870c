//! Answers and refusals in words.

use crate::state::Machine;
use crate::step::{Answer, Refusal};
use crate::text::names::Style;
use crate::text::value::{show, show_bytes};
use crate::variant::{ErrorCode, ReturnVariant};

/// Most bytes of a fetch that are shown: there can be 65,536 in every line.
const MOST_SHOWN_BYTES: usize = 64;

/// What the step gave. A call's values are written as its form says.
pub fn show_outcome(
    machine: &Machine,
    outcome: Result<Answer, Refusal>,
    gives: &[Style],
) -> String {
    match outcome {
        Ok(answer) => show_answer(machine, answer, gives),
        Err(refusal) => show_refusal(refusal),
    }
}

fn show_answer(machine: &Machine, answer: Answer, gives: &[Style]) -> String {
    match answer {
        Answer::Returned(variant) => show_variant(variant, gives),
        Answer::Delivered { pointer, registers } => {
            let pointer = show(Style::Address, pointer);
            format!("upcall at {pointer} with {}", show_values(&registers, &[]))
        }
        Answer::Waiting => String::from("waiting"),
        Answer::Nothing => String::from("nothing"),
        Answer::Exited { code } => format!("exited with code {code}"),
        Answer::Restarted { code } => format!("restarted with code {code}"),
        Answer::EventTaken => String::from("event taken"),
        Answer::Deposited => String::from("deposited"),
        Answer::Latched => String::from("latched"),
        Answer::Fetched(part) => show_fetched(machine.bytes(part)),
    }
}

/// A refusal by its number and its reason.
pub fn show_refusal(refusal: Refusal) -> String {
    let reason = match refusal {
        Refusal::NoSuchProcess => "no such process",
        Refusal::ProcessExited => "the process has exited",
        Refusal::CallWhileWaiting => "call by a waiting process",
        Refusal::ResumeWhileRunning => "resume of a running process",
        Refusal::DriverNotInstalled => "driver not installed",
        Refusal::NoSuchSlot => "no such slot",
        Refusal::BeyondHeldSize => "offset + length exceeds the held size",
        Refusal::QueueFull => "the queue is full",
        Refusal::NullUpcall => "the slot's pointer is 0",
        Refusal::NotShared => "latch on an unshared driver",
        Refusal::BoardNotGood => "the board is not good",
    };
    format!("refused {} ({reason})", refusal as u32)
}

fn show_variant(variant: ReturnVariant, gives: &[Style]) -> String {
    match variant {
        ReturnVariant::Failure(code) => format!("Failure {}", code_name(code)),
        ReturnVariant::FailureWith2U32(code, a, b) => {
            format!("Failure with 2 u32 {}: {}", code_name(code), show_values(&[a, b], gives))
        }
        ReturnVariant::Success => String::from("Success"),
        ReturnVariant::SuccessWithU32(a) => {
            format!("Success with u32: {}", show_values(&[a], gives))
        }
        ReturnVariant::SuccessWith2U32(a, b) => {
            format!("Success with 2 u32: {}", show_values(&[a, b], gives))
        }
    }
}

fn code_name(code: ErrorCode) -> &'static str {
    match code {
        ErrorCode::Reserve => "RESERVE",
        ErrorCode::Invalid => "INVAL",
        ErrorCode::NoMem => "NOMEM",
        ErrorCode::NoSupport => "NOSUPPORT",
        ErrorCode::NoDevice => "NODEVICE",
    }
}

/// Values without a style of their own are plain words.
fn show_values(values: &[u32], styles: &[Style]) -> String {
    let styles = styles.iter().copied().chain(std::iter::repeat(Style::Word));
    let shown: Vec<String> =
        values.iter().zip(styles).map(|(&value, style)| show(style, value)).collect();
    shown.join(", ")
}

fn show_fetched(bytes: &[u8]) -> String {
    let (shown, more) = bytes.split_at(bytes.len().min(MOST_SHOWN_BYTES));
    let count = match bytes.len() {
        0 => return String::from("fetched 0 bytes"),
        1 => String::from("1 byte"),
        count => format!("{count} bytes"),
    };
    match more.len() {
        0 => format!("fetched {count}: {}", show_bytes(shown)),
        more => format!("fetched {count}: {} and {more} more", show_bytes(shown)),
    }
}

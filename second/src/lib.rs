//! A second program for the system call layer of document 01, written from
//! the documents alone. The layer's traces are compared with its output.
//!
//! `board`, `state`, `step` and `call` are the rules; `number`, `trace`,
//! `lines` and `replay` are the trace program; `table` is the state as words,
//! and the check of any words, with `fault` for what it finds; `generate` makes traces that reach deep; `text`
//! is a form of traces for people.
//!
//! It is the plain program that the proved one is timed beside, too. Where it
//! says that something could not be guessed, a branch would go one way as often
//! as the other, and the processor would have to begin again half of the time.

pub mod board;
pub mod call;
pub mod fault;
pub mod generate;
pub mod limits;
pub mod lines;
pub mod number;
pub mod random;
pub mod replay;
pub mod state;
pub mod step;
pub mod table;
pub mod text;
pub mod trace;
pub mod variant;

//! Traces as text for people: a listing with answers, and the way back.
//!
//! `names` is the table of what each number of a record is called. `list` goes
//! through it from numbers to words, `parse` from words to numbers, and
//! `record` from bytes to numbers, or to the fault at which a record breaks.

mod answer;
pub mod list;
pub mod names;
pub mod parse;
pub mod record;
pub mod value;
mod words;

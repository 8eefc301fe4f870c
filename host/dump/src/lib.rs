//! A table in words, for a person: `table` puts the text together, from words of any length and content.
//!
//! `reading` takes the words apart, `names` says what each is called, `parts` makes an entry of each part, with `board` and `run` for what is on
//! them; `fold` says zeros together and `layout` writes lines; `buffers` tells where a held buffer lies and `picture` draws it. `words` and `trace`
//! are where the words come from: a file, or the run over a trace, which the proved library makes. `cli` is the command.

mod board;
pub mod buffers;
pub mod cli;
mod fold;
mod layout;
pub mod names;
mod parts;
pub mod picture;
pub mod reading;
mod run;
pub mod table;
pub mod trace;
pub mod words;

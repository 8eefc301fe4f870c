//! The tests of the dump.

mod command;
mod common;
mod incident;
mod lines;
mod picture;
mod text;
mod traces;

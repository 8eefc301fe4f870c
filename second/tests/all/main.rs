//! The second program's tests.

mod assembling;
mod boards;
mod calls;
mod cases;
mod common;
mod denied;
mod faults;
mod generator;
mod hidden;
mod incident;
mod layout;
mod limits;
mod listing;
mod mistakes;
mod numbers;
mod page;
mod programs;
mod properties;
mod readings;
mod refusals;
mod speed;
mod subscribes;
mod table;
mod traces;

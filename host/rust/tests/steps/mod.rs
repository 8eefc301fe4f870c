//! The second program's steps, made by the library.

use makvluria::{call, deposit, event, fetch, latch, resume, Answer, Class, Driver, Process};
use second::step::Step;

/// Makes a step on what is lent.
pub fn make(table: &mut [u32], memory: &mut [u8], flash: &[u8], step: Step) -> Answer {
    match step {
        Step::Call { process, class, registers } => {
            call(table, memory, Process(process.0), Class(class), registers)
        }
        Step::Event { process, driver, slot, arguments } => {
            event(table, Process(process.0), Driver(driver.0), slot, arguments)
        }
        Step::Resume { process } => resume(table, Process(process.0)),
        Step::Deposit { process, driver, slot, offset, bytes } => {
            let (process, driver) = (Process(process.0), Driver(driver.0));
            deposit(table, memory, process, driver, slot, offset, bytes)
        }
        Step::Fetch { process, driver, slot, offset, length } => {
            let (process, driver) = (Process(process.0), Driver(driver.0));
            fetch(table, memory, flash, process, driver, slot, offset, length)
        }
        Step::Latch { driver, peak } => latch(table, Driver(driver.0), peak),
    }
}

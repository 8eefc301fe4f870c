//! The exports as they are, but for the types of a process and a driver: a step or a question writes its answer into the first six words of
//! `out`, a run how far it came into the first three, and it gives true; where `out` is shorter it does nothing and gives false.
//!
//! Every call here is safe: the library is proved for any numbers and slices, Rust's slices are valid, and those that are lent to be
//! written are borrowed apart from all others.
#![allow(clippy::too_many_arguments)] // the exports have these
#![allow(missing_docs)] // the functions of the same names in the crate say what they do

use crate::{Driver, Process};

mod exports {
    // A slice is a pointer and its number of elements; a process and a driver are plain numbers.
    extern "C" {
        pub fn mk_size(number: u32) -> u64;
        pub fn mk_table_well_formed(table: *const u32, words: usize) -> bool;
        pub fn mk_start(
            table: *mut u32,
            words: usize,
            board: *const u32,
            board_words: usize,
            out: *mut u32,
            out_words: usize,
        ) -> bool;
        pub fn mk_call(
            table: *mut u32,
            words: usize,
            memory: *mut u8,
            bytes: usize,
            process: u32,
            class: u8,
            r0: u32,
            r1: u32,
            r2: u32,
            r3: u32,
            out: *mut u32,
            out_words: usize,
        ) -> bool;
        pub fn mk_event(
            table: *mut u32,
            words: usize,
            process: u32,
            driver: u32,
            slot: u32,
            argument0: u32,
            argument1: u32,
            argument2: u32,
            out: *mut u32,
            out_words: usize,
        ) -> bool;
        pub fn mk_resume(
            table: *mut u32,
            words: usize,
            process: u32,
            out: *mut u32,
            out_words: usize,
        ) -> bool;
        pub fn mk_deposit(
            table: *const u32,
            words: usize,
            memory: *mut u8,
            memory_bytes: usize,
            process: u32,
            driver: u32,
            slot: u32,
            offset: u32,
            bytes: *const u8,
            length: usize,
            out: *mut u32,
            out_words: usize,
        ) -> bool;
        pub fn mk_fetch(
            table: *const u32,
            words: usize,
            memory: *const u8,
            memory_bytes: usize,
            flash: *const u8,
            flash_bytes: usize,
            process: u32,
            driver: u32,
            slot: u32,
            offset: u32,
            length: u32,
            out: *mut u32,
            out_words: usize,
        ) -> bool;
        pub fn mk_latch(
            table: *mut u32,
            words: usize,
            driver: u32,
            peak: i32,
            out: *mut u32,
            out_words: usize,
        ) -> bool;
        pub fn mk_area(
            table: *const u32,
            words: usize,
            process: u32,
            class: u8,
            driver: u32,
            slot: u32,
            out: *mut u32,
            out_words: usize,
        ) -> bool;
        pub fn mk_replay(
            trace: *const u8,
            trace_bytes: usize,
            at: usize,
            table: *mut u32,
            words: usize,
            memory: *mut u8,
            memory_bytes: usize,
            flash: *const u8,
            flash_bytes: usize,
            lines: *mut u8,
            lines_bytes: usize,
            out: *mut u64,
            out_words: usize,
        ) -> bool;
    }
}

/// A limit or a size that the library was built for, by its number: in the order of `MAX_PROCESSES`, `MAX_DRIVERS`, `MAX_SLOTS`, `MAX_QUEUED`,
/// `TABLE_WORDS`, `BOARD_WORDS`, `IMAGE_BYTES`, `MEMORY_BASE`, `FLASH_BASE`; 0 for any other number.
pub fn size(number: u32) -> u64 {
    unsafe { exports::mk_size(number) }
}

pub fn is_well_formed(table: &[u32]) -> bool {
    unsafe { exports::mk_table_well_formed(table.as_ptr(), table.len()) }
}

pub fn start(table: &mut [u32], board: &[u32], out: &mut [u32]) -> bool {
    unsafe {
        exports::mk_start(
            table.as_mut_ptr(),
            table.len(),
            board.as_ptr(),
            board.len(),
            out.as_mut_ptr(),
            out.len(),
        )
    }
}

pub fn call(
    table: &mut [u32],
    memory: &mut [u8],
    process: Process,
    class: u8,
    [r0, r1, r2, r3]: [u32; 4],
    out: &mut [u32],
) -> bool {
    unsafe {
        exports::mk_call(
            table.as_mut_ptr(),
            table.len(),
            memory.as_mut_ptr(),
            memory.len(),
            process.0,
            class,
            r0,
            r1,
            r2,
            r3,
            out.as_mut_ptr(),
            out.len(),
        )
    }
}

pub fn event(
    table: &mut [u32],
    process: Process,
    driver: Driver,
    slot: u32,
    [argument0, argument1, argument2]: [u32; 3],
    out: &mut [u32],
) -> bool {
    unsafe {
        exports::mk_event(
            table.as_mut_ptr(),
            table.len(),
            process.0,
            driver.0,
            slot,
            argument0,
            argument1,
            argument2,
            out.as_mut_ptr(),
            out.len(),
        )
    }
}

pub fn resume(table: &mut [u32], process: Process, out: &mut [u32]) -> bool {
    unsafe {
        exports::mk_resume(table.as_mut_ptr(), table.len(), process.0, out.as_mut_ptr(), out.len())
    }
}

pub fn deposit(
    table: &[u32],
    memory: &mut [u8],
    process: Process,
    driver: Driver,
    slot: u32,
    offset: u32,
    bytes: &[u8],
    out: &mut [u32],
) -> bool {
    unsafe {
        exports::mk_deposit(
            table.as_ptr(),
            table.len(),
            memory.as_mut_ptr(),
            memory.len(),
            process.0,
            driver.0,
            slot,
            offset,
            bytes.as_ptr(),
            bytes.len(),
            out.as_mut_ptr(),
            out.len(),
        )
    }
}

pub fn fetch(
    table: &[u32],
    memory: &[u8],
    flash: &[u8],
    process: Process,
    driver: Driver,
    slot: u32,
    offset: u32,
    length: u32,
    out: &mut [u32],
) -> bool {
    unsafe {
        exports::mk_fetch(
            table.as_ptr(),
            table.len(),
            memory.as_ptr(),
            memory.len(),
            flash.as_ptr(),
            flash.len(),
            process.0,
            driver.0,
            slot,
            offset,
            length,
            out.as_mut_ptr(),
            out.len(),
        )
    }
}

pub fn latch(table: &mut [u32], driver: Driver, peak: i32, out: &mut [u32]) -> bool {
    unsafe {
        exports::mk_latch(
            table.as_mut_ptr(),
            table.len(),
            driver.0,
            peak,
            out.as_mut_ptr(),
            out.len(),
        )
    }
}

pub fn area(
    table: &[u32],
    process: Process,
    class: u8,
    driver: Driver,
    slot: u32,
    out: &mut [u32],
) -> bool {
    unsafe {
        exports::mk_area(
            table.as_ptr(),
            table.len(),
            process.0,
            class,
            driver.0,
            slot,
            out.as_mut_ptr(),
            out.len(),
        )
    }
}

pub fn replay(
    trace: &[u8],
    at: usize,
    table: &mut [u32],
    memory: &mut [u8],
    flash: &[u8],
    lines: &mut [u8],
    out: &mut [u64],
) -> bool {
    unsafe {
        exports::mk_replay(
            trace.as_ptr(),
            trace.len(),
            at,
            table.as_mut_ptr(),
            table.len(),
            memory.as_mut_ptr(),
            memory.len(),
            flash.as_ptr(),
            flash.len(),
            lines.as_mut_ptr(),
            lines.len(),
            out.as_mut_ptr(),
            out.len(),
        )
    }
}

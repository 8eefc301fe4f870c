//! The largest board.

use makvluria::{
    BOARD_WORDS, FLASH_BASE, IMAGE_BYTES, MAX_DRIVERS, MAX_PROCESSES, MAX_SLOTS, MEMORY_BASE,
};

/// How many bytes of each image a process has: an equal part.
pub const AREA: u32 = (IMAGE_BYTES / MAX_PROCESSES) as u32;

/// As many processes and drivers as there can be, every driver with all slots and permitted to all. The breaks are in the middle of RAM, and
/// there is no grant region.
pub fn board() -> Vec<u32> {
    let every_driver = u32::MAX >> (u32::BITS - MAX_DRIVERS as u32);
    let mut board = vec![MAX_PROCESSES as u32];
    for process in 0..MAX_PROCESSES as u32 {
        let (ram, flash) = (MEMORY_BASE + AREA * process, FLASH_BASE + AREA * process);
        let (end, flash_end) = (ram + AREA, flash + AREA);
        board.extend([ram, end, end, ram + AREA / 2, flash, flash_end, every_driver]);
    }
    board.push(MAX_DRIVERS as u32);
    for number in 1..=MAX_DRIVERS as u32 {
        board.push(number);
        board.extend([MAX_SLOTS as u32; 3]);
        board.push(0);
    }
    assert_eq!(board.len(), BOARD_WORDS);
    board
}

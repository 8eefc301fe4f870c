//! The limits and sizes that host/sizes has written are those of the library, which tells each by its number, and those of the second
//! program, which has its own.

use makvluria::raw::size;
use makvluria::{
    sizes_agree, BOARD_WORDS, FLASH_BASE, IMAGE_BYTES, MAX_DRIVERS, MAX_PROCESSES, MAX_QUEUED,
    MAX_SLOTS, MEMORY_BASE, TABLE_WORDS,
};
use second::board::{FLASH, MAX_BOARD_WORDS, MEMORY};
use second::{limits, table};

/// What is written, and what the second program has, in the order of the library's numbers.
const SIZES: [(&str, usize, usize); 9] = [
    ("processes", MAX_PROCESSES, limits::MAX_PROCESSES),
    ("drivers", MAX_DRIVERS, limits::MAX_DRIVERS),
    ("slots", MAX_SLOTS, limits::MAX_SLOTS as usize),
    ("queued upcalls", MAX_QUEUED, limits::QUEUE_CAPACITY),
    ("words of a table", TABLE_WORDS, table::TABLE_WORDS),
    ("words of a board", BOARD_WORDS, MAX_BOARD_WORDS),
    ("bytes of an image", IMAGE_BYTES, limits::IMAGE_SIZE),
    ("address of memory", MEMORY_BASE as usize, MEMORY.start as usize),
    ("address of flash", FLASH_BASE as usize, FLASH.start as usize),
];

#[test]
fn each_size_is_the_librarys_and_the_second_programs() {
    for (number, (name, written, plain)) in (0..).zip(SIZES) {
        assert_eq!(size(number), written as u64, "{name}: the library's, and what is written");
        assert_eq!(plain, written, "{name}: the second program's, and what is written");
    }
    assert!(sizes_agree());
}

#[test]
fn any_other_number_gives_0() {
    for number in [SIZES.len() as u32, 10, 255, u32::MAX] {
        assert_eq!(size(number), 0, "{number}");
    }
}

/// An image is as long as the second program's areas of it.
#[test]
fn images_end_where_the_second_program_says() {
    let bytes = IMAGE_BYTES as u32;
    assert_eq!((MEMORY_BASE + bytes, FLASH_BASE + bytes), (MEMORY.end, FLASH.end));
}

//! The limits and sizes, as `crates/types` and what follows from it have them: written by host/sizes, and not to be changed by hand.

/// How many processes a board has at most.
pub const MAX_PROCESSES: usize = 8;

/// How many drivers a board has at most.
pub const MAX_DRIVERS: usize = 16;

/// How many slots of each kind a driver has at most.
pub const MAX_SLOTS: usize = 4;

/// How many upcalls are queued for a process at most.
pub const MAX_QUEUED: usize = 16;

/// How many words a table has, for every board.
pub const TABLE_WORDS: usize = 4162;

/// How many words the largest board has.
pub const BOARD_WORDS: usize = 138;

/// How many bytes each image has.
pub const IMAGE_BYTES: usize = 65536;

/// The address of the memory image's first byte.
pub const MEMORY_BASE: u32 = 0x2000_0000;

/// The address of the flash image's first byte.
pub const FLASH_BASE: u32 = 0x0004_0000;

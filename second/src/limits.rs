//! The limits of document 01. Each stands here alone, and whatever follows from
//! one is worked out from it.

/// Most processes on a board.
pub const MAX_PROCESSES: usize = 8;
/// Most drivers on a board.
pub const MAX_DRIVERS: usize = 16;
/// Most slots of each of the three kinds that one driver has.
pub const MAX_SLOTS: u32 = 4;
/// Most upcalls queued for one process.
pub const QUEUE_CAPACITY: usize = 16;
/// Bytes of the memory image, and bytes of the flash image.
pub const IMAGE_SIZE: usize = 65_536;

/* The limits and sizes, as crates/types and what follows from it have them: written by host/sizes, and not to be changed by hand. */
#ifndef MAKVLURIA_SIZES_H
#define MAKVLURIA_SIZES_H

/* How many processes a board has at most. */
#define MK_MAX_PROCESSES 8

/* How many drivers a board has at most. */
#define MK_MAX_DRIVERS 16

/* How many slots of each kind a driver has at most. */
#define MK_MAX_SLOTS 4

/* How many upcalls are queued for a process at most. */
#define MK_MAX_QUEUED 16

/* How many words a table has, for every board. */
#define MK_TABLE_WORDS 4162

/* How many words the largest board has. */
#define MK_BOARD_WORDS 138

/* How many bytes each image has. */
#define MK_IMAGE_BYTES 65536

/* The address of the memory image's first byte. */
#define MK_MEMORY_BASE 0x20000000u

/* The address of the flash image's first byte. */
#define MK_FLASH_BASE 0x00040000u

#endif

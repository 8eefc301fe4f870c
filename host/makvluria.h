/* The layer, for C and C++: its steps, its run over a trace, a question and its sizes, in the static library that `host/library` writes
 * (target/staticlib/libhost.a, x86-64; installed, libmakvluria.a). Each is proved for any numbers and any contents and lengths;
 * crates/host/src/lib.rt has the contracts. docs/LINKING.md says the rest that a kernel has to know.
 *
 * A host calls the static inline functions below, each over an export of the library. A slice is a pointer and its number of elements, in
 * that order. What a C caller owes, since nothing can check it here:
 *  - a pointer is aligned and reaches that many elements. With length 0 it may be anything, null too: the slice is empty, and nothing is
 *    read or written through it. A table, an image or a board of length 0 is then refused like any other of a wrong length;
 *  - a slice that is not const overlaps no other slice of the same call: the library is proved for one that is the only way to its
 *    elements. Const slices may overlap, or be the same: both images of a fetch, or the trace and the flash of a run;
 *  - until the call returns nothing else writes a slice, and nothing else reads one that is not const.
 *
 * A step or a question writes its answer into the first MK_ANSWER_WORDS words of out, a run how far it came into the first MK_RUN_WORDS,
 * and it returns true. Where out is shorter nothing is done and nothing changes: it returns false.
 *
 * What a call costs: every step but start checks the whole lent table, each time, and that is most of its time; so does a question. A run
 * over a trace checks it once, where it is taken up again; from the board on it makes the table itself, and checks none. docs/FIGURES.md
 * has the times.
 *
 * What the library needs: memcpy and memset, a stack that is aligned as the System V ABI says, and nothing else; it keeps nothing between
 * calls but what is in the lent slices. It uses SSE registers, and the red zone below the stack pointer. */
#ifndef MAKVLURIA_H
#define MAKVLURIA_H

#include <stdbool.h>
#include <stddef.h>
#include <stdint.h>

#include "makvluria_sizes.h" /* the limits, the sizes of table, board and images, and the images' addresses */

#ifdef __cplusplus
extern "C" {
#endif

/* The words of an answer, and of how far a run came; room for the longest line, that of a fetch of a whole image. */
#define MK_ANSWER_WORDS 6
#define MK_RUN_WORDS 3
#define MK_LINES_BYTES (23 + 4 * MK_IMAGE_BYTES)

/* The kind of an answer, out[0], with the words after it; all others are 0. */
enum mk_kind {
  MK_REFUSED = 0,    /* the refusal's number (enum mk_refusal) */
  MK_REGISTERS = 1,  /* a call's return registers r0 to r3 */
  MK_DELIVERED = 2,  /* an upcall: its pointer, then its registers: three arguments and the application data */
  MK_WAITING = 3,
  MK_NOTHING = 4,    /* a yield with nothing to deliver */
  MK_TAKEN = 5,      /* an event is queued */
  MK_DEPOSITED = 6,
  MK_LATCHED = 7,
  MK_STARTED = 8,
  MK_EXITED = 9,     /* the completion code */
  MK_RESTARTED = 10, /* the completion code */
  MK_FETCHED = 11,   /* the refusal's number, 0 where accepted; image (enum mk_image), place of the first byte in it, length */
  MK_HELD = 12       /* a held buffer: where it lies (enum mk_held_area), its address and its size */
};

enum mk_image { MK_MEMORY = 0, MK_FLASH = 1 };

/* Where a held buffer lies. */
enum mk_held_area {
  MK_AREA_EMPTY = 0,  /* it has no bytes, whatever its address */
  MK_AREA_RAM = 1,    /* wholly in the process's RAM, below its break */
  MK_AREA_FLASH = 2,  /* wholly in the process's flash */
  MK_AREA_OUTSIDE = 3 /* anywhere else; no buffer that a well-formed table holds lies so */
};

/* Why a step or a question is refused. The first that applies is given, in this order but for 11, which stands before 10. */
enum mk_refusal {
  MK_ACCEPTED = 0,
  MK_NO_IMAGE = 1,         /* a lent image is not MK_IMAGE_BYTES long */
  MK_NO_TABLE = 2,         /* the table is not well formed; for start, is not MK_TABLE_WORDS long */
  MK_NO_PROCESS = 3,
  MK_PROCESS_EXITED = 4,
  MK_PROCESS_WAITS = 5,    /* a call by a waiting process */
  MK_PROCESS_RUNS = 6,     /* a resume of a running process */
  MK_NO_DRIVER = 7,
  MK_NO_SLOT = 8,
  MK_PAST_THE_BUFFER = 9,  /* offset and length exceed the held size */
  MK_QUEUE_FULL = 10,
  MK_NULL_UPCALL = 11,     /* an event for a slot whose pointer is 0 */
  MK_NOT_SHARED = 12,      /* a latch of an unshared driver */
  MK_NO_BOARD = 13         /* start with a board that is not good */
};

/* Call classes (TRD 104, 4). */
enum mk_class {
  MK_CLASS_YIELD = 0,
  MK_CLASS_SUBSCRIBE = 1,
  MK_CLASS_COMMAND = 2,
  MK_CLASS_READWRITE_ALLOW = 3,
  MK_CLASS_READONLY_ALLOW = 4,
  MK_CLASS_MEMOP = 5,
  MK_CLASS_EXIT = 6
};

/* r0 of a call's return registers, by libtock-c's names. Define MK_NO_TOCK_NAMES where its tock.h is included too. */
#ifndef MK_NO_TOCK_NAMES
typedef enum {
  TOCK_SYSCALL_FAILURE = 0,
  TOCK_SYSCALL_FAILURE_U32 = 1,
  TOCK_SYSCALL_FAILURE_U32_U32 = 2,
  TOCK_SYSCALL_FAILURE_U64 = 3,
  TOCK_SYSCALL_SUCCESS = 128,
  TOCK_SYSCALL_SUCCESS_U32 = 129,
  TOCK_SYSCALL_SUCCESS_U32_U32 = 130,
  TOCK_SYSCALL_SUCCESS_U64 = 131,
  TOCK_SYSCALL_SUCCESS_U32_U32_U32 = 132
} syscall_rtype_t;

/* r1 of a Failure, by libtock-c's names. NODEVICE: the driver is not installed, or denied to the process; no call tells which. */
typedef enum {
  TOCK_STATUSCODE_SUCCESS = 0,
  TOCK_STATUSCODE_FAIL = 1,
  TOCK_STATUSCODE_BUSY = 2,
  TOCK_STATUSCODE_ALREADY = 3,
  TOCK_STATUSCODE_OFF = 4,
  TOCK_STATUSCODE_RESERVE = 5,
  TOCK_STATUSCODE_INVAL = 6,
  TOCK_STATUSCODE_SIZE = 7,
  TOCK_STATUSCODE_CANCEL = 8,
  TOCK_STATUSCODE_NOMEM = 9,
  TOCK_STATUSCODE_NOSUPPORT = 10,
  TOCK_STATUSCODE_NODEVICE = 11,
  TOCK_STATUSCODE_UNINSTALLED = 12,
  TOCK_STATUSCODE_NOACK = 13
} statuscode_t;
#endif

/* A process's index, and a driver's number: two types, so that neither can be passed for the other. */
typedef struct {
  uint32_t index;
} mk_process_t;

typedef struct {
  uint32_t number;
} mk_driver_t;

/* The exports. A process and a driver are plain numbers in them, and a pointer is never null. A host calls the functions below, which take
 * the two types and empty slices as they come. */
#ifdef __GNUC__
#define MK_NEVER_NULL __attribute__((nonnull))
#else
#define MK_NEVER_NULL
#endif
bool mk_table_well_formed(const uint32_t *table, size_t table_words) MK_NEVER_NULL;
bool mk_start(uint32_t *table, size_t table_words, const uint32_t *board, size_t board_words, uint32_t *out,
              size_t out_words) MK_NEVER_NULL;
bool mk_call(uint32_t *table, size_t table_words, uint8_t *memory, size_t memory_bytes, uint32_t process, uint8_t class_number,
             uint32_t r0, uint32_t r1, uint32_t r2, uint32_t r3, uint32_t *out, size_t out_words) MK_NEVER_NULL;
bool mk_event(uint32_t *table, size_t table_words, uint32_t process, uint32_t driver, uint32_t slot, uint32_t argument0,
              uint32_t argument1, uint32_t argument2, uint32_t *out, size_t out_words) MK_NEVER_NULL;
bool mk_resume(uint32_t *table, size_t table_words, uint32_t process, uint32_t *out, size_t out_words) MK_NEVER_NULL;
bool mk_deposit(const uint32_t *table, size_t table_words, uint8_t *memory, size_t memory_bytes, uint32_t process, uint32_t driver,
                uint32_t slot, uint32_t offset, const uint8_t *bytes, size_t bytes_length, uint32_t *out, size_t out_words) MK_NEVER_NULL;
bool mk_fetch(const uint32_t *table, size_t table_words, const uint8_t *memory, size_t memory_bytes, const uint8_t *flash,
              size_t flash_bytes, uint32_t process, uint32_t driver, uint32_t slot, uint32_t offset, uint32_t length, uint32_t *out,
              size_t out_words) MK_NEVER_NULL;
bool mk_latch(uint32_t *table, size_t table_words, uint32_t driver, int32_t peak, uint32_t *out, size_t out_words) MK_NEVER_NULL;
bool mk_area(const uint32_t *table, size_t table_words, uint32_t process, uint8_t class_number, uint32_t driver, uint32_t slot,
             uint32_t *out, size_t out_words) MK_NEVER_NULL;
bool mk_replay(const uint8_t *trace, size_t trace_bytes, size_t at, uint32_t *table, size_t table_words, uint8_t *memory,
               size_t memory_bytes, const uint8_t *flash, size_t flash_bytes, uint8_t *lines, size_t lines_bytes, uint64_t *out,
               size_t out_words) MK_NEVER_NULL;
#undef MK_NEVER_NULL

/* The limits and sizes that the library itself was built for, by these numbers; 0 for any other. Each is the macro of makvluria_sizes.h with
 * the name after MK_SIZE_, where the header and the library are of one build. */
enum mk_size_number {
  MK_SIZE_MAX_PROCESSES = 0,
  MK_SIZE_MAX_DRIVERS = 1,
  MK_SIZE_MAX_SLOTS = 2,
  MK_SIZE_MAX_QUEUED = 3,
  MK_SIZE_TABLE_WORDS = 4,
  MK_SIZE_BOARD_WORDS = 5,
  MK_SIZE_IMAGE_BYTES = 6,
  MK_SIZE_MEMORY_BASE = 7,
  MK_SIZE_FLASH_BASE = 8
};
uint64_t mk_size(uint32_t number);

/* Whether they are: a kernel asks once, before it starts. With a table of another length every step is refused with MK_NO_TABLE. */
static inline bool mk_sizes_agree(void) {
  return mk_size(MK_SIZE_MAX_PROCESSES) == MK_MAX_PROCESSES && mk_size(MK_SIZE_MAX_DRIVERS) == MK_MAX_DRIVERS &&
         mk_size(MK_SIZE_MAX_SLOTS) == MK_MAX_SLOTS && mk_size(MK_SIZE_MAX_QUEUED) == MK_MAX_QUEUED &&
         mk_size(MK_SIZE_TABLE_WORDS) == MK_TABLE_WORDS && mk_size(MK_SIZE_BOARD_WORDS) == MK_BOARD_WORDS &&
         mk_size(MK_SIZE_IMAGE_BYTES) == MK_IMAGE_BYTES && mk_size(MK_SIZE_MEMORY_BASE) == MK_MEMORY_BASE &&
         mk_size(MK_SIZE_FLASH_BASE) == MK_FLASH_BASE;
}

/* Where an empty slice points to, whatever its own pointer is. With any other length the pointer goes on as it is: a null one is a fault
 * of the caller's, and shows as one. */
union mk_empty {
  uint8_t byte;
  uint32_t word;
  uint64_t number;
};

/* Whether the words are a table: the image of a state with a good board. */
static inline bool mk_table_is_well_formed(const uint32_t *table, size_t table_words) {
  union mk_empty empty = {0};
  return mk_table_well_formed(table_words ? table : &empty.word, table_words);
}

/* Makes the table that of the fresh state of a board. */
static inline bool mk_table_start(uint32_t *table, size_t table_words, const uint32_t *board, size_t board_words, uint32_t *out,
                                  size_t out_words) {
  union mk_empty empty = {0};
  return mk_start(table_words ? table : &empty.word, table_words, board_words ? board : &empty.word, board_words,
                  out_words ? out : &empty.word, out_words);
}

/* A call of a process: its class, and its four registers. */
static inline bool mk_process_call(uint32_t *table, size_t table_words, uint8_t *memory, size_t memory_bytes, mk_process_t process,
                                   uint8_t class_number, uint32_t r0, uint32_t r1, uint32_t r2, uint32_t r3, uint32_t *out,
                                   size_t out_words) {
  union mk_empty empty = {0};
  return mk_call(table_words ? table : &empty.word, table_words, memory_bytes ? memory : &empty.byte, memory_bytes, process.index,
                 class_number, r0, r1, r2, r3, out_words ? out : &empty.word, out_words);
}

/* A driver's event for a process's subscribe slot, with three arguments. */
static inline bool mk_driver_event(uint32_t *table, size_t table_words, mk_process_t process, mk_driver_t driver, uint32_t slot,
                                   uint32_t argument0, uint32_t argument1, uint32_t argument2, uint32_t *out, size_t out_words) {
  union mk_empty empty = {0};
  return mk_event(table_words ? table : &empty.word, table_words, process.index, driver.number, slot, argument0, argument1, argument2,
                  out_words ? out : &empty.word, out_words);
}

/* A process that waits is asked again. */
static inline bool mk_process_resume(uint32_t *table, size_t table_words, mk_process_t process, uint32_t *out, size_t out_words) {
  union mk_empty empty = {0};
  return mk_resume(table_words ? table : &empty.word, table_words, process.index, out_words ? out : &empty.word, out_words);
}

/* A driver's bytes for a process's read-write buffer, from an offset in it on. */
static inline bool mk_driver_deposit(const uint32_t *table, size_t table_words, uint8_t *memory, size_t memory_bytes,
                                     mk_process_t process, mk_driver_t driver, uint32_t slot, uint32_t offset, const uint8_t *bytes,
                                     size_t bytes_length, uint32_t *out, size_t out_words) {
  union mk_empty empty = {0};
  return mk_deposit(table_words ? table : &empty.word, table_words, memory_bytes ? memory : &empty.byte, memory_bytes, process.index,
                    driver.number, slot, offset, bytes_length ? bytes : &empty.byte, bytes_length, out_words ? out : &empty.word,
                    out_words);
}

/* Where bytes of a process's read-only buffer lie, from an offset in it on: the driver reads them there. */
static inline bool mk_driver_fetch(const uint32_t *table, size_t table_words, const uint8_t *memory, size_t memory_bytes,
                                   const uint8_t *flash, size_t flash_bytes, mk_process_t process, mk_driver_t driver, uint32_t slot,
                                   uint32_t offset, uint32_t length, uint32_t *out, size_t out_words) {
  union mk_empty empty = {0};
  return mk_fetch(table_words ? table : &empty.word, table_words, memory_bytes ? memory : &empty.byte, memory_bytes,
                  flash_bytes ? flash : &empty.byte, flash_bytes, process.index, driver.number, slot, offset, length,
                  out_words ? out : &empty.word, out_words);
}

/* A shared driver's value: a signed peak. */
static inline bool mk_driver_latch(uint32_t *table, size_t table_words, mk_driver_t driver, int32_t peak, uint32_t *out,
                                   size_t out_words) {
  union mk_empty empty = {0};
  return mk_latch(table_words ? table : &empty.word, table_words, driver.number, peak, out_words ? out : &empty.word, out_words);
}

/* Where the buffer lies that a process holds in a slot of a driver. The class is that of the allow that lends it, MK_CLASS_READWRITE_ALLOW
 * or MK_CLASS_READONLY_ALLOW; of any other class a driver has no such slot. It is a question and no step: it changes nothing, and a process
 * that waits or has exited can be asked about too. The table is checked for it as for a step. */
static inline bool mk_buffer_area(const uint32_t *table, size_t table_words, mk_process_t process, uint8_t class_number,
                                  mk_driver_t driver, uint32_t slot, uint32_t *out, size_t out_words) {
  union mk_empty empty = {0};
  return mk_area(table_words ? table : &empty.word, table_words, process.index, class_number, driver.number, slot,
                 out_words ? out : &empty.word, out_words);
}

/* Whether a run has ended, out[0]. After it: the place in the trace to go on from, 0 where it has, and the bytes written to lines. */
enum mk_run { MK_ENDED = 0, MK_PAUSED = 1 };

/* The run over a trace of any length, from a place in it on: 0 for all of it, from the board on; or the place at which it paused, with the
 * table and the images as it left them. Its lines go to the front of lines, whole ones only; the rest of lines stays as it was.
 *
 * It pauses where fewer than 64 bytes of room are left, or fewer than 23 + 4 * length before a fetch's line. With MK_LINES_BYTES in lines
 * every call comes further; with fewer, a pause at the place where the call began says that this room is too small. At place 0 it says that
 * nothing was begun.
 *
 * A table or an image that does not fit is refused by the lines, X 2 or X 1, and the run goes on. A board that is not good (X 13) or a
 * broken record (B) ends it. */
static inline bool mk_trace_replay(const uint8_t *trace, size_t trace_bytes, size_t at, uint32_t *table, size_t table_words,
                                   uint8_t *memory, size_t memory_bytes, const uint8_t *flash, size_t flash_bytes, uint8_t *lines,
                                   size_t lines_bytes, uint64_t *out, size_t out_words) {
  union mk_empty empty = {0};
  return mk_replay(trace_bytes ? trace : &empty.byte, trace_bytes, at, table_words ? table : &empty.word, table_words,
                   memory_bytes ? memory : &empty.byte, memory_bytes, flash_bytes ? flash : &empty.byte, flash_bytes,
                   lines_bytes ? lines : &empty.byte, lines_bytes, out_words ? out : &empty.number, out_words);
}

#ifdef __cplusplus
}
#endif

#endif

/* Each slice of each function of the header as a null pointer with length 0: it is an empty slice. host/run compiles this so that a null
 * pointer that reaches an export stops it. */
#undef NDEBUG
#include <assert.h>
#include <stdio.h>
#include <string.h>

#include "makvluria.h"

#define NONE NULL, 0
#define TABLE table, MK_TABLE_WORDS
#define MEMORY memory, MK_IMAGE_BYTES
#define FLASH flash, MK_IMAGE_BYTES
#define OUT out, MK_ANSWER_WORDS

static const mk_process_t process = {0};
static const mk_driver_t driver = {7};
static const uint32_t board[] = {1, 0x20000000, 0x20001000, 0x20001000, 0x20000000, 0x00040000, 0x00041000, 1, 1, 7, 1, 1, 1, 1};
#define BOARD board, sizeof board / sizeof *board

static uint32_t table[MK_TABLE_WORDS];
static uint8_t memory[MK_IMAGE_BYTES];
static uint8_t flash[MK_IMAGE_BYTES];
static uint32_t out[MK_ANSWER_WORDS];

static void told(bool done, uint32_t kind, uint32_t number) {
  assert(done && out[0] == kind && out[1] == number);
}

static void steps_and_the_question(void) {
  assert(!mk_table_is_well_formed(NONE));

  told(mk_table_start(NONE, BOARD, OUT), MK_REFUSED, MK_NO_TABLE);
  told(mk_table_start(TABLE, NONE, OUT), MK_REFUSED, MK_NO_BOARD);
  assert(!mk_table_start(TABLE, BOARD, NONE));
  told(mk_table_start(TABLE, BOARD, OUT), MK_STARTED, 0);

  told(mk_process_call(NONE, MEMORY, process, MK_CLASS_YIELD, 0, 0, 0, 0, OUT), MK_REFUSED, MK_NO_TABLE);
  told(mk_process_call(TABLE, NONE, process, MK_CLASS_YIELD, 0, 0, 0, 0, OUT), MK_REFUSED, MK_NO_IMAGE);
  assert(!mk_process_call(TABLE, MEMORY, process, MK_CLASS_YIELD, 0, 0, 0, 0, NONE));

  told(mk_driver_event(NONE, process, driver, 0, 0, 0, 0, OUT), MK_REFUSED, MK_NO_TABLE);
  assert(!mk_driver_event(TABLE, process, driver, 0, 0, 0, 0, NONE));

  told(mk_process_resume(NONE, process, OUT), MK_REFUSED, MK_NO_TABLE);
  assert(!mk_process_resume(TABLE, process, NONE));

  told(mk_driver_latch(NONE, driver, -5, OUT), MK_REFUSED, MK_NO_TABLE);
  assert(!mk_driver_latch(TABLE, driver, -5, NONE));

  told(mk_buffer_area(NONE, process, MK_CLASS_READONLY_ALLOW, driver, 0, OUT), MK_REFUSED, MK_NO_TABLE);
  assert(!mk_buffer_area(TABLE, process, MK_CLASS_READONLY_ALLOW, driver, 0, NONE));
}

/* A deposit and a fetch of no bytes are accepted; the images and the table have to be there. */
static void buffers(void) {
  told(mk_driver_deposit(NONE, MEMORY, process, driver, 0, 0, NONE, OUT), MK_REFUSED, MK_NO_TABLE);
  told(mk_driver_deposit(TABLE, NONE, process, driver, 0, 0, NONE, OUT), MK_REFUSED, MK_NO_IMAGE);
  told(mk_driver_deposit(TABLE, MEMORY, process, driver, 0, 0, NONE, OUT), MK_DEPOSITED, 0);
  assert(!mk_driver_deposit(TABLE, MEMORY, process, driver, 0, 0, NONE, NONE));

  told(mk_driver_fetch(NONE, MEMORY, FLASH, process, driver, 0, 0, 0, OUT), MK_FETCHED, MK_NO_TABLE);
  told(mk_driver_fetch(TABLE, NONE, FLASH, process, driver, 0, 0, 0, OUT), MK_FETCHED, MK_NO_IMAGE);
  told(mk_driver_fetch(TABLE, MEMORY, NONE, process, driver, 0, 0, 0, OUT), MK_FETCHED, MK_NO_IMAGE);
  told(mk_driver_fetch(TABLE, MEMORY, FLASH, process, driver, 0, 0, 0, OUT), MK_FETCHED, MK_ACCEPTED);
  assert(!mk_driver_fetch(TABLE, MEMORY, FLASH, process, driver, 0, 0, 0, NONE));
}

static void runs(void) {
  /* a board without processes and drivers, and a call of process 0 */
  static const uint8_t trace[] = {2, 0, 0, 0, 0, 0, 0, 0, 0, 0};
  uint8_t lines[64];
  uint64_t run[MK_RUN_WORDS];

  /* an empty trace has no board */
  assert(mk_trace_replay(NONE, 0, TABLE, MEMORY, FLASH, lines, sizeof lines, run, MK_RUN_WORDS));
  assert(run[0] == MK_ENDED && run[2] == 4 && memcmp(lines, "B 0\n", 4) == 0);
  /* no room, so nothing is begun */
  assert(mk_trace_replay(trace, sizeof trace, 0, TABLE, MEMORY, FLASH, NONE, run, MK_RUN_WORDS));
  assert(run[0] == MK_PAUSED && run[1] == 0 && run[2] == 0);
  assert(!mk_trace_replay(trace, sizeof trace, 0, TABLE, MEMORY, FLASH, lines, sizeof lines, NONE));
  /* with neither table nor images the call is refused */
  assert(mk_trace_replay(trace, sizeof trace, 3, NONE, NONE, NONE, lines, sizeof lines, run, MK_RUN_WORDS));
  assert(run[2] == 4 && memcmp(lines, "X 1\n", 4) == 0);
}

int main(void) {
  steps_and_the_question();
  buffers();
  runs();
  printf("C: a null pointer with length 0 is an empty slice, for each slice of each function\n");
  return 0;
}

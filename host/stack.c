/* How much stack each export takes: it is called on one that is filled with a pattern, with a table at the limits, and the lowest changed
 * byte is looked for. Prints the most of each, and fails where it is above the bound that docs/LINKING.md states. It is linked with -z now,
 * so that no call goes through the loader, and is given traces as files. */
#define _XOPEN_SOURCE 600
#include <stdio.h>
#include <string.h>
#include <ucontext.h>

#include "makvluria.h"

#define STEP_BOUND 512
#define RUN_BOUND 4096

#define PROCESSES 8
#define DRIVERS 16
#define SLOTS 4
#define TABLE table, MK_TABLE_WORDS
#define MEMORY memory, MK_IMAGE_BYTES
#define FLASH flash, MK_IMAGE_BYTES
#define OUT out, MK_ANSWER_WORDS

static uint32_t board[MK_BOARD_WORDS];
static uint32_t table[MK_TABLE_WORDS];
static uint32_t full[MK_TABLE_WORDS]; /* every slot in use, every queue full */
static uint8_t memory[MK_IMAGE_BYTES];
static uint8_t flash[MK_IMAGE_BYTES];
static uint8_t lines[MK_LINES_BYTES];
static uint8_t trace[65536];
static size_t trace_bytes;
static uint32_t out[MK_ANSWER_WORDS];
static uint64_t run[MK_RUN_WORDS];
static const uint8_t bytes[16];

/* The class and the registers of the call, the class of the question, and where the run begins: what the cases differ in. */
static uint8_t class_number;
static uint32_t r[4];
static size_t at;

static bool check(void) { return mk_table_well_formed(TABLE); }
static bool start(void) { return mk_start(TABLE, board, MK_BOARD_WORDS, OUT); }
static bool call(void) { return mk_call(TABLE, MEMORY, 7, class_number, r[0], r[1], r[2], r[3], OUT); }
static bool event(void) { return mk_event(TABLE, 7, DRIVERS, SLOTS - 1, 1, 2, 3, OUT); }
static bool resume(void) { return mk_resume(TABLE, 7, OUT); }
static bool deposit(void) { return mk_deposit(TABLE, MEMORY, 7, DRIVERS, SLOTS - 1, 0, bytes, sizeof bytes, OUT); }
static bool fetch(void) { return mk_fetch(TABLE, MEMORY, FLASH, 7, DRIVERS, SLOTS - 1, 0, 16, OUT); }
static bool latch(void) { return mk_latch(TABLE, DRIVERS, -5, OUT); }
static bool area(void) { return mk_area(TABLE, 7, class_number, DRIVERS, SLOTS - 1, OUT); }
static bool replay(void) { return mk_replay(trace, trace_bytes, at, TABLE, MEMORY, FLASH, lines, sizeof lines, run, MK_RUN_WORDS); }

static unsigned char stack[65536];
static unsigned char *top;
static bool (*volatile step)(void);
static bool failed;

static void on_the_stack(void) {
  unsigned char mark;
  top = &mark;
  if (!step()) failed = true;
}

/* How far below its caller a step has written: the frame of the function above that makes the call is counted, with the arguments that are
 * passed on the stack. */
static size_t depth(bool (*s)(void)) {
  static ucontext_t here, there;
  memset(stack, 0xA5, sizeof stack);
  getcontext(&there);
  there.uc_stack.ss_sp = stack;
  there.uc_stack.ss_size = sizeof stack;
  there.uc_link = &here;
  makecontext(&there, on_the_stack, 0);
  step = s;
  swapcontext(&here, &there);
  size_t low = 0;
  while (stack[low] == 0xA5) low++;
  return (size_t)(top - (stack + low));
}

static void expect(bool fact) {
  if (!fact) failed = true;
}

static void take(size_t *most, bool (*s)(void)) {
  size_t now = depth(s);
  if (*most < now) *most = now;
}

static void tell(const char *name, size_t most, size_t bound) {
  printf("%-20s %5zu bytes of stack, bound %zu\n", name, most, bound);
  expect(most <= bound);
}

/* A call of process 7 on the full table. */
static void take_call(size_t *most, uint8_t number, uint32_t r0, uint32_t r1, uint32_t r2, uint32_t r3) {
  memcpy(table, full, sizeof full);
  class_number = number, r[0] = r0, r[1] = r1, r[2] = r2, r[3] = r3;
  take(most, call);
}

/* The largest board: each process has 8 KiB of memory and of flash, and may call every driver; the last driver is shared. Then every slot
 * is used and every queue filled. */
static void fill(void) {
  uint32_t *w = board;
  *w++ = PROCESSES;
  for (uint32_t p = 0; p < PROCESSES; p++) {
    uint32_t ram = MK_MEMORY_BASE + 0x2000 * p, rom = MK_FLASH_BASE + 0x2000 * p;
    *w++ = ram, *w++ = ram + 0x2000, *w++ = ram + 0x1800, *w++ = ram + 0x1000, *w++ = rom, *w++ = rom + 0x2000, *w++ = 0xFFFF;
  }
  *w++ = DRIVERS;
  for (uint32_t d = 1; d <= DRIVERS; d++) *w++ = d, *w++ = SLOTS, *w++ = SLOTS, *w++ = SLOTS, *w++ = d == DRIVERS;
  expect(start() && out[0] == MK_STARTED);
  for (uint32_t p = 0; p < PROCESSES; p++)
    for (uint32_t d = 1; d <= DRIVERS; d++)
      for (uint32_t slot = 0; slot < SLOTS; slot++) {
        uint32_t ram = MK_MEMORY_BASE + 0x2000 * p, rom = MK_FLASH_BASE + 0x2000 * p;
        mk_call(TABLE, MEMORY, p, MK_CLASS_SUBSCRIBE, d, slot, rom + 16, slot, OUT);
        mk_call(TABLE, MEMORY, p, MK_CLASS_READWRITE_ALLOW, d, slot, ram + 16, 16, OUT);
        mk_call(TABLE, MEMORY, p, MK_CLASS_READONLY_ALLOW, d, slot, rom + 16, 16, OUT);
        mk_event(TABLE, p, d, slot, 1, 2, 3, OUT);
      }
  expect(check());
  memcpy(full, table, sizeof full);
}

static void steps(void) {
  size_t most[8] = {0};
  take(&most[0], check);
  take(&most[1], start);
  for (uint32_t number = 0; number < 4; number++) {
    take_call(&most[2], MK_CLASS_YIELD, number, MK_MEMORY_BASE + 0xE000, 0, 0);
    take_call(&most[2], MK_CLASS_COMMAND, DRIVERS, number, 0, 0);
    take_call(&most[2], MK_CLASS_EXIT, number, 9, 0, 0);
  }
  for (uint32_t number = 0; number < 13; number++) take_call(&most[2], MK_CLASS_MEMOP, number, MK_MEMORY_BASE + 0xF000, 0, 0);
  take_call(&most[2], MK_CLASS_SUBSCRIBE, DRIVERS, SLOTS - 1, MK_FLASH_BASE + 0xE010, 1);
  take_call(&most[2], MK_CLASS_SUBSCRIBE, DRIVERS, SLOTS - 1, 0, 0);
  take_call(&most[2], MK_CLASS_READWRITE_ALLOW, DRIVERS, SLOTS - 1, MK_MEMORY_BASE + 0xE020, 32);
  take_call(&most[2], MK_CLASS_READONLY_ALLOW, DRIVERS, SLOTS - 1, MK_FLASH_BASE + 0xE020, 32);
  take_call(&most[2], 7, 0, 0, 0, 0);

  memcpy(table, full, sizeof full);
  take(&most[3], event);
  expect(out[0] == MK_REFUSED && out[1] == MK_QUEUE_FULL);
  take(&most[5], deposit);
  expect(out[0] == MK_DEPOSITED);
  take(&most[6], fetch);
  expect(out[0] == MK_FETCHED && out[1] == MK_ACCEPTED);
  take(&most[7], latch);
  expect(out[0] == MK_LATCHED);
  take_call(&most[2], MK_CLASS_YIELD, 1, 0, 0, 0);
  expect(out[0] == MK_DELIVERED);
  take(&most[3], event);
  expect(out[0] == MK_TAKEN);

  /* a process that waits, and then has an upcall */
  start();
  mk_call(TABLE, MEMORY, 7, MK_CLASS_SUBSCRIBE, DRIVERS, SLOTS - 1, MK_FLASH_BASE + 0xE010, 1, OUT);
  mk_call(TABLE, MEMORY, 7, MK_CLASS_YIELD, 1, 0, 0, 0, OUT);
  take(&most[4], resume);
  expect(out[0] == MK_WAITING);
  event();
  take(&most[4], resume);
  expect(out[0] == MK_DELIVERED);

  static const char *const names[] = {"mk_table_well_formed", "mk_start",   "mk_call",  "mk_event",
                                      "mk_resume",            "mk_deposit", "mk_fetch", "mk_latch"};
  for (size_t i = 0; i < 8; i++) tell(names[i], most[i], STEP_BOUND);
}

/* The question on the full table: of each class, and where there is no table. */
static void questions(void) {
  size_t most = 0;
  memcpy(table, full, sizeof full);
  for (class_number = 0; class_number < 8; class_number++) {
    bool lends = class_number == MK_CLASS_READWRITE_ALLOW || class_number == MK_CLASS_READONLY_ALLOW;
    take(&most, area);
    expect(out[0] == (lends ? MK_HELD : MK_REFUSED));
  }
  table[0] = 0;
  take(&most, area);
  expect(out[0] == MK_REFUSED && out[1] == MK_NO_TABLE);
  tell("mk_area", most, STEP_BOUND);
}

/* Each trace, with a restart of process 0 at its end: every cut of it from the board on, and all of it from every place on, most of which
 * are no record's, so that what is there is broken. */
static void runs(int files, char **names) {
  static const uint8_t restart[] = {0, 0, MK_CLASS_EXIT, 1, 9, 0, 0};
  size_t most = 0;
  for (int i = 0; i < files; i++) {
    FILE *file = fopen(names[i], "rb");
    size_t all = file ? fread(trace, 1, sizeof trace - sizeof restart, file) : 0;
    if (file) fclose(file);
    expect(all > 0);
    memcpy(trace + all, restart, sizeof restart);
    all += sizeof restart;
    for (at = trace_bytes = 0; trace_bytes <= all; trace_bytes++) take(&most, replay);
    for (trace_bytes = all; at < all; at++) take(&most, replay);
  }
  tell("mk_replay", most, RUN_BOUND);
}

int main(int count, char **names) {
  expect(count > 1);
  fill();
  steps();
  questions();
  runs(count - 1, names + 1);
  return failed;
}

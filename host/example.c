/* The incident, from C. Process 0 lent a buffer at 0xFFFFFFFF with size 2; the sum of the two wraps in 32 bits. Here it is refused, and
 * what a driver deposits for process 1 lands in process 1's buffer and nowhere else. Then each other step once, the question where a buffer
 * lies, and a run over a trace. */
#include <inttypes.h>
#include <stdio.h>

#include "makvluria.h"

/* The drivers' numbers, as they stand in the board and in registers. Neither is also a process's index, so that what is printed would show
 * one passed for the other. */
#define RECEIVER 0x90001u   /* with two subscribe slots, a read-write and a read-only one */
#define CORRELATOR 0x90000u /* shared */

static const mk_driver_t receiver = {RECEIVER};
static const mk_driver_t correlator = {CORRELATOR};
static const mk_process_t process_0 = {0};
static const mk_process_t process_1 = {1};

static const uint32_t board[] = {
  2,
  0x20000000, 0x20002000, 0x20001800, 0x20001000, 0x00040000, 0x00044000, 3,
  0x20002000, 0x20004000, 0x20003800, 0x20003000, 0x00044000, 0x00048000, 3,
  2,
  RECEIVER, 2, 1, 1, 0,
  CORRELATOR, 1, 1, 0, 1,
};

static uint32_t table[MK_TABLE_WORDS];
static uint8_t memory[MK_IMAGE_BYTES];
static uint8_t flash[MK_IMAGE_BYTES];
static uint32_t out[MK_ANSWER_WORDS];

/* By enum mk_held_area. */
static const char *const area_names[] = {"empty", "RAM", "flash", "outside"};

static void print_answer(const char *what, bool done) {
  if (!done) {
    printf("%s: no room for an answer\n", what);
    return;
  }
  switch (out[0]) {
    case MK_REFUSED:
      printf("%s: refused with %" PRIu32 "\n", what, out[1]);
      break;
    case MK_REGISTERS:
      printf("%s: registers %" PRIu32 " %" PRIu32 " %" PRIu32 " %" PRIu32 "\n", what, out[1], out[2], out[3], out[4]);
      break;
    case MK_DELIVERED:
      printf("%s: upcall 0x%08" PRIX32 " with %" PRIu32 " %" PRIu32 " %" PRIu32 " %" PRIu32 "\n", what, out[1], out[2], out[3], out[4],
             out[5]);
      break;
    case MK_WAITING:
      printf("%s: waiting\n", what);
      break;
    case MK_TAKEN:
      printf("%s: taken\n", what);
      break;
    case MK_LATCHED:
      printf("%s: latched\n", what);
      break;
    case MK_FETCHED:
      printf("%s: number %" PRIu32 ", in %s at %" PRIu32 ", %" PRIu32 " bytes\n", what, out[1], out[2] == MK_FLASH ? "flash" : "memory",
             out[3], out[4]);
      break;
    case MK_DEPOSITED:
      printf("%s: deposited\n", what);
      break;
    case MK_STARTED:
      printf("%s: started\n", what);
      break;
    case MK_HELD:
      printf("%s: %s, %" PRIu32 " bytes at 0x%08" PRIX32 "\n", what, area_names[out[1]], out[3], out[2]);
      break;
    default:
      printf("%s: kind %" PRIu32 "\n", what, out[0]);
  }
}

static void call(const char *what, mk_process_t process, uint8_t class_number, uint32_t r0, uint32_t r1, uint32_t r2, uint32_t r3) {
  print_answer(what, mk_process_call(table, MK_TABLE_WORDS, memory, MK_IMAGE_BYTES, process, class_number, r0, r1, r2, r3, out,
                                     MK_ANSWER_WORDS));
}

static void deposit(const char *what, mk_process_t process, uint32_t offset) {
  static const uint8_t fix[] = {'G', 'P', 'S', '!'};
  print_answer(what, mk_driver_deposit(table, MK_TABLE_WORDS, memory, MK_IMAGE_BYTES, process, receiver, 0, offset, fix, sizeof fix, out,
                                       MK_ANSWER_WORDS));
}

static void incident(void) {
  call("process 0 lends 2 bytes at 0xFFFFFFFF", process_0, MK_CLASS_READWRITE_ALLOW, RECEIVER, 0, 0xFFFFFFFF, 2);
  if (out[1] == TOCK_SYSCALL_FAILURE_U32_U32 && out[2] == TOCK_STATUSCODE_INVAL) printf("that is Failure with 2 u32, INVAL\n");
  deposit("a driver fills it", process_0, 0);

  call("process 1 lends 16 bytes at 0x20002100", process_1, MK_CLASS_READWRITE_ALLOW, RECEIVER, 0, 0x20002100, 16);
  deposit("a driver fills its last four", process_1, 12);
  deposit("and one past its end", process_1, 13);

  size_t written = 0;
  for (size_t i = 0; i < MK_IMAGE_BYTES; i++) written += memory[i] != 0;
  printf("bytes at 0x2000210C: %.4s; written in the whole image: %zu\n", (const char *)memory + 0x210C, written);
}

static void each_other_step(void) {
  call("process 1 subscribes", process_1, MK_CLASS_SUBSCRIBE, RECEIVER, 0, 0x00044010, 7);
  call("process 1 yields", process_1, MK_CLASS_YIELD, 1, 0, 0, 0);
  print_answer("an event", mk_driver_event(table, MK_TABLE_WORDS, process_1, receiver, 0, 4, 5, 6, out, MK_ANSWER_WORDS));
  print_answer("resume", mk_process_resume(table, MK_TABLE_WORDS, process_1, out, MK_ANSWER_WORDS));

  call("process 1 lends 4 bytes at 0x00044100 to be read", process_1, MK_CLASS_READONLY_ALLOW, RECEIVER, 0, 0x00044100, 4);
  flash[0x4101] = 'm', flash[0x4102] = 'a', flash[0x4103] = 'p';
  print_answer("a driver reads the last three", mk_driver_fetch(table, MK_TABLE_WORDS, memory, MK_IMAGE_BYTES, flash, MK_IMAGE_BYTES,
                                                                process_1, receiver, 0, 1, 3, out, MK_ANSWER_WORDS));
  printf("bytes there: %.*s\n", (int)out[4], (const char *)flash + out[3]);

  print_answer("a peak of -5", mk_driver_latch(table, MK_TABLE_WORDS, correlator, -5, out, MK_ANSWER_WORDS));
  call("process 1 claims", process_1, MK_CLASS_COMMAND, CORRELATOR, 1, 0, 0);
  call("process 1 reads", process_1, MK_CLASS_COMMAND, CORRELATOR, 3, 0, 0);
}

/* Where a buffer in the first slot of a driver lies. */
static void area(const char *what, mk_process_t process, uint8_t class_number, mk_driver_t driver) {
  print_answer(what, mk_buffer_area(table, MK_TABLE_WORDS, process, class_number, driver, 0, out, MK_ANSWER_WORDS));
}

static void questions(void) {
  area("the buffer that process 1 lends to be written", process_1, MK_CLASS_READWRITE_ALLOW, receiver);
  area("the one to be read", process_1, MK_CLASS_READONLY_ALLOW, receiver);
  area("that of process 0, which has lent none", process_0, MK_CLASS_READONLY_ALLOW, receiver);
  area("one to be read by the correlator, which has no slot for it", process_1, MK_CLASS_READONLY_ALLOW, correlator);
}

/* Prints the lines of a trace as they come. The room is small, so that a run of a few lines pauses; one that fetches many bytes needs
 * more, up to MK_LINES_BYTES. */
static void replay(const uint8_t *trace, size_t trace_bytes) {
  uint8_t lines[64];
  uint64_t run[MK_RUN_WORDS];
  size_t at = 0;
  while (mk_trace_replay(trace, trace_bytes, at, table, MK_TABLE_WORDS, memory, MK_IMAGE_BYTES, flash, MK_IMAGE_BYTES, lines,
                         sizeof lines, run, MK_RUN_WORDS)) {
    fwrite(lines, 1, run[2], stdout);
    if (run[0] == MK_ENDED) {
      printf("the run ended\n");
      return;
    }
    printf("the run paused at byte %" PRIu64 "\n", run[1]);
    if (run[1] == at) {
      printf("its next line does not fit in %zu bytes\n", sizeof lines);
      return;
    }
    at = run[1];
  }
}

/* A board with one process; it asks where its memory starts, waits for an upcall, and is asked again. */
static const uint8_t whole_case[] = {
  0x09, 0x01, 0x80, 0x80, 0x80, 0x80, 0x02, 0x80, 0x80, 0x84, 0x80, 0x02, 0x80, 0x80, 0x84, 0x80,
  0x02, 0x80, 0x80, 0x80, 0x80, 0x02, 0x80, 0x80, 0x10, 0x80, 0x80, 0x14, 0x00, 0x00, 0x00, 0x00,
  0x05, 0x02, 0x00, 0x00, 0x00, 0x00, 0x00, 0x00, 0x01, 0x00, 0x00, 0x00, 0x02, 0x00,
};

int main(void) {
  print_answer("an answer of one word", mk_table_start(table, MK_TABLE_WORDS, board, sizeof board / sizeof *board, out, 1));
  print_answer("start", mk_table_start(table, MK_TABLE_WORDS, board, sizeof board / sizeof *board, out, MK_ANSWER_WORDS));
  incident();
  each_other_step();
  questions();
  printf("the table is %swell formed\n", mk_table_is_well_formed(table, MK_TABLE_WORDS) ? "" : "not ");
  replay(whole_case, sizeof whole_case);
  return 0;
}

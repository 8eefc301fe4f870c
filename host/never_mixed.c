/* Each step that names a process or a driver, and the question, once. It compiles as it stands; with -DPROCESS=mk_driver_t or
 * -DDRIVER=mk_process_t one is passed for the other, and each call that takes it must be refused (host/run). */
#include "makvluria.h"

#ifndef PROCESS
#define PROCESS mk_process_t
#endif
#ifndef DRIVER
#define DRIVER mk_driver_t
#endif

bool each_step_and_the_question(uint32_t *table, uint8_t *memory, const uint8_t *flash, const uint8_t *bytes, uint32_t *out);

bool each_step_and_the_question(uint32_t *table, uint8_t *memory, const uint8_t *flash, const uint8_t *bytes, uint32_t *out) {
  PROCESS process = {0};
  DRIVER driver = {1};
  bool done = true;
  done &= mk_process_call(table, MK_TABLE_WORDS, memory, MK_IMAGE_BYTES, process, MK_CLASS_YIELD, 0, 0, 0, 0, out, MK_ANSWER_WORDS);
  done &= mk_driver_event(table, MK_TABLE_WORDS, process, driver, 0, 0, 0, 0, out, MK_ANSWER_WORDS);
  done &= mk_process_resume(table, MK_TABLE_WORDS, process, out, MK_ANSWER_WORDS);
  done &= mk_driver_deposit(table, MK_TABLE_WORDS, memory, MK_IMAGE_BYTES, process, driver, 0, 0, bytes, 1, out, MK_ANSWER_WORDS);
  done &= mk_driver_fetch(table, MK_TABLE_WORDS, memory, MK_IMAGE_BYTES, flash, MK_IMAGE_BYTES, process, driver, 0, 0, 1, out,
                          MK_ANSWER_WORDS);
  done &= mk_driver_latch(table, MK_TABLE_WORDS, driver, 0, out, MK_ANSWER_WORDS);
  done &= mk_buffer_area(table, MK_TABLE_WORDS, process, MK_CLASS_READONLY_ALLOW, driver, 0, out, MK_ANSWER_WORDS);
  return done;
}

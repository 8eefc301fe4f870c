/* Each number of makvluria_sizes.h is the one that the library tells, by its number; beyond the last it tells 0. */
#include <stdio.h>

#include "makvluria.h"

static const struct {
  const char *name;
  uint32_t number;
  uint64_t size;
} sizes[] = {
#define SIZE(name) {#name, MK_SIZE_##name, MK_##name}
    SIZE(MAX_PROCESSES), SIZE(MAX_DRIVERS), SIZE(MAX_SLOTS),   SIZE(MAX_QUEUED), SIZE(TABLE_WORDS),
    SIZE(BOARD_WORDS),   SIZE(IMAGE_BYTES), SIZE(MEMORY_BASE), SIZE(FLASH_BASE)};

int main(void) {
  const uint32_t count = sizeof sizes / sizeof sizes[0];
  bool equal = mk_sizes_agree() && mk_size(count) == 0 && mk_size(UINT32_MAX) == 0;
  for (uint32_t i = 0; i < count; i++) {
    const uint64_t told = mk_size(sizes[i].number);
    if (told == sizes[i].size && sizes[i].number == i) continue;
    printf("MK_%s is %ju, and the library tells %ju\n", sizes[i].name, (uintmax_t)sizes[i].size, (uintmax_t)told);
    equal = false;
  }
  if (!equal) return 1;
  printf("the %u sizes of makvluria_sizes.h are the library's\n", (unsigned)count);
  return 0;
}

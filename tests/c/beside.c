/* A program over this library and another one of Rust. */
#include <stdio.h>

#include "gotsavena.h"

size_t other_blocks(void);
uint64_t other_sum(uint64_t count);

static int use_ends(void) {
  gv_settings settings;
  gv_limits limits = {.size = sizeof limits};
  gv_endpoint *end = NULL;
  uint64_t stream;
  size_t count;
  if (gv_settings_init(&settings, sizeof settings) != GV_OK || gv_limits_of(&settings, &limits) != GV_OK) return 1;
  if (gv_endpoint_new(GV_ROLE_CLIENT, &settings, &limits, &end) != GV_OK) return 1;
  if (gv_open(end, GV_DIR_UNI, &stream, NULL) != GV_OK) return 1;
  if (gv_write(end, stream, (const uint8_t *)"hello", 5, &count) != GV_OK || count != 5) return 1;
  gv_endpoint_free(end);
  return 0;
}

int main(void) {
  if (other_sum(10) != 45) return 1;
  size_t before = other_blocks();
  if (use_ends() != 0) return 1;
  printf("%zu blocks of the other library\n", other_blocks());
  return before > 0 && other_blocks() == before && other_sum(4) == 6 ? 0 : 1;
}

/* Prints what gv_settings_init sets, as Rust's example of that name does. */
#include "gotsavena.h"

#include <inttypes.h>
#include <stdio.h>

int main(void) {
  gv_settings s;
  if (gv_settings_init(&s, sizeof s) != GV_OK) return 1;
  printf("conn_window: %" PRIu64 "\n", s.conn_window);
  printf("bidi_local: %" PRIu64 "\n", s.bidi_local);
  printf("bidi_remote: %" PRIu64 "\n", s.bidi_remote);
  printf("uni: %" PRIu64 "\n", s.uni);
  printf("send_buffer: %zu\n", s.send_buffer);
  printf("grant_bidi: %" PRIu64 "\n", s.grant_bidi);
  printf("grant_uni: %" PRIu64 "\n", s.grant_uni);
  printf("lifetime_bidi: %" PRIu64 "\n", s.lifetime_bidi);
  printf("lifetime_uni: %" PRIu64 "\n", s.lifetime_uni);
  return 0;
}

/* replay VECTORS.tsv: replays the test vectors at endpoints of the C library. The last line is 'N vectors, M differ'. */
#include "gotsavena.h"
#include <stdio.h>
#include <stdlib.h>
#include <string.h>

enum { LINE = 1 << 17, PAYLOAD = 1 << 16, ROOM = 1200 };

static char line[LINE];
static uint8_t payload[PAYLOAD], out[ROOM];

static void give_up(const char *what) {
  fprintf(stderr, "replay: %s\n", what);
  exit(1);
}

/* An endpoint that opened a stream of either direction, wrote "hi" on each and sent that. */
static gv_endpoint *endpoint(gv_role role) {
  gv_settings own;
  gv_limits peer = {.size = sizeof peer};
  gv_made made = {.size = sizeof made};
  gv_endpoint *end;
  if (gv_settings_init(&own, sizeof own)) give_up("no settings");
  own.conn_window = 20000;
  own.bidi_local = own.bidi_remote = own.uni = 8192;
  own.grant_bidi = own.grant_uni = 16;
  peer.max_data = 1 << 20;
  peer.bidi_local = peer.bidi_remote = peer.uni = 1 << 18;
  peer.streams_bidi = peer.streams_uni = 100;
  if (gv_endpoint_new(role, &own, &peer, &end)) give_up("no endpoint");
  for (int dir = 0; dir < 2; dir++) {
    uint64_t stream;
    size_t count;
    if (gv_open(end, dir ? GV_DIR_UNI : GV_DIR_BIDI, &stream, NULL) || gv_write(end, stream, (const uint8_t *)"hi", 2, &count)) give_up("no stream");
  }
  if (gv_make_packet(end, out, sizeof out, &made)) give_up("no packet");
  return end;
}

static void read_all(gv_endpoint *end) {
  uint64_t stream = 0;
  size_t count;
  while (gv_next_readable(end, stream, &stream) == GV_OK) {
    while (gv_read(end, stream, out, sizeof out, &count, NULL) == GV_OK && count > 0) {}
    stream++;
  }
}

static size_t unhex(const char *text) {
  size_t len = strlen(text) / 2;
  for (size_t at = 0; at < len; at++) {
    char pair[3] = {text[2 * at], text[2 * at + 1], 0};
    payload[at] = (uint8_t)strtoul(pair, NULL, 16);
  }
  return len;
}

/* Whether the endpoint does with NUMBER:HEX:PERMITTED what the proved layer does, which stands first. */
static int is_same(gv_endpoint *end, char *cell) {
  gv_closing_info closing = {.size = sizeof closing};
  char *hex = strchr(cell, ':'), *permitted = hex ? strchr(hex + 1, ':') : NULL;
  if (!permitted) give_up("a cell isn't NUMBER:HEX:PERMITTED");
  *hex++ = *permitted++ = 0;
  permitted[strcspn(permitted, ",")] = 0;
  size_t len = unhex(hex);
  gv_status status = gv_receive(end, strtoull(cell, NULL, 10), payload, len);
  if (status != GV_PROTOCOL_ERROR) return strcmp(permitted, "on") == 0;
  return gv_closing(end, &closing) == GV_OK && strtoull(permitted, NULL, 10) == closing.code && *permitted != 'o';
}

static int replay(char *role, char *rest) {
  char *name = strsep(&rest, "\t"), *level = strsep(&rest, "\t"), *reads = strsep(&rest, "\t"), *cell;
  gv_endpoint *end = endpoint(strcmp(role, "server") == 0 ? GV_ROLE_SERVER : GV_ROLE_CLIENT);
  int same = 1;
  if (!name || !level || !reads) give_up("a line has too few columns");
  while (same && (cell = strsep(&rest, "\t"))) {
    same = is_same(end, cell);
    if (!same) printf("%s %s differs at %s\n", role, name, cell);
    if (*reads == '1') read_all(end);
  }
  gv_endpoint_free(end);
  return same;
}

int main(int argc, char **argv) {
  unsigned count = 0, differ = 0;
  FILE *file = argc == 2 ? fopen(argv[1], "r") : NULL;
  if (!file) return fprintf(stderr, "usage: replay VECTORS.tsv\n"), 2;
  while (fgets(line, sizeof line, file)) {
    char *rest = line, *role;
    line[strcspn(line, "\n")] = 0;
    role = strsep(&rest, "\t");
    count++;
    differ += !replay(role, rest);
  }
  fclose(file);
  printf("%u vectors, %u differ\n", count, differ);
  return differ != 0;
}

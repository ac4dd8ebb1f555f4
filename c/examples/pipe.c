/* Two endpoints in one process and a queue between them that loses packets: each byte that is read is checked. */
#include <stdio.h>
#include <stdlib.h>

#include "gotsavena.h"

enum { TOTAL = 1 << 20, ROOM = 1200 };

static uint32_t seed = 7;

static bool is_lost(void) {
  seed = seed * 1664525u + 1013904223u;
  return seed >> 24 < 26; /* about one in ten */
}

static uint8_t byte_at(size_t offset) { return (uint8_t)(offset * 31 + (offset >> 8)); }

static void want(gv_status status, gv_status wanted, const char *what) {
  if (status != wanted) {
    fprintf(stderr, "%s: %s\n", what, gv_strerror(status));
    exit(1);
  }
}

/* What one end has to send goes to the other, or is lost. */
static bool carry(gv_endpoint *from, gv_endpoint *to) {
  uint8_t payload[ROOM];
  gv_made made = {.size = sizeof made};
  gv_status status = gv_make_packet(from, payload, sizeof payload, &made);
  if (status == GV_NONE) return false;
  want(status, GV_OK, "make");
  if (is_lost()) {
    if (made.is_ack_eliciting) want(gv_declare_lost(from, made.number), GV_OK, "lose");
  } else {
    want(gv_receive(to, made.number, payload, made.len), GV_OK, "receive");
  }
  return true;
}

static size_t write_some(gv_endpoint *end, uint64_t stream, size_t sent) {
  uint8_t bytes[4096];
  size_t count = 0, len = TOTAL - sent < sizeof bytes ? TOTAL - sent : sizeof bytes;
  for (size_t i = 0; i < len; i++) bytes[i] = byte_at(sent + i);
  want(gv_write(end, stream, bytes, len, &count), GV_OK, "write");
  if (count > 0 && sent + count == TOTAL) want(gv_finish(end, stream), GV_OK, "finish");
  return sent + count;
}

/* Reads what came; true once the stream ended. */
static bool read_some(gv_endpoint *end, uint64_t stream, size_t *got) {
  uint8_t bytes[4096];
  size_t count;
  gv_status status;
  while ((status = gv_read(end, stream, bytes, sizeof bytes, &count, NULL)) == GV_OK)
    for (size_t i = 0; i < count; i++)
      if (bytes[i] != byte_at((*got)++)) want(GV_INVALID, GV_OK, "byte");
  if (status != GV_NOTHING_YET) want(status, GV_END_OF_STREAM, "read");
  return status == GV_END_OF_STREAM;
}

int main(void) {
  gv_settings settings;
  gv_limits limits = {.size = sizeof limits};
  gv_endpoint *client, *server;
  uint64_t stream, other = 1;
  size_t sent = 0, got = 0;
  bool is_over = false, is_open = false;
  want(gv_settings_init(&settings, sizeof settings), GV_OK, "settings");
  settings.conn_window = settings.send_buffer = 65536;
  settings.bidi_remote = 32768;
  want(gv_limits_of(&settings, &limits), GV_OK, "limits");
  want(gv_endpoint_new(GV_ROLE_CLIENT, &settings, &limits, &client), GV_OK, "client");
  want(gv_endpoint_new(GV_ROLE_SERVER, &settings, &limits, &server), GV_OK, "server");
  want(gv_open(client, GV_DIR_BIDI, &stream, NULL), GV_OK, "open");
  while (!is_over) {
    if (sent < TOTAL) sent = write_some(client, stream, sent);
    while (carry(client, server) || carry(server, client)) {}
    if (!is_open) is_open = gv_accept(server, &other) == GV_OK;
    if (is_open) is_over = read_some(server, other, &got);
  }
  gv_endpoint_free(client);
  gv_endpoint_free(server);
  if (got != TOTAL || stream != other) return 1;
  printf("%zu bytes, each right\n", got);
  return 0;
}

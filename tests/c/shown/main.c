/* The examples of the header, one for each group of calls, and those of docs/C.md, in an order that makes a connection of them. kind.sh
 * takes their texts out of both. */
#include <stdio.h>
#include <stdlib.h>
#include <string.h>

#include "gotsavena.h"

static gv_endpoint *client, *server;
static uint64_t stream;
static uint8_t payload[1200];
static size_t len;
static char was_read[64];
static uint64_t code_sent, code_read;

static void give_up(void) { exit(1); }

static void want(bool is_so, const char *what) {
  if (is_so) return;
  fprintf(stderr, "%s\n", what);
  give_up();
}

/* The first packet is lost. */
static bool is_lost(uint64_t number) { return number == 0; }
static void take_own(const gv_frame *frame) { want(frame->kind == GV_FRAME_PING, "a frame that nobody sent"); }
static void use(const uint8_t *bytes, size_t count) { strncat(was_read, (const char *)bytes, count); }
static void wait_for_max_data(void) { want(false, "no credit is left"); }
static void was_closed(uint64_t code) { code_read = code; }
static void close_with(uint64_t code, uint64_t type) { code_sent = code + type; }
static void send_packet(const uint8_t *bytes, size_t count) {
  want(bytes == payload && count > 0, "no close is written");
  gv_closing_info why = {.size = sizeof why};
  want(gv_closing(server, &why) == GV_OK, "nothing is closed");
  code_sent = why.code;
}

static void of_the_library(void) {
#include "the-library.inc"
}
static void of_an_endpoint(void) {
#include "an-endpoint.inc"
}
static void of_streams(void) {
#include "streams.inc"
}
static void of_packets(void) {
#include "packets.inc"
}
static void of_events(void) {
#include "events.inc"
}
static void of_credit(void) {
#include "credit.inc"
}
static void of_frames_and_tokens(void) {
#include "frames-and-tokens.inc"
}
static void of_closing(void) {
#include "closing.inc"
}
static void of_frames(void) {
#include "frames.inc"
}

/* What the programs of docs/C.md leave to the reader. */
static void read_until_nothing_is_left(gv_endpoint *end, uint64_t which) {
  uint8_t bytes[64];
  size_t count;
  while (gv_read(end, which, bytes, sizeof bytes, &count, NULL) == GV_OK) use(bytes, count);
}
static void write_on(gv_endpoint *end, uint64_t which) {
  size_t count;
  want(gv_write(end, which, payload, 1, &count) == GV_OK, "nothing more is written");
}
static void page_events(gv_endpoint *end) {
  gv_status status;
#include "page-2.inc"
  want(status == GV_NONE, "an event too many");
}
static void take(uint64_t offset, const uint8_t *bytes, size_t count) { want(offset == 0 && bytes != NULL && count == 2, "another CRYPTO"); }
static void page_frames(void) {
  gv_status status;
#include "page-3.inc"
}
static bool is_acknowledged;
static gv_token remembered;
static void on_frame(const gv_frame *frame) { take_own(frame); }
static void acknowledge(uint64_t number) { is_acknowledged = number == 7; }
static void remember(uint64_t number, gv_token token) {
  want(number == 8, "another packet");
  remembered = token;
}
static size_t write_own_frames(uint8_t *out) {
  out[0] = 1; /* a PING */
  return 1;
}
static gv_status page_stack(gv_endpoint *end) {
  uint8_t out[1200];
  size_t room = sizeof out;
  uint64_t number = 7, next_number = 8;
  gv_status status;
#include "page-4.inc"
  memcpy(payload, out, sizeof out);
  len = own + filled.len;
  return status;
}

int main(void) {
  of_the_library();
  of_an_endpoint();
  of_streams();
  of_packets();
  of_events();
  want(strcmp(was_read, "hello") == 0, "other bytes than by the header's packets");
  of_credit();

  of_streams();
  of_frames_and_tokens();
  of_events();
  want(strcmp(was_read, "hellohello") == 0, "other bytes than by the header's frames");

  /* By the stack of the page: what the client fills in the server takes, and each reports its events. */
  of_streams();
  payload[0] = 1;
  len = 1;
  want(page_stack(client) == GV_NONE && is_acknowledged, "the packet isn't acknowledged");
  is_acknowledged = false;
  gv_token token = remembered;
  want(page_stack(server) == GV_NONE && is_acknowledged, "the stack's packet is refused");
  want(gv_token_acked(client, &token) == GV_OK, "its token is refused");
  page_events(server);
  want(strcmp(was_read, "hellohellohello") == 0, "other bytes than by the page's frames");

  /* A CRYPTO frame of two bytes; then a STREAM frame on a stream that only the server sends on. */
  static const uint8_t crypto[] = {6, 0, 2, 'h', 'i'}, broken[] = {0x0a, 3, 1, 'x'};
  memcpy(payload, crypto, sizeof crypto);
  len = sizeof crypto;
  page_frames();
  want(gv_receive(server, 1000, broken, sizeof broken) == GV_PROTOCOL_ERROR, "a broken rule is no error");
  of_closing();
  of_frames();
  want(code_sent == 5 && code_read == 5, "another close than STREAM_STATE_ERROR");
  gv_endpoint_free(client);
  gv_endpoint_free(server);
  return 0;
}

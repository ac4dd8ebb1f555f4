/* Each allocation of a transfer between two ends is refused, one after the other: a call that wants memory answers GV_NO_MEMORY, may
 * be made again, and every byte comes out right. Once with payloads and once with frames and tokens; once memory comes anew where it grows,
 * and once it is made larger. */
#include <stdio.h>
#include <stdlib.h>

#include "gotsavena.h"

enum { TOTAL = 20000, ROOM = 600, MOST_PACKETS = 1000 };

static unsigned long asked, refused_one, refusals;

static bool is_refused(void) {
  asked++;
  if (asked != refused_one) return false;
  refusals++;
  return true;
}

static void *allocate(void *context, size_t size, size_t align) {
  (void)context;
  (void)align;
  return is_refused() ? NULL : malloc(size);
}

static void *reallocate(void *context, void *at, size_t old_size, size_t new_size, size_t align) {
  (void)context;
  (void)old_size;
  (void)align;
  return is_refused() ? NULL : realloc(at, new_size);
}

static void release(void *context, void *at, size_t size, size_t align) {
  (void)context;
  (void)size;
  (void)align;
  free(at);
}

static gv_allocator allocator = {sizeof allocator, NULL, allocate, reallocate, release};

static unsigned long answered;

/* Makes a call, and once more where memory was refused. */
#define AGAIN(status, call)                             \
  do {                                                  \
    status = (call);                                    \
    if (status == GV_NO_MEMORY) answered++;             \
  } while (status == GV_NO_MEMORY)

static void want(gv_status status, gv_status wanted, const char *what) {
  if (status == wanted) return;
  fprintf(stderr, "allocation %lu refused: %s: status %d\n", refused_one, what, (int)status);
  exit(1);
}

static uint8_t byte_at(size_t offset) { return (uint8_t)(offset * 31 + (offset >> 8)); }

static gv_endpoint *new_end(gv_role role) {
  gv_settings settings = {sizeof settings, 8192, 4096, 4096, 4096, 4096, 8, 8, 8, 8};
  gv_limits limits = {sizeof limits, 8192, 4096, 4096, 4096, 8, 8};
  gv_endpoint *end = NULL;
  gv_status status;
  AGAIN(status, gv_endpoint_new_with(role, &settings, &limits, &allocator, &end));
  want(status, GV_OK, "new");
  return end;
}

static bool by_frames; /* what one end sends goes to the other as frames */

/* The frames of each third fill are lost, and the others are acknowledged. */
static bool hand_over(gv_endpoint *from, gv_endpoint *to) {
  uint8_t out[ROOM];
  gv_fill_request all = {.size = sizeof all, .items = true, .streams = true};
  gv_filled filled = {.size = sizeof filled};
  gv_frame frame = {.size = sizeof frame};
  gv_fault fault = {.size = sizeof fault};
  gv_taken taken;
  gv_status status;
  AGAIN(status, gv_fill(from, &all, out, sizeof out, &filled));
  if (status == GV_NONE) return false;
  want(status, GV_OK, "fill");
  gv_token token = filled.token;
  if (token.number % 3 == 1) {
    AGAIN(status, gv_token_lost(from, &token));
    want(status, GV_OK, "lost");
    return true;
  }
  gv_frames frames = {out, filled.len, 0};
  while (gv_frames_next(&frames, &frame, &fault) == GV_OK) {
    AGAIN(status, gv_take_frame(to, &frame, &taken));
    want(status, GV_OK, "take a frame");
  }
  AGAIN(status, gv_token_acked(from, &token));
  want(status, GV_OK, "acked");
  return true;
}

/* Which packets of an end were told to be acknowledged: each once, though memory is refused. */
typedef struct acks {
  bool told[MOST_PACKETS];
} acks;

static void tell(void *context, uint64_t number) {
  acks *all = context;
  if (number >= MOST_PACKETS || all->told[number]) want(GV_INVALID, GV_OK, "told once");
  all->told[number] = true;
}

/* Each third packet is lost. */
static bool carry(gv_endpoint *from, gv_endpoint *to, acks *of_to) {
  uint8_t payload[ROOM];
  gv_made made = {.size = sizeof made};
  gv_status status;
  if (by_frames) return hand_over(from, to);
  AGAIN(status, gv_make_packet(from, payload, sizeof payload, &made));
  if (status == GV_NONE) return false;
  want(status, GV_OK, "make");
  if (made.number % 3 != 1) {
    AGAIN(status, gv_receive_with_acks(to, made.number, payload, made.len, tell, of_to));
    want(status, GV_OK, "receive");
  } else if (made.is_ack_eliciting) {
    AGAIN(status, gv_declare_lost(from, made.number));
    want(status, GV_OK, "lose");
  }
  return true;
}

static size_t write_some(gv_endpoint *end, uint64_t stream, size_t sent) {
  uint8_t bytes[1000];
  size_t count = 0, len = TOTAL - sent < sizeof bytes ? TOTAL - sent : sizeof bytes;
  gv_status status;
  for (size_t i = 0; i < len; i++) bytes[i] = byte_at(sent + i);
  AGAIN(status, gv_write(end, stream, bytes, len, &count));
  want(status, GV_OK, "write");
  if (sent < TOTAL && sent + count == TOTAL) want(gv_finish(end, stream), GV_OK, "finish");
  return sent + count;
}

static bool read_some(gv_endpoint *end, uint64_t stream, size_t *got) {
  uint8_t bytes[700];
  size_t count;
  gv_status status;
  for (;;) {
    AGAIN(status, gv_read(end, stream, bytes, sizeof bytes, &count, NULL));
    if (status != GV_OK) break;
    for (size_t i = 0; i < count; i++)
      if (bytes[i] != byte_at((*got)++)) want(GV_INVALID, GV_OK, "byte");
  }
  if (status != GV_NOTHING_YET) want(status, GV_END_OF_STREAM, "read");
  return status == GV_END_OF_STREAM;
}

/* Each event comes once, though memory for its note is refused. */
static void hear(gv_endpoint *end, unsigned *heard) {
  gv_event event = {.size = sizeof event};
  gv_status status;
  for (;;) {
    AGAIN(status, gv_next_event(end, &event));
    if (status != GV_OK) break;
    if (event.kind == GV_EVENT_OPENED && (*heard & 1u << GV_EVENT_OPENED) != 0) want(GV_INVALID, GV_OK, "opened once");
    *heard |= 1u << event.kind;
  }
  want(status, GV_NONE, "events");
}

static void transfer(void) {
  gv_endpoint *client = new_end(GV_ROLE_CLIENT), *server = new_end(GV_ROLE_SERVER);
  uint64_t stream, other = 0;
  size_t sent = 0, got = 0;
  unsigned by_client = 0, by_server = 0;
  acks of_client = {{false}}, of_server = {{false}};
  gv_status status;
  AGAIN(status, gv_open(client, GV_DIR_BIDI, &stream, NULL));
  want(status, GV_OK, "open");
  for (bool is_open = false, is_over = false; !is_over;) {
    if (sent < TOTAL) sent = write_some(client, stream, sent);
    while (carry(client, server, &of_server) || carry(server, client, &of_client)) {}
    hear(server, &by_server);
    if (!is_open) is_open = gv_accept(server, &other) == GV_OK;
    if (is_open) is_over = read_some(server, other, &got);
    hear(client, &by_client);
  }
  want(got == TOTAL ? GV_OK : GV_INVALID, GV_OK, "length");
  want(of_client.told[0] == !by_frames ? GV_OK : GV_INVALID, GV_OK, "what was acknowledged is told");
  want(by_server == (1u << GV_EVENT_OPENED | 1u << GV_EVENT_READABLE) ? GV_OK : GV_INVALID, GV_OK, "what the server hears");
  want(by_client == 1u << GV_EVENT_FINISHED ? GV_OK : GV_INVALID, GV_OK, "what the client hears");
  gv_endpoint_free(client);
  gv_endpoint_free(server);
}

static bool refuse_each(void) {
  unsigned long all, before = refusals;
  answered = 0;
  refused_one = asked = 0;
  transfer();
  all = asked;
  for (refused_one = 1; refused_one <= all; refused_one++) {
    asked = 0;
    transfer();
  }
  printf("%lu allocations, each refused once: %lu refusals, %lu calls without memory\n", all, refusals - before, answered);
  return refusals - before == all;
}

static bool refuse_all(void) {
  by_frames = false;
  bool is_good = refuse_each();
  by_frames = true;
  return refuse_each() && is_good;
}

int main(void) {
  bool is_good = refuse_all();
  allocator.reallocate = NULL;
  return refuse_all() && is_good ? 0 : 1;
}

/* Bytes that are lent: those that a read would give, in one piece or in two, and each of them stays while questions are asked. */
#include <stdio.h>
#include <stdlib.h>
#include <string.h>

#include "gotsavena.h"
#include "refusing.h"

enum { TOTAL = 100000, STREAM = 3 };

static void check(bool holds, const char *what) {
  if (holds) return;
  fprintf(stderr, "%s\n", what);
  exit(1);
}

static void want(gv_status status, gv_status wanted, const char *what) {
  if (status == wanted) return;
  fprintf(stderr, "%s: %s, not %s\n", what, gv_strerror(status), gv_strerror(wanted));
  exit(1);
}

static gv_endpoint *new_end(void) {
  gv_settings settings = {sizeof settings, 8192, 3000, 3000, 3000, 2048, 8, 8, 8, 8};
  gv_limits limits = {sizeof limits, 8192, 3000, 3000, 3000, 8, 8};
  gv_allocator memory = {.size = sizeof memory, .allocate = allocate, .release = release};
  gv_endpoint *end = NULL;
  want(gv_endpoint_new_with(GV_ROLE_CLIENT, &settings, &limits, &memory, &end), GV_OK, "new");
  return end;
}

static uint8_t byte_at(uint64_t offset) { return (uint8_t)(offset * 31 + (offset >> 8)); }

/* Bytes of the stream from an offset on are handed in. */
static void hand(gv_endpoint *end, uint64_t offset, size_t len, bool fin) {
  static uint8_t bytes[4096];
  gv_frame frame = {.size = sizeof frame, .kind = GV_FRAME_STREAM, .stream = STREAM, .offset = offset, .fin = fin, .bytes = bytes, .len = len};
  gv_taken taken = GV_TAKEN_NOT_OURS;
  for (size_t i = 0; i < len; i++) bytes[i] = byte_at(offset + i);
  want(gv_take_frame(end, &frame, &taken), GV_OK, "take a frame");
}

/* The bytes of both pieces are those of the stream from an offset on. */
static void are_right(const gv_peeked *peeked, uint64_t offset) {
  for (size_t i = 0; i < peeked->front_len; i++) check(peeked->front[i] == byte_at(offset + i), "a byte of the first piece");
  offset += peeked->front_len;
  for (size_t i = 0; i < peeked->back_len; i++) check(peeked->back[i] == byte_at(offset + i), "a byte of the second piece");
}

static void ask_all(const gv_endpoint *end) {
  uint8_t out[64];
  uint64_t number = 0, other = 0;
  size_t len = 0;
  bool answer = false;
  gv_sending sending = {.size = sizeof sending};
  gv_receiving receiving = {.size = sizeof receiving};
  gv_closing_info closing = {.size = sizeof closing};
  gv_token token;
  gv_closer by;
  gv_close_kind kind;
  (void)gv_next_number(end, &number);
  (void)gv_is_sendable(end, &answer);
  (void)gv_ack_is_due(end, &answer);
  (void)gv_next_outstanding(end, 0, &number);
  (void)gv_token_of(end, 0, &token);
  (void)gv_next_readable(end, 0, &number);
  (void)gv_next_writable(end, 0, &number);
  (void)gv_next_sendable(end, 0, &number);
  (void)gv_next_ended(end, 0, &number);
  (void)gv_sending_report(end, STREAM, &sending);
  (void)gv_receiving_report(end, STREAM, &receiving);
  (void)gv_stopped_with(end, STREAM, &number);
  (void)gv_is_blocked(end, STREAM, &answer);
  (void)gv_room(end, STREAM, &number);
  (void)gv_unsent(end, STREAM, &number);
  (void)gv_acked_below(end, STREAM, &number);
  (void)gv_unsent_sum(end, &number);
  (void)gv_kept_sum(end, &number);
  (void)gv_taken_on(end, STREAM, &number);
  (void)gv_taken_sum(end, &number);
  (void)gv_credit_left(end, &number);
  (void)gv_streams_left(end, GV_DIR_UNI, &number);
  (void)gv_open_left(end, GV_DIR_UNI, &number);
  (void)gv_granted_streams(end, GV_DIR_UNI, &number);
  (void)gv_stored(end, &number);
  (void)gv_noted(end, &number);
  (void)gv_held(end, &number, &other);
  (void)gv_granted(end, &number);
  (void)gv_spent(end, &number);
  (void)gv_closing(end, &closing);
  (void)gv_close_payload(end, out, sizeof out, &len);
  (void)gv_peer_closed(end, &number);
  (void)gv_noted_close(end, &by, &kind, &number);
}

static void refused(gv_endpoint *end) {
  gv_peeked peeked = {.size = sizeof peeked, .front_len = 9};
  uint64_t code = 9, stream = 0;
  want(gv_peek(NULL, STREAM, &peeked, &code), GV_INVALID, "of no end");
  want(gv_peek(end, UINT64_C(1) << 62, &peeked, &code), GV_INVALID, "of no stream");
  want(gv_peek(end, STREAM, NULL, &code), GV_INVALID, "told to null");
  peeked.size = sizeof peeked - 1;
  want(gv_peek(end, STREAM, &peeked, &code), GV_INVALID, "told to a small struct");
  peeked.size = sizeof peeked;
  want(gv_peek(end, STREAM, &peeked, &code), GV_NO_SUCH_STREAM, "of a stream that isn't open");
  want(gv_open(end, GV_DIR_UNI, &stream, NULL), GV_OK, "open");
  want(gv_peek(end, stream, &peeked, &code), GV_WRONG_DIRECTION, "of what is sent");
  hand(end, 1, 1, false);
  want(gv_peek(end, STREAM, &peeked, &code), GV_NOTHING_YET, "behind a gap");
  check(code == 9 && peeked.front_len == 9 && peeked.front == NULL, "nothing was told");
  hand(end, 0, 2, false);
  want(gv_peek(end, STREAM, &peeked, NULL), GV_OK, "with no place for a code");
  are_right(&peeked, 0);
}

/* All of a stream, peeked and taken in parts. */
static void all_of(gv_endpoint *end) {
  gv_receiving half = {.size = sizeof half};
  gv_peeked peeked = {.size = sizeof peeked}, again = peeked;
  uint64_t came = 2, taken = 0, rounds = 0, in_two = 0;
  bool at_end = false;
  while (taken < TOTAL) {
    want(gv_receiving_report(end, STREAM, &half), GV_OK, "report");
    uint64_t most = half.limit < TOTAL ? half.limit : TOTAL, len = (rounds * 7919) % 1999;
    if (came + len > most) len = most - came;
    hand(end, came, (size_t)len, came + len == TOTAL);
    came += len;
    rounds++;
    if (came == taken) continue;
    size_t before = given, count = 0;
    want(gv_peek(end, STREAM, &peeked, NULL), GV_OK, "peek");
    check(given == before, "it takes no memory");
    check(peeked.front_len >= 1 && taken + peeked.front_len + peeked.back_len <= came, "of what came");
    in_two += peeked.back_len > 0;
    are_right(&peeked, taken);
    ask_all(end);
    want(gv_peek(end, STREAM, &again, NULL), GV_OK, "peek again");
    check(again.front == peeked.front && again.front_len == peeked.front_len && again.back_len == peeked.back_len, "it is the same");
    are_right(&peeked, taken);
    size_t all = peeked.front_len + peeked.back_len, part = rounds % 3 == 0 ? all : 1 + (size_t)(rounds * 31) % all;
    want(gv_consume(end, STREAM, part, &count, &at_end, NULL), GV_OK, "consume");
    check(count == part, "as many as were lent");
    taken += count;
  }
  check(at_end && in_two > 0, "some bytes lay in two pieces");
  want(gv_peek(end, STREAM, &peeked, NULL), GV_END_OF_STREAM, "at the end");
}

static void broken_off(gv_endpoint *end) {
  static const uint8_t reset[] = {0x04, 0x07, 0x09, 0x00}, close[] = {0x1c, 0x05, 0x00, 0x00};
  gv_peeked peeked = {.size = sizeof peeked};
  uint64_t code = 0;
  want(gv_receive(end, 0, reset, sizeof reset), GV_OK, "receive a reset");
  want(gv_peek(end, 7, &peeked, &code), GV_RESET_BY_PEER, "of what was broken off");
  check(code == 9, "with its code");
  want(gv_peek(end, 7, &peeked, NULL), GV_RESET_BY_PEER, "with no place for it");
  want(gv_receive(end, 1, close, sizeof close), GV_CLOSED_BY_PEER, "the peer closes");
  want(gv_peek(end, 7, &peeked, &code), GV_CONNECTION_CLOSED, "of a closed end");
}

int main(void) {
  gv_endpoint *end = new_end();
  refused(end);
  all_of(end);
  broken_off(end);
  gv_endpoint_free(end);
  return 0;
}

/* Structs that may grow, each with bytes behind it that no call may touch: of this header, or with GROWN of one whose structs have one
 * field more. `grown later` runs over a library that has that field, `grown` over one that hasn't. What it prints is the same for all. */
#include <inttypes.h>
#include <stdio.h>
#include <stdlib.h>
#include <string.h>

#include "gotsavena.h"

enum { BEHIND = 64, UNTOUCHED = 0xa5 };

static bool has_later; /* whether the library has the field */

static void check(bool holds, const char *what) {
  if (holds) return;
  fprintf(stderr, "%s\n", what);
  exit(1);
}

static void *block_of(size_t size) {
  uint8_t *at = malloc(size + BEHIND);
  check(at != NULL, "memory");
  memset(at, UNTOUCHED, size + BEHIND);
  memcpy(at, &size, sizeof size);
  return at;
}

/* The bytes behind a struct are as they were; then it goes. */
static void drop(void *at, size_t size) {
  for (size_t i = 0; i < BEHIND; i++) check(((uint8_t *)at)[size + i] == UNTOUCHED, "a call wrote behind a struct");
  free(at);
}

#define NEW(type) ((type *)block_of(sizeof(type)))

#ifdef GROWN
/* A field that the library doesn't know is left alone. */
#define LATER(at) check((at)->later == (has_later ? 0 : UINT64_C(0xa5a5a5a5a5a5a5a5)), "the later field")
#else
#define LATER(at) (void)has_later
#endif
#define DROP(at) (LATER(at), drop((at), sizeof *(at)))

/* Of a tuning of before, which has no epoch, or no bound over all streams, no byte behind is touched, and that is as before. */
static void of_before(gv_role role, const gv_settings *settings, const gv_limits *limits, size_t size) {
  gv_tuning *tuning = block_of(sizeof *tuning);
  gv_token token = {.epoch = 9};
  gv_endpoint *end = NULL;
  check(gv_tuning_init(tuning, size) == GV_OK && tuning->size == size && tuning->credit_step == GV_SHARE_HALF, "tuning of before");
  check(gv_endpoint_new_tuned(role, settings, tuning, limits, NULL, &end) == GV_OK && gv_token_of(end, 0, &token) == GV_OK, "an end of before");
  check(token.epoch == 0, "its epoch");
  uint64_t stream = 0, room = 0;
  check(gv_open(end, GV_DIR_UNI, &stream, NULL) == GV_OK && gv_room(end, stream, &room) == GV_OK && room == settings->send_buffer, "no bound");
  gv_endpoint_free(end);
  drop(tuning, size);
}

static gv_endpoint *new_end(gv_role role, uint64_t grant) {
  gv_settings *settings = block_of(sizeof *settings);
  gv_limits *limits = block_of(sizeof *limits), *none = block_of(sizeof *none);
  gv_tuning *tuning = block_of(sizeof *tuning);
  gv_endpoint *end = NULL;
  check(gv_tuning_init(tuning, sizeof *tuning) == GV_OK && tuning->size == sizeof *tuning && tuning->credit_step == GV_SHARE_HALF, "tuning");
  check(gv_settings_init(settings, sizeof *settings) == GV_OK && settings->size == sizeof *settings, "settings");
  check(gv_limits_init(none, sizeof *none) == GV_OK && none->max_data == 0 && none->streams_uni == 0, "limits of nothing");
  settings->grant_bidi = grant;
  memset((uint8_t *)limits + sizeof(size_t), 0, sizeof *limits - sizeof(size_t));
  check(gv_limits_of(settings, limits) == GV_OK && limits->streams_bidi == grant && limits->max_data == settings->conn_window, "limits");
#ifdef GROWN
  settings->later = 1;
  check(gv_endpoint_new(role, settings, limits, &end) == (has_later ? GV_OK : GV_INVALID), "a setting that isn't known");
  gv_endpoint_free(end);
  settings->later = 0;
  tuning->later = 1;
  check(gv_endpoint_new_tuned(role, settings, tuning, limits, NULL, &end) == (has_later ? GV_OK : GV_INVALID), "a choice that isn't known");
  if (has_later) gv_endpoint_free(end);
  tuning->later = 0;
#endif
  check(gv_endpoint_new_tuned(role, settings, tuning, limits, NULL, &end) == GV_OK, "a tuned end");
  gv_endpoint_free(end);
  check(gv_endpoint_new(role, settings, limits, &end) == GV_OK && gv_raise_limits(end, limits) == GV_OK, "an end");
  of_before(role, settings, limits, offsetof(gv_tuning, epoch));
  of_before(role, settings, limits, offsetof(gv_tuning, send_window));
  settings->size = 79;
  check(gv_endpoint_new(role, settings, limits, &end) == GV_INVALID, "too small a struct");
  settings->size = 4097;
  check(gv_endpoint_new(role, settings, limits, &end) == GV_INVALID, "too great a struct");
  drop(settings, sizeof *settings);
  drop(tuning, sizeof *tuning);
  drop(limits, sizeof *limits);
  drop(none, sizeof *none);
  return end;
}

static void of_packets(gv_endpoint *from, gv_endpoint *to, uint64_t stream) {
  uint8_t payload[1200];
  gv_made *made = NEW(gv_made);
  gv_sending *sending = NEW(gv_sending);
  gv_receiving *receiving = NEW(gv_receiving);
  size_t size = made->size;
  made->size = 31;
  check(gv_make_packet(from, payload, sizeof payload, made) == GV_INVALID, "a struct without room");
  made->size = size;
  check(gv_make_packet(from, payload, sizeof payload, made) == GV_OK && made->size == size, "a packet");
  printf("packet %" PRIu64 " of %zu bytes, asks %d\n", made->number, made->len, made->is_ack_eliciting);
  check(gv_receive(to, made->number, payload, made->len) == GV_OK, "receive");
  check(gv_sending_report(from, stream, sending) == GV_OK && gv_receiving_report(to, stream, receiving) == GV_OK, "reports");
  printf("sending: state %d, written %" PRIu64 ", limit %" PRIu64 "\n", (int)sending->state, sending->written, sending->limit);
  printf("receiving: state %d, highest %" PRIu64 ", size known %d\n", (int)receiving->state, receiving->highest, receiving->has_final_size);
  DROP(made);
  DROP(sending);
  DROP(receiving);
}

/* What a token has, and what it must not have. */
static void of_tokens(gv_endpoint *from, uint64_t number) {
  gv_token token, next;
  check(gv_token_of(from, number, &token) == GV_OK && gv_token_of(from, number + 1, &next) == GV_OK, "tokens");
  check(gv_token_and(&token, &next) == GV_OK, "both");
  printf("token %" PRIu64 ", %" PRIu64 " to %" PRIu64 "\n", token.epoch, token.first, token.number);
  check(gv_token_acked(from, &token) == GV_NOT_GIVEN && gv_token_lost(from, &token) == GV_NOT_GIVEN, "not all were made");
}

/* What one end fills in is handed to the other. */
static void of_fills(gv_endpoint *from, gv_endpoint *to) {
  gv_fill_request *want = NEW(gv_fill_request);
  gv_filled *filled = NEW(gv_filled);
  gv_frame *frame = NEW(gv_frame);
  gv_fault fault = {.size = sizeof fault};
  gv_taken taken = GV_TAKEN_NOT_OURS;
  uint8_t out[200];
  size_t count = 0, size = want->size;
  uint64_t stream = 0;
  check(gv_open(from, GV_DIR_UNI, &stream, NULL) == GV_OK && gv_write(from, stream, (const uint8_t *)"abc", 3, &count) == GV_OK, "open");
  memset((uint8_t *)want + sizeof(size_t), 0, sizeof *want - sizeof(size_t));
  want->items = want->streams = true;
  want->size = 23;
  check(gv_fill(from, want, out, sizeof out, filled) == GV_INVALID, "too small a request");
  want->size = size;
#ifdef GROWN
  want->later = 1;
  check(has_later || gv_fill(from, want, out, sizeof out, filled) == GV_INVALID, "a wish that isn't known");
  want->later = 0;
#endif
  size = filled->size;
  filled->size = 55;
  check(gv_fill(from, want, out, sizeof out, filled) == GV_INVALID, "a struct without room");
  filled->size = size;
  check(gv_fill(from, want, out, sizeof out, filled) == GV_OK && filled->size == size, "a fill");
  printf("filled %zu bytes, of stream %" PRIu64 ", more %d, token %" PRIu64 "\n", filled->len, filled->last_stream, filled->more, filled->token.number);
  of_tokens(from, filled->token.number);
  gv_frames frames = {out, filled->len, 0};
  check(gv_frames_next(&frames, frame, &fault) == GV_OK, "its frame");
#ifdef GROWN
  frame->later = 0;
#endif
  size = frame->size;
  frame->size = 167;
  check(gv_take_frame(to, frame, &taken) == GV_INVALID, "too small a frame");
  frame->size = size;
  check(gv_take_frame(to, frame, &taken) == GV_OK && taken == GV_TAKEN_TOOK, "it is handed in");
  gv_frame both[2] = {*frame, *frame};
  check(gv_take_frames(to, both, 2, &taken) == GV_OK && taken == GV_TAKEN_UNCHANGED, "it is handed in twice");
#ifdef GROWN
  both[1].later = 1;
  check(gv_take_frames(to, both, 2, &taken) == (has_later ? GV_OK : GV_INVALID), "a frame's field that isn't known");
#endif
  drop(want, sizeof *want);
  DROP(filled);
  drop(frame, sizeof *frame);
}

/* Bytes that are lent. */
static void of_pieces(const gv_endpoint *end, uint64_t stream) {
  gv_peeked *peeked = NEW(gv_peeked);
  size_t size = peeked->size;
  peeked->size = 39;
  check(gv_peek(end, stream, peeked, NULL) == GV_INVALID, "too small a place for pieces");
  peeked->size = size;
  check(gv_peek(end, stream, peeked, NULL) == GV_OK && peeked->size == size, "pieces");
  printf("lent %zu and %zu bytes, the first %02x\n", peeked->front_len, peeked->back_len, peeked->front[0]);
  DROP(peeked);
}

/* What an end tells of by itself. */
static void of_events(gv_endpoint *end) {
  gv_event *event = NEW(gv_event);
  size_t size = event->size;
  event->size = 31;
  check(gv_next_event(end, event) == GV_INVALID, "an event without room");
  event->size = size;
  check(gv_next_event(end, event) == GV_OK && event->size == size, "an event");
  printf("event %d of stream %" PRIu64 ", direction %d, code %" PRIu64 "\n", (int)event->kind, event->stream, (int)event->dir, event->code);
  DROP(event);
}

static void of_frames(void) {
  static const uint8_t payload[] = {0x18, 0x05, 0x02, 0x01, 0x77, 1, 2, 3, 4, 5, 6, 7, 8, 9, 10, 11, 12, 13, 14, 15, 16, 0xff};
  gv_frame *frame = NEW(gv_frame);
  gv_fault *fault = NEW(gv_fault);
  gv_frames frames = {payload, sizeof payload, 0};
  uint8_t out[64];
  size_t len = 0;
  check(gv_frames_next(&frames, frame, fault) == GV_OK, "a frame");
  printf("frame %d: sequence %" PRIu64 ", identifier %02x, token %d\n", (int)frame->kind, frame->sequence, frame->bytes[0], frame->token[15]);
  LATER(frame);
#ifdef GROWN
  frame->later = 0;
#endif
  check(gv_put(frame, out, sizeof out, &len) == GV_OK && len == 21 && memcmp(out, payload, len) == 0, "it is written");
  check(gv_frames_next(&frames, frame, fault) == GV_BAD_FRAME, "a fault");
  printf("fault %d at %zu, code %" PRIu64 "\n", (int)fault->kind, fault->place, fault->code);
  drop(frame, sizeof *frame);
  DROP(fault);
}

static void of_closing(gv_endpoint *end) {
  static const uint8_t payload[] = {0x01, 0xff};
  gv_closing_info *closing = NEW(gv_closing_info);
  check(gv_receive(end, 77, payload, sizeof payload) == GV_PROTOCOL_ERROR && gv_closing(end, closing) == GV_OK, "closing");
  printf("closing %" PRIu64 " of type %" PRIu64 " at %zu\n", closing->code, closing->frame_type, closing->place);
  DROP(closing);
}

int main(int count, char **words) {
  uint64_t stream = 0;
  size_t taken = 0;
  has_later = count > 1 && strcmp(words[1], "later") == 0;
  gv_endpoint *client = new_end(GV_ROLE_CLIENT, 3), *server = new_end(GV_ROLE_SERVER, 3);
  check(gv_open(client, GV_DIR_BIDI, &stream, NULL) == GV_OK, "open");
  check(gv_write(client, stream, (const uint8_t *)"hello", 5, &taken) == GV_OK && gv_finish(client, stream) == GV_OK, "write");
  of_packets(client, server, stream);
  of_pieces(server, stream);
  of_fills(client, server);
  of_events(server);
  of_frames();
  of_closing(server);
  gv_endpoint_free(client);
  gv_endpoint_free(server);
  return 0;
}

/* Wrong arguments: each is answered with GV_INVALID, and changes nothing. And the calls that need no endpoint. */
#include <stdlib.h>
#include <string.h>

#include "world.h"

static void refused(gv_status status) { check(status == GV_INVALID, "a wrong argument is answered with GV_INVALID"); }

/* Calls without an endpoint. */
static void pass_no_endpoint(void) {
  gv_settings settings;
  gv_limits limits;
  gv_endpoint *end = NULL;
  gv_made made = {.size = sizeof made};
  gv_frame frame = {.size = sizeof frame};
  gv_taken taken = GV_TAKEN_TOOK;
  uint8_t out[256];
  size_t count = 0;
  uint64_t number = 0;
  check(gv_settings_init(&settings, sizeof settings) == GV_OK && gv_limits_init(&limits, sizeof limits) == GV_OK, "settings");
  refused(gv_endpoint_new(GV_ROLE_CLIENT, NULL, &limits, &end));
  refused(gv_endpoint_new_with(GV_ROLE_CLIENT, &settings, NULL, NULL, &end));
  refused(gv_endpoint_new_tuned(GV_ROLE_CLIENT, &settings, NULL, &limits, NULL, NULL));
  refused(gv_receive(NULL, 0, out, 1));
  refused(gv_make_packet(NULL, out, sizeof out, &made));
  refused(gv_take_frame(NULL, &frame, &taken));
  refused(gv_open(NULL, GV_DIR_BIDI, &number, NULL));
  refused(gv_write(NULL, 0, out, 1, &count));
  refused(gv_read(NULL, 0, out, 1, &count, NULL));
  refused(gv_stored(NULL, &number));
  gv_endpoint_free(NULL);
}

/* Null pointers where one is wanted. */
static void pass_null(gv_endpoint *end) {
  uint8_t out[256];
  size_t count = 0;
  bool at_end = false;
  uint64_t number = 0;
  gv_token token = {0, 0, 0};
  refused(gv_receive(end, 0, NULL, 1));
  refused(gv_receive_with_acks(end, 0, out, 1, NULL, NULL));
  refused(gv_make_packet(end, out, sizeof out, NULL));
  refused(gv_make_packet_from(end, 0, 0, NULL, sizeof out, NULL));
  refused(gv_make_ack(end, 0, NULL, sizeof out, NULL));
  refused(gv_open(end, GV_DIR_BIDI, NULL, NULL));
  refused(gv_write(end, 0, NULL, 1, &count));
  refused(gv_read(end, 0, NULL, 1, &count, NULL));
  refused(gv_peek(end, 0, NULL, NULL));
  refused(gv_consume(end, 0, 1, NULL, &at_end, NULL));
  refused(gv_next_event(end, NULL));
  refused(gv_held(end, &number, NULL));
  refused(gv_token_and(&token, NULL));
  refused(gv_token_lost(end, NULL));
  refused(gv_close_payload(end, out, sizeof out, NULL));
  refused(gv_put(NULL, out, sizeof out, &count));
  refused(gv_last_stream(NULL, 1, &number));
}

/* A struct whose size no version has. */
static void pass_wrong_sizes(gv_endpoint *end, size_t size) {
  uint8_t out[256];
  size_t count = 0;
  gv_taken taken = GV_TAKEN_TOOK;
  gv_made made = {.size = size};
  gv_fill_request want = {.size = size};
  gv_filled filled = {.size = sizeof filled};
  gv_event event = {.size = size};
  gv_sending sending = {.size = size};
  gv_receiving receiving = {.size = size};
  gv_peeked peeked = {.size = size};
  gv_closing_info closing = {.size = size};
  gv_frame frame = {.size = size};
  gv_limits limits = {.size = size};
  refused(gv_make_packet(end, out, sizeof out, &made));
  refused(gv_fill(end, &want, out, sizeof out, &filled));
  refused(gv_next_event(end, &event));
  refused(gv_sending_report(end, 0, &sending));
  refused(gv_receiving_report(end, 0, &receiving));
  refused(gv_peek(end, 0, &peeked, NULL));
  refused(gv_closing(end, &closing));
  refused(gv_take_frame(end, &frame, &taken));
  refused(gv_take_frames(end, &frame, 1, &taken));
  refused(gv_put(&frame, out, sizeof out, &count));
  refused(gv_raise_limits(end, &limits));
}

/* Numbers that aren't of their enum. */
static void pass_wrong_numbers(gv_endpoint *end) {
  gv_frame frame = {.size = sizeof frame};
  gv_taken taken = GV_TAKEN_TOOK;
  uint64_t number = 0;
  int none = 77; /* (not a constant, so that no compiler warns of what is meant) */
  refused(gv_open(end, (gv_dir)none, &number, NULL));
  refused(gv_accept_of(end, (gv_dir)none, &number));
  refused(gv_set_grant(end, (gv_dir)none, 1));
  refused(gv_streams_left(end, (gv_dir)none, &number));
  refused(gv_note_closed(end, (gv_closer)none, GV_CLOSE_TRANSPORT, 0));
  refused(gv_note_closed(end, GV_CLOSER_PEER, (gv_close_kind)none, 0));
  frame.kind = (gv_frame_kind)none;
  refused(gv_take_frame(end, &frame, &taken));
  frame.kind = GV_FRAME_MAX_STREAMS;
  frame.dir = (gv_dir)none;
  refused(gv_take_frame(end, &frame, &taken));
}

/* Structs of the first version, in blocks of exactly that size: no byte behind them is written. */
static void pass_first_sizes(gv_endpoint *end) {
  size_t report_size = offsetof(gv_receiving, was_stopped), tuning_size = offsetof(gv_tuning, epoch);
  gv_receiving whole = {.size = sizeof whole}, got;
  void *report = calloc(1, report_size), *tuning = calloc(1, tuning_size);
  check(report != NULL && tuning != NULL, "memory for structs");
  check(gv_tuning_init(tuning, tuning_size) == GV_OK, "tuning of the first version");
  for (uint64_t stream = 0; stream < 8; stream++) {
    memcpy(report, &report_size, sizeof report_size);
    gv_status status = gv_receiving_report(end, stream, report);
    check(gv_receiving_report(end, stream, &whole) == status, "a report, whichever version asks");
    memcpy(&got, report, report_size);
    check(status != GV_OK || (got.highest == whole.highest && got.reset_code == whole.reset_code), "the fields of the first version");
  }
  free(tuning);
  free(report);
}

/* Structs of a later version: what isn't known here stays as it was, and is refused in a setting. */
static void pass_later_sizes(gv_endpoint *end) {
  struct {
    gv_receiving known;
    uint64_t later;
  } receiving;
  struct {
    gv_limits known;
    uint64_t later;
  } limits;
  memset(&limits, 0, sizeof limits);
  limits.known.size = sizeof limits;
  limits.later = 1;
  refused(gv_raise_limits(end, &limits.known));
  for (uint64_t stream = 0; stream < 8; stream++) {
    receiving.known.size = sizeof receiving;
    receiving.later = 0x5a5a5a5a;
    (void)gv_receiving_report(end, stream, &receiving.known);
    check(receiving.known.size == sizeof receiving && receiving.later == 0x5a5a5a5a, "what isn't known stays as it was");
  }
}

void pass_wrong_arguments(world *w, side *s) {
  (void)w;
  uint64_t before = look_at_all(s);
  pass_no_endpoint();
  pass_null(s->end);
  pass_wrong_sizes(s->end, sizeof(size_t));
  pass_wrong_sizes(s->end, 4097);
  pass_wrong_numbers(s->end);
  pass_first_sizes(s->end);
  pass_later_sizes(s->end);
  check(look_at_all(s) == before, "a wrong argument changes nothing");
}

/* What the library says of itself. */
void check_library(void) {
  const char *kind = gv_build();
  check(gv_version() == GV_VERSION, "the version");
  check(strcmp(kind, "erased") == 0 || strcmp(kind, "proved") == 0, "how it was built");
  for (int status = GV_OK; status <= GV_NOT_GIVEN; status++) check(strlen(gv_strerror((gv_status)status)) > 0, "what a status means");
}

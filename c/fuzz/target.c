/* The target of the C library: what an input says is called, and each answer is checked. c/fuzz/run builds it. */
#include <stdio.h>
#include <stdlib.h>
#include <string.h>

#include "world.h"

void check(bool holds, const char *what) {
  if (holds) return;
  fprintf(stderr, "this doesn't hold: %s\n", what);
  abort();
}

void mix(world *w, uint64_t value) {
  if (!w->is_compared) return;
  w->digest = (w->digest ^ value) * UINT64_C(0x100000001b3);
  w->digest ^= w->digest >> 29;
}

/* The byte that a side writes at an offset of a stream: each place has another one. */
uint8_t pattern(unsigned sender, uint64_t stream, uint64_t offset) {
  return (uint8_t)(((offset + 1) * UINT64_C(0x9e3779b97f4a7c15) + stream * UINT64_C(0xd1b54a32d192ed03) + sender) >> 48);
}

bool has_pattern(unsigned sender, uint64_t stream, uint64_t offset, const uint8_t *bytes, size_t len) {
  for (size_t i = 0; i < len; i++)
    if (bytes[i] != pattern(sender, stream, offset + i)) return false;
  return true;
}

/* A window or a buffer, now and then of any size. */
static uint64_t take_window(input *in) {
  static const uint64_t sizes[] = {1, 50, 1024, 4096, 20000, 1 << 16, 1 << 18, 1 << 20};
  unsigned code = take_byte(in);
  if (code >= 0xf0) return take_number(in);
  return sizes[code % 8];
}

static void take_settings(input *in, gv_settings *settings) {
  check(gv_settings_init(settings, sizeof *settings) == GV_OK, "settings");
  settings->conn_window = take_window(in);
  settings->bidi_local = take_window(in);
  settings->bidi_remote = take_window(in);
  settings->uni = take_window(in);
  settings->send_buffer = take_window(in);
  settings->grant_bidi = take_byte(in) % 80;
  settings->grant_uni = take_byte(in) % 80;
  settings->lifetime_bidi = settings->grant_bidi + take_byte(in);
  settings->lifetime_uni = settings->grant_uni + take_byte(in);
}

static void take_tuning(input *in, gv_tuning *tuning) {
  unsigned shares = take_byte(in);
  unsigned switches = take_byte(in);
  check(gv_tuning_init(tuning, sizeof *tuning) == GV_OK, "tuning");
  tuning->credit_step = (gv_share)(1 + shares % 4);
  tuning->count_step = (gv_share)(shares / 4 % 5);
  tuning->within_credit = (gv_switch)(switches & 1);
  tuning->reads_when_closed = (gv_switch)(switches >> 1 & 1);
  tuning->answers_stops = (gv_switch)(switches >> 2 & 1);
  tuning->send_window = switches >> 3 & 1 ? take_window(in) : 0;
  tuning->epoch = switches >> 4;
}

static void take_limits(input *in, gv_limits *limits) {
  check(gv_limits_init(limits, sizeof *limits) == GV_OK, "limits");
  limits->max_data = take_number(in);
  limits->bidi_local = take_number(in);
  limits->bidi_remote = take_number(in);
  limits->uni = take_number(in);
  limits->streams_bidi = take_number(in);
  limits->streams_uni = take_number(in);
}

/* Makes an endpoint by one of the three calls. */
static gv_status make_endpoint(side *s, unsigned how, const gv_settings *settings, const gv_tuning *tuning, const gv_limits *peer) {
  enum { PLAIN = 1, WITH_MEMORY = 2 };
  gv_allocator memory = allocator_of(s, how & 4);
  unsigned way = how & 3;
  bool is_tuned = way != PLAIN && way != WITH_MEMORY;
  s->is_refusable = way != PLAIN;
  s->bounds_writes = is_tuned && (tuning->within_credit == GV_ON || tuning->send_window > 0);
  s->widest = settings->conn_window;
  s->widest_buffer = settings->send_buffer;
  if (way == PLAIN) return gv_endpoint_new(s->role, settings, peer, &s->end);
  if (way == WITH_MEMORY) return gv_endpoint_new_with(s->role, settings, peer, &memory, &s->end);
  return gv_endpoint_new_tuned(s->role, settings, tuning, peer, &memory, &s->end);
}

/* Makes both endpoints; false if a setting is out of its range. */
static bool begin_world(world *w) {
  gv_settings settings[SIDES];
  gv_tuning tuning[SIDES];
  gv_limits limits[SIDES];
  unsigned how[SIDES], first = take_byte(&w->in);
  w->is_honest = w->is_whole = !(first & 2);
  w->is_compared = true;
  for (unsigned i = 0; i < SIDES; i++) {
    how[i] = first >> (2 + 3 * i);
    take_settings(&w->in, &settings[i]);
    take_tuning(&w->in, &tuning[i]);
    if (!w->is_honest) take_limits(&w->in, &limits[1 - i]);
    if (w->is_honest) limits[1 - i].size = sizeof *limits;
    if (w->is_honest) check(gv_limits_of(&settings[i], &limits[1 - i]) == GV_OK, "what settings grant");
  }
  for (unsigned i = 0; i < SIDES; i++) {
    side *s = &w->sides[i];
    s->name = i;
    s->role = (gv_role)((first & 1) ^ i);
    gv_status status = make_endpoint(s, how[i], &settings[i], &tuning[i], &limits[i]);
    mix(w, status);
    if (status == GV_OK) continue;
    check(status == GV_OUT_OF_RANGE || status == GV_TOO_MANY_STREAMS, "an endpoint");
    return false;
  }
  return true;
}

static void call(world *w, side *s, unsigned which) {
  static void (*const calls[])(world *, side *) = {
    make, make, make, fill, fill, deliver, deliver, deliver, lose, acknowledge, receive_raw, receive_composed, receive_composed,
    take_composed, use_number, join, carry, carry, open_one, open_one, accept_one, write_some, write_some, write_some, end_sending,
    end_receiving, read_some, consume_some, set_one, raise_limits, note_closed, hear, hear, report_blocked, refuse, search, look_close,
    read_frames, put_ranges, pass_wrong_arguments, receive_pieces, receive_numbers, make_many,
    receive_at_limit, receive_at_count,
  };
  calls[which % (sizeof calls / sizeof *calls)](w, s);
}

static void end_world(world *w) {
  for (unsigned i = 0; i < SIDES && w->sides[i].end != NULL; i++) w->sides[i].memory.refusals = 0;
  if (w->sides[1].end != NULL) settle(w);
  for (unsigned i = 0; i < SIDES && w->sides[i].end != NULL; i++) {
    side *s = &w->sides[i];
    if (w->sides[1].end != NULL) {
      look(w, s);
      mix(w, look_at_all(s));
      hear_all(w, s);
    }
    gv_endpoint_free(s->end);
    check(s->memory.blocks == 0 && s->memory.bytes == 0, "all memory is given back");
  }
  for (size_t i = 0; i < PACKETS; i++) free(w->packets[i].bytes);
}

/* Plays an input, and returns a digest of the answers. */
uint64_t run(const uint8_t *bytes, size_t len) {
  static world w;
  memset(&w, 0, sizeof w);
  w.in.at = bytes;
  w.in.len = len;
  if (begin_world(&w)) {
    check_library();
    while (w.in.len > 0) {
      unsigned which = take_byte(&w.in);
      side *s = &w.sides[which >> 7];
      call(&w, s, which & 0x7f);
      look(&w, s);
      if (++w.calls % 4 == 0) (void)look_at_all(s);
    }
  }
  end_world(&w);
  return w.digest;
}

int LLVMFuzzerTestOneInput(const uint8_t *bytes, size_t len);
int LLVMFuzzerTestOneInput(const uint8_t *bytes, size_t len) {
  (void)run(bytes, len);
  return 0;
}

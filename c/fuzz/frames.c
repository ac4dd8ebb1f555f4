/* Frames are read and written without an endpoint. */
#include <string.h>

#include "world.h"

enum { MOST_RANGES = 32, ID_LEN = 20, TOKEN_LEN = 16 };

/* How many numbers an input has for a frame of a kind. */
static size_t numbers_of(gv_frame_kind kind, bool has_ecn) {
  switch (kind) {
    case GV_FRAME_RESET_STREAM: return 3;
    case GV_FRAME_ACK: return has_ecn ? 3 : 2;
    case GV_FRAME_STOP_SENDING:
    case GV_FRAME_STREAM:
    case GV_FRAME_MAX_STREAM_DATA:
    case GV_FRAME_STREAM_DATA_BLOCKED:
    case GV_FRAME_NEW_CONNECTION_ID:
    case GV_FRAME_CONNECTION_CLOSE: return 2;
    case GV_FRAME_CRYPTO:
    case GV_FRAME_MAX_DATA:
    case GV_FRAME_MAX_STREAMS:
    case GV_FRAME_DATA_BLOCKED:
    case GV_FRAME_STREAMS_BLOCKED:
    case GV_FRAME_RETIRE_CONNECTION_ID:
    case GV_FRAME_APPLICATION_CLOSE: return 1;
    default: return 0;
  }
}

static bool is_on_stream(gv_frame_kind kind) {
  return kind == GV_FRAME_RESET_STREAM || kind == GV_FRAME_STOP_SENDING || kind == GV_FRAME_STREAM || kind == GV_FRAME_MAX_STREAM_DATA
    || kind == GV_FRAME_STREAM_DATA_BLOCKED;
}

/* The numbers in the order of the standard's fields. Those that a kind hasn't don't matter. */
static void set_numbers(gv_frame *frame, const uint64_t numbers[3]) {
  uint64_t first = numbers[0], second = numbers[1], third = numbers[2];
  bool on_stream = is_on_stream(frame->kind);
  if (on_stream) frame->stream = first;
  frame->offset = on_stream ? second : first;
  frame->limit = on_stream ? second : first;
  frame->code = on_stream ? second : first;
  frame->final_size = third;
  frame->largest = frame->sequence = first;
  frame->delay = frame->retire = frame->at_fault = second;
  frame->ect0 = frame->ect1 = frame->ce = third;
}

/* A frame of any kind, whose bytes of streams follow the pattern. */
static void take_frame(world *w, unsigned sender, size_t room, gv_frame *frame, uint8_t *bytes) {
  static const uint8_t token[TOKEN_LEN] = {1, 2, 3, 4, 5, 6, 7, 8, 9, 10, 11, 12, 13, 14, 15, 16};
  uint64_t numbers[3] = {0, 0, 0};
  unsigned code = take_byte(&w->in);
  memset(frame, 0, sizeof *frame);
  frame->size = sizeof *frame;
  frame->bytes = bytes;
  frame->kind = (gv_frame_kind)(code % 32 <= GV_FRAME_HANDSHAKE_DONE ? code % 32 : GV_FRAME_STREAM);
  frame->dir = (gv_dir)(code >> 5 & 1);
  frame->fin = code >> 6 & 1;
  frame->has_ecn = code >> 7;
  for (size_t i = 0; i < numbers_of(frame->kind, frame->has_ecn); i++) numbers[i] = take_number(&w->in);
  set_numbers(frame, numbers);
  if (frame->kind == GV_FRAME_ACK) {
    size_t most = take_byte(&w->in) % 16;
    frame->bytes = take_bytes(&w->in, most, &frame->len);
  } else if (frame->kind == GV_FRAME_STREAM) {
    frame->len = take_size(&w->in);
    if (frame->len + 24 > room) frame->len = room < 24 ? 0 : room - 24;
    for (size_t i = 0; i < frame->len; i++) bytes[i] = pattern(sender, frame->stream, frame->offset + i);
  } else if (frame->kind == GV_FRAME_NEW_CONNECTION_ID) {
    frame->len = take_byte(&w->in) % (ID_LEN + 2);
    frame->token = token;
    memset(bytes, 7, frame->len);
  } else if (frame->kind == GV_FRAME_CRYPTO || frame->kind == GV_FRAME_NEW_TOKEN || frame->kind >= GV_FRAME_PATH_CHALLENGE) {
    frame->len = frame->kind == GV_FRAME_HANDSHAKE_DONE ? 0 : take_byte(&w->in) % 16;
    memset(bytes, 9, frame->len);
  }
}

/* An ACK of ranges: the highest first, each so long, and so far below the one before. */
static size_t take_ack(world *w, uint8_t *out, size_t room) {
  gv_range ranges[MOST_RANGES + 1];
  size_t written = 0, len = 0;
  size_t count = take_byte(&w->in) % (MOST_RANGES + 2);
  uint64_t largest = take_number(&w->in);
  uint64_t above = largest;
  for (size_t i = 0; i < count; i++) {
    uint64_t length = take_byte(&w->in);
    uint64_t gap = take_byte(&w->in);
    ranges[i].largest = above;
    ranges[i].smallest = above - length;
    above = above - length - gap - 2;
  }
  gv_status status = gv_put_ack(ranges, count, largest, out, room, &written, &len);
  mix(w, status);
  if (status != GV_OK) return 0;
  check(written > 0 && written <= count && count <= MOST_RANGES && len > 0 && len <= room, "ranges are written");
  mix(w, written);
  return len;
}

/* Frames of a payload for the other side: eight at most, up to the first that can't be written. */
size_t compose(world *w, unsigned sender, uint8_t *out, size_t room) {
  static uint8_t bytes[MOST_PAYLOAD];
  size_t len = 0, count = 1 + take_byte(&w->in) % 8;
  for (size_t i = 0; i < count; i++) {
    gv_frame frame;
    size_t size = 0;
    if (w->in.len > 0 && *w->in.at == 0xff) {
      (void)take_byte(&w->in);
      size = take_ack(w, out + len, room - len);
      if (size == 0) break;
    } else {
      take_frame(w, sender, room - len, &frame, bytes);
      gv_status status = gv_put(&frame, out + len, room - len, &size);
      mix(w, status);
      if (status != GV_OK) break;
      check(size > 0 && size <= room - len, "a frame is written");
    }
    len += size;
  }
  return len;
}

static bool is_within(const uint8_t *part, size_t part_len, const uint8_t *all, size_t len) {
  return part_len == 0 || (part >= all && part_len <= len && (size_t)(part - all) <= len - part_len);
}

static bool is_same(const gv_frame *a, const gv_frame *b) {
  bool numbers = a->kind == b->kind && a->dir == b->dir && a->fin == b->fin && a->has_ecn == b->has_ecn && a->stream == b->stream
    && a->offset == b->offset && a->code == b->code && a->final_size == b->final_size && a->limit == b->limit;
  bool others = a->largest == b->largest && a->delay == b->delay && a->ect0 == b->ect0 && a->ect1 == b->ect1 && a->ce == b->ce
    && a->sequence == b->sequence && a->retire == b->retire && a->at_fault == b->at_fault;
  bool bytes = a->kind == GV_FRAME_ACK || (a->len == b->len && memcmp(a->bytes, b->bytes, a->len) == 0);
  return numbers && others && bytes && (a->token == NULL || memcmp(a->token, b->token, TOKEN_LEN) == 0);
}

/* The ranges of an ACK fall, and those at its front, written, are read again. */
static void check_ack(const gv_frame *frame) {
  gv_acked left = {frame->bytes, frame->len, frame->largest};
  gv_range ranges[MOST_RANGES], range;
  size_t count = 0, all = 0, written = 0, len = 0;
  uint64_t above = UINT64_C(1) << 62;
  while (gv_ack_next(&left, &range) == GV_OK) {
    check(range.smallest <= range.largest && (all == 0 ? range.largest == frame->largest : range.largest + 1 < above), "a range");
    above = range.smallest;
    all++;
    if (count < MOST_RANGES) ranges[count++] = range;
  }
  uint8_t out[32 * MOST_RANGES];
  gv_fault fault = {.size = sizeof fault};
  size_t room = 4 * frame->len + 24 < sizeof out ? 4 * frame->len + 24 : sizeof out;
  gv_status status = gv_put_ack(ranges, count, frame->delay, out, room, &written, &len);
  check(status == GV_OK && written > 0 && written <= count && len <= room, "an ACK is written");
  gv_frames again = {out, len, 0};
  gv_frame second = {.size = sizeof second};
  check(gv_frames_next(&again, &second, &fault) == GV_OK && again.place == len && second.delay == frame->delay, "it is read");
  gv_acked own = {second.bytes, second.len, second.largest};
  for (size_t i = 0; i < written; i++)
    check(gv_ack_next(&own, &range) == GV_OK && range.smallest == ranges[i].smallest && range.largest == ranges[i].largest, "its range");
  check(gv_ack_next(&own, &range) == GV_NONE, "its ranges");
}

/* A frame that was read is written, and read again as the same. */
static void check_frame(const gv_frame *frame) {
  static uint8_t out[MOST_PAYLOAD + 64];
  gv_frame second = {.size = sizeof second};
  gv_fault fault = {.size = sizeof fault};
  size_t size = 0;
  check(gv_put(frame, out, sizeof out, &size) == GV_OK && size > 0, "a frame is written");
  gv_frames again = {out, size, 0};
  check(gv_frames_next(&again, &second, &fault) == GV_OK && again.place == size && is_same(frame, &second), "it is read as the same");
  check(gv_put(frame, out, size - 1, &size) == GV_NO_ROOM, "a frame doesn't fit");
  if (frame->kind == GV_FRAME_ACK) check_ack(frame);
}

void check_frames(const uint8_t *payload, size_t len) {
  gv_frames frames = {payload, len, 0};
  gv_frame frame = {.size = sizeof frame};
  gv_fault fault = {.size = sizeof fault};
  gv_status status;
  size_t before = 0;
  uint64_t last = 0, told = 0;
  bool has_stream = false;
  while ((status = gv_frames_next(&frames, &frame, &fault)) == GV_OK) {
    check(frame.place == before && frames.place > before && frames.place <= len, "a frame's place");
    check(is_within(frame.bytes, frame.len, payload, len), "its bytes");
    check(frame.token == NULL || is_within(frame.token, TOKEN_LEN, payload, len), "its token");
    before = frames.place;
    if (frame.kind == GV_FRAME_PADDING) continue;
    check_frame(&frame);
    if (frame.kind != GV_FRAME_STREAM) continue;
    has_stream = true;
    last = frame.stream;
  }
  check(frames.place == before, "the place stays");
  check(status == GV_NONE ? before == len && len > 0 : status == GV_BAD_FRAME && fault.place == before && fault.kind > 0, "the end");
  status = gv_last_stream(payload, len, &told);
  check(has_stream ? status == GV_OK && told == last : status == GV_NONE, "the last stream");
}

/* What an endpoint wrote is a payload, whose bytes of streams are those that were written to them. */
void check_made(side *s, const uint8_t *payload, size_t len, bool is_ack_eliciting) {
  gv_frames frames = {payload, len, 0};
  gv_frame frame = {.size = sizeof frame};
  gv_fault fault = {.size = sizeof fault};
  gv_sending report = {.size = sizeof report};
  gv_status status;
  bool asks = false;
  check_frames(payload, len);
  while ((status = gv_frames_next(&frames, &frame, &fault)) == GV_OK) {
    asks = asks || frame.kind != GV_FRAME_ACK;
    if (frame.kind != GV_FRAME_STREAM) continue;
    check(has_pattern(s->name, frame.stream, frame.offset, frame.bytes, frame.len), "the bytes of a stream that are sent");
    check(gv_sending_report(s->end, frame.stream, &report) == GV_OK, "a stream with a sending half");
    check(frame.offset + frame.len <= report.written, "only what was written is sent");
    check(frame.offset + frame.len <= report.limit, "no more is sent than the peer permits");
    check(!frame.fin || (report.has_final_size && report.final_size == frame.offset + frame.len), "the FIN is sent at the end");
  }
  check(status == GV_NONE && asks == is_ack_eliciting, "a payload has whole frames, and asks for an ACK as it says");
}

/* Any bytes are read as frames. */
void read_frames(world *w, side *s) {
  (void)s;
  size_t len, most = 4 * (size_t)take_byte(&w->in);
  const uint8_t *bytes = take_bytes(&w->in, most, &len);
  uint64_t last = 0;
  check_frames(bytes, len);
  gv_status status = gv_last_stream(bytes, len, &last);
  mix(w, status);
  mix(w, last);
}

/* Ranges are written into as little room as the input says. */
void put_ranges(world *w, side *s) {
  (void)s;
  uint8_t out[MOST_RANGES * 16];
  size_t room = take_byte(&w->in);
  size_t len = take_ack(w, out, room);
  if (len > 0) check_frames(out, len);
}

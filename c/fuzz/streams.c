/* The application's calls: streams are opened, written, read and ended, and settings change. */
#include <string.h>

#include "world.h"

enum { MOST_WRITTEN = 1 << 17 };

#define NUMBERS (UINT64_C(1) << 62)

static bool is_peers(const side *s, uint64_t stream) { return (stream & 1) != (uint64_t)s->role; }

void open_one(world *w, side *s) {
  uint64_t stream = 0, limit = 0, left = 0, before;
  gv_dir dir = (gv_dir)(take_byte(&w->in) & 1);
  gv_status status;
  check(gv_open_left(s->end, dir, &left) == GV_OK, "how many may be opened");
  do {
    begin(s, &before);
    status = gv_open(s->end, dir, &stream, &limit);
  } while (is_made_again(s, status, before));
  check(status == GV_OK || status == GV_STREAM_LIMIT || status == GV_CONNECTION_CLOSED, "a stream");
  check(status != GV_OK || (!is_peers(s, stream) && (stream >> 1 & 1) == (uint64_t)dir && left > 0), "whose stream it is");
  check(status != GV_STREAM_LIMIT || left == 0, "a limit is reached where no stream is left");
  mix(w, status);
  mix(w, stream);
  mix(w, limit);
}

void accept_one(world *w, side *s) {
  uint64_t stream = 0;
  unsigned how = take_byte(&w->in);
  gv_dir dir = (gv_dir)(how & 1);
  gv_sending sending = {.size = sizeof sending};
  gv_status status = how & 2 ? gv_accept_of(s->end, dir, &stream) : gv_accept(s->end, &stream);
  check(status == GV_OK || status == GV_NONE, "a stream is accepted");
  mix(w, status);
  mix(w, stream);
  if (status != GV_OK) return;
  check(is_peers(s, stream) && (!(how & 2) || (stream >> 1 & 1) == (uint64_t)dir), "whose stream it is");
  check(gv_sending_report(s->end, stream, &sending) == (stream & 2 ? GV_WRONG_DIRECTION : GV_OK), "an accepted stream is open");
}

void write_some(world *w, side *s) {
  static uint8_t bytes[MOST_WRITTEN];
  uint64_t stream = take_number(&w->in);
  size_t count = 0, len = take_size(&w->in);
  uint64_t room = 0, before;
  gv_sending report = {.size = sizeof report}, after = {.size = sizeof after};
  gv_status status, known = gv_sending_report(s->end, stream, &report);
  if (len > MOST_WRITTEN) len = MOST_WRITTEN;
  for (size_t i = 0; known == GV_OK && i < len; i++) bytes[i] = pattern(s->name, stream, report.written + i);
  (void)gv_room(s->end, stream, &room);
  do {
    begin(s, &before);
    status = gv_write(s->end, stream, bytes, len, &count);
  } while (is_made_again(s, status, before));
  check(status != GV_OK || count == (len < room ? len : room), "as many bytes are accepted as there is room for");
  check(status == GV_OK || room == 0, "a write is accepted where there is room");
  known = gv_sending_report(s->end, stream, &after);
  check(status != GV_OK || (known == GV_OK && after.written == report.written + count), "what was written");
  mix(w, status);
  mix(w, count);
}

void end_sending(world *w, side *s) {
  unsigned how = take_byte(&w->in);
  uint64_t stream = take_number(&w->in);
  uint64_t code = 0, before;
  gv_sending after = {.size = sizeof after};
  gv_status status;
  if (how & 1) {
    code = take_number(&w->in);
    do {
      begin(s, &before);
      status = gv_reset(s->end, stream, code);
    } while (is_made_again(s, status, before));
    check(status != GV_OK || (gv_sending_report(s->end, stream, &after) == GV_OK && after.was_reset), "a reset");
    check(stream >= NUMBERS || (status == GV_INVALID) == (code >= NUMBERS), "the code of a reset");
  } else {
    status = gv_finish(s->end, stream);
    check(status != GV_NO_MEMORY, "a stream is finished without memory");
    check(status != GV_OK || gv_sending_report(s->end, stream, &after) == GV_OK, "a stream that is finished");
    check(status != GV_OK || !after.has_final_size || after.final_size == after.written, "where it ends");
  }
  mix(w, status);
}

void end_receiving(world *w, side *s) {
  unsigned how = take_byte(&w->in);
  uint64_t stream = take_number(&w->in);
  uint64_t code = take_number(&w->in);
  gv_receiving was = {.size = sizeof was}, is = {.size = sizeof is};
  gv_status status, known = gv_receiving_report(s->end, stream, &was);
  uint64_t before;
  do {
    begin(s, &before);
    status = how & 1 ? gv_stop_and_discard(s->end, stream, code) : gv_stop(s->end, stream, code);
  } while (is_made_again(s, status, before));
  mix(w, status);
  if (status != GV_OK) return;
  check(known == GV_OK && code < NUMBERS && gv_receiving_report(s->end, stream, &is) == GV_OK, "a stream that is stopped");
  check(!was.was_stopped || (is.was_stopped && is.stop_code == was.stop_code), "the first code stays");
  check(was.was_stopped || !is.was_stopped || is.stop_code == code, "the code of a stop");
  mix(w, is.stop_code);
}

/* What a look at a stream shows. */
typedef struct shown {
  gv_status status;
  gv_peeked peeked;
  uint64_t code;
} shown;

static void peek(side *s, uint64_t stream, shown *to) {
  gv_receiving report = {.size = sizeof report};
  to->peeked.size = sizeof to->peeked;
  to->peeked.front_len = to->peeked.back_len = 0;
  to->code = 0;
  to->status = gv_peek(s->end, stream, &to->peeked, &to->code);
  if (to->status != GV_OK) return;
  check(to->peeked.front_len > 0, "a look shows a byte at least");
  check(gv_receiving_report(s->end, stream, &report) == GV_OK, "a stream that can be read");
  size_t all = to->peeked.front_len + to->peeked.back_len;
  check(report.read_count + all <= report.highest, "no more is shown than came");
  if (s->is_foreign) return;
  check(has_pattern(1 - s->name, stream, report.read_count, to->peeked.front, to->peeked.front_len), "the bytes that are shown first");
  uint64_t behind = report.read_count + to->peeked.front_len;
  check(has_pattern(1 - s->name, stream, behind, to->peeked.back, to->peeked.back_len), "the bytes that are shown behind them");
}

static uint64_t read_count(const side *s, uint64_t stream) {
  gv_receiving report = {.size = sizeof report};
  return gv_receiving_report(s->end, stream, &report) == GV_OK ? report.read_count : 0;
}

static void read_at(world *w, side *s, uint64_t stream, size_t size) {
  static uint8_t into[MOST_WRITTEN];
  uint64_t code = 0, before = read_count(s, stream);
  size_t count = 0;
  shown seen;
  if (size > MOST_WRITTEN) size = MOST_WRITTEN;
  peek(s, stream, &seen);
  size_t all = seen.peeked.front_len + seen.peeked.back_len;
  gv_status status = gv_read(s->end, stream, into, size, &count, &code);
  mix(w, status);
  mix(w, count);
  mix(w, code);
  if (size == 0) return;
  check(status == seen.status && code == seen.code, "a look answers as a read");
  if (status != GV_OK) return;
  check(count == (size < all ? size : all) && read_count(s, stream) == before + count, "as many bytes are read as are there");
  check(s->is_foreign || has_pattern(1 - s->name, stream, before, into, count), "the bytes of a stream that are read");
}

void read_some(world *w, side *s) {
  uint64_t stream = take_number(&w->in);
  size_t size = take_size(&w->in);
  read_at(w, s, stream, size);
}

void consume_some(world *w, side *s) {
  uint64_t stream = take_number(&w->in);
  size_t count = 0, most = take_size(&w->in);
  uint64_t code = 0;
  bool at_end = false;
  gv_receiving after = {.size = sizeof after};
  shown seen;
  peek(s, stream, &seen);
  size_t all = seen.peeked.front_len + seen.peeked.back_len;
  gv_status status = gv_consume(s->end, stream, most, &count, &at_end, &code);
  mix(w, status);
  mix(w, count);
  mix(w, at_end);
  if (most == 0) return;
  check(status == seen.status && code == seen.code, "a look answers as consuming");
  if (status != GV_OK) return;
  check(count == (most < all ? most : all), "as many bytes are consumed as are there");
  check(gv_receiving_report(s->end, stream, &after) == GV_OK, "a stream that was read");
  check(at_end == (after.state == GV_RECV_STATE_DATA_READ), "the end");
}

/* Reads all that can be read. */
void read_all(world *w, side *s) {
  uint64_t stream = 0;
  for (; gv_next_readable(s->end, stream, &stream) == GV_OK; stream++) {
    read_at(w, s, stream, MOST_WRITTEN);
    read_at(w, s, stream, 1); /* its end, or a reset */
  }
}

void set_one(world *w, side *s) {
  unsigned which = take_byte(&w->in) % 5;
  uint64_t stream = which > 2 ? take_number(&w->in) : 0;
  uint64_t value = take_number(&w->in);
  uint64_t most = which == 0 ? UINT64_C(1) << 40 : which < 3 ? 1 << 17 : 1 << 30;
  gv_status status;
  switch (which) {
    case 0: status = gv_set_conn_window(s->end, value); break;
    case 3: status = gv_set_stream_window(s->end, stream, value); break;
    case 4: status = gv_set_send_buffer(s->end, stream, value); break;
    default: status = gv_set_grant(s->end, (gv_dir)(which - 1), value); break;
  }
  bool is_fit = value <= most && (value > 0 || which == 1 || which == 2);
  check(status != GV_OK || is_fit, "a setting out of its range");
  check(!is_fit || status != GV_OUT_OF_RANGE, "a setting in its range");
  if (status == GV_OK && which == 0 && value > s->widest) s->widest = value;
  if (status == GV_OK && which == 4 && value > s->widest_buffer) s->widest_buffer = value;
  mix(w, status);
}

void raise_limits(world *w, side *s) {
  gv_limits limits = {.size = sizeof limits};
  limits.max_data = take_number(&w->in);
  limits.bidi_local = take_number(&w->in);
  limits.bidi_remote = take_number(&w->in);
  limits.uni = take_number(&w->in);
  limits.streams_bidi = take_number(&w->in);
  limits.streams_uni = take_number(&w->in);
  gv_status status = gv_raise_limits(s->end, &limits);
  bool is_refused = status == GV_OUT_OF_RANGE || status == GV_TOO_MANY_STREAMS || status == GV_CONNECTION_CLOSED;
  check(status == GV_OK || is_refused, "limits are raised");
  w->is_honest = w->is_whole = false;
  mix(w, status);
}

void note_closed(world *w, side *s) {
  gv_closer by = GV_CLOSER_US, noted_by = GV_CLOSER_US;
  gv_close_kind kind = GV_CLOSE_TRANSPORT, noted_kind = GV_CLOSE_TRANSPORT;
  unsigned how = take_byte(&w->in);
  uint64_t code = take_number(&w->in), noted = 0;
  bool was_open = !is_closed(s->end);
  by = (gv_closer)(how & 1);
  kind = (gv_close_kind)(how >> 1 & 1);
  gv_status status = gv_note_closed(s->end, by, kind, code);
  gv_status told = gv_noted_close(s->end, &noted_by, &noted_kind, &noted);
  check(status == GV_OK, "a close is noted");
  check(!was_open || (told == GV_OK && noted_by == by && noted_kind == kind && noted == code), "the close that was noted");
  mix(w, status);
  mix(w, told);
}

/* Events: each that comes holds now, comes as often as it may, and none is missing in the end. */
#include "world.h"

static bool is_peers(const side *s, uint64_t stream) { return (stream & 1) != (uint64_t)s->role; }

static gv_send_state sending_state(const side *s, uint64_t stream) {
  gv_sending report = {.size = sizeof report};
  check(gv_sending_report(s->end, stream, &report) == GV_OK, "a stream with a sending half");
  return report.state;
}

static bool is_open(const side *s, uint64_t stream) {
  gv_sending report = {.size = sizeof report};
  return gv_sending_report(s->end, stream, &report) != GV_NO_SUCH_STREAM;
}

static bool is_next(const side *s, uint64_t stream, gv_status (*question)(const gv_endpoint *, uint64_t, uint64_t *)) {
  uint64_t found = 0;
  return question(s->end, stream, &found) == GV_OK && found == stream;
}

/* Whether a byte can be written. */
static bool has_room(const side *s, uint64_t stream) {
  uint64_t room = 0;
  return gv_room(s->end, stream, &room) == GV_OK && room > 0;
}

/* Whether what an event says is so now. */
static bool holds(const side *s, const gv_event *event) {
  uint64_t number = 0;
  switch (event->kind) {
    case GV_EVENT_OPENED: return is_peers(s, event->stream) && is_open(s, event->stream);
    case GV_EVENT_READABLE: return is_next(s, event->stream, gv_next_readable);
    case GV_EVENT_WRITABLE: return is_next(s, event->stream, gv_next_writable) && has_room(s, event->stream);
    case GV_EVENT_STOPPED: return gv_stopped_with(s->end, event->stream, &number) == GV_OK && number == event->code;
    case GV_EVENT_FINISHED: return sending_state(s, event->stream) == GV_SEND_STATE_DATA_RECVD;
    case GV_EVENT_RESET_ACKED: return sending_state(s, event->stream) == GV_SEND_STATE_RESET_RECVD;
    case GV_EVENT_ENDED: return is_next(s, event->stream, gv_next_ended);
    case GV_EVENT_AVAILABLE: return gv_open_left(s->end, event->dir, &number) == GV_OK && number > 0;
    case GV_EVENT_STREAM_DATA_BLOCKED: return is_open(s, event->stream);
    case GV_EVENT_DATA_BLOCKED:
    case GV_EVENT_STREAMS_BLOCKED: return !is_closed(s->end);
    default: return false;
  }
}

static bool comes_once(gv_event_kind kind) {
  return kind == GV_EVENT_OPENED || (kind >= GV_EVENT_STOPPED && kind <= GV_EVENT_ENDED);
}

static bool is_of_stream(gv_event_kind kind) { return kind <= GV_EVENT_ENDED || kind == GV_EVENT_STREAM_DATA_BLOCKED; }

static bool hear_one(world *w, side *s) {
  gv_event event = {.size = sizeof event};
  uint64_t before;
  gv_status status;
  do {
    begin(s, &before);
    status = gv_next_event(s->end, &event);
  } while (is_made_again(s, status, before));
  mix(w, status);
  if (status != GV_OK) {
    check(status == GV_NONE, "an event or none");
    return false;
  }
  mix(w, event.kind);
  mix(w, event.stream);
  mix(w, event.dir);
  mix(w, event.code);
  check(holds(s, &event), "what an event says is so");
  if (!is_of_stream(event.kind) || event.stream >= STREAMS) return true;
  uint16_t *news = &s->news[event.stream];
  uint16_t bit = (uint16_t)(1u << event.kind);
  check(!comes_once(event.kind) || !(*news & bit), "an event that comes once");
  bool was_opened = event.kind == GV_EVENT_OPENED || !is_peers(s, event.stream) || (*news & 1u << GV_EVENT_OPENED);
  check(was_opened, "a stream's first event is that it was opened");
  *news = (uint16_t)(*news | bit);
  return true;
}

void hear(world *w, side *s) {
  unsigned count = 1 + take_byte(&w->in) % 16;
  while (count-- > 0 && hear_one(w, s)) {}
}

void report_blocked(world *w, side *s) {
  gv_status status = gv_report_blocked(s->end, take_byte(&w->in) & 1);
  check(status == GV_OK, "a choice");
}

static bool came(const side *s, uint64_t stream, gv_event_kind kind) { return s->news[stream] >> kind & 1; }

/* All events are read, and what holds now was reported. */
void hear_all(world *w, side *s) {
  gv_sending report = {.size = sizeof report};
  uint64_t code = 0;
  while (hear_one(w, s)) {}
  for (uint64_t stream = 0; stream < STREAMS; stream++) {
    if (!is_open(s, stream)) continue;
    check(!is_peers(s, stream) || came(s, stream, GV_EVENT_OPENED), "an opened stream was reported");
    check(gv_stopped_with(s->end, stream, &code) != GV_OK || came(s, stream, GV_EVENT_STOPPED), "a stopped stream was reported");
    check(!is_next(s, stream, gv_next_ended) || came(s, stream, GV_EVENT_ENDED), "an ended stream was reported");
    check(!is_next(s, stream, gv_next_readable) || came(s, stream, GV_EVENT_READABLE), "a readable stream was reported");
    if (gv_sending_report(s->end, stream, &report) != GV_OK) continue;
    check(report.state != GV_SEND_STATE_DATA_RECVD || came(s, stream, GV_EVENT_FINISHED), "a finished stream was reported");
    check(report.state != GV_SEND_STATE_RESET_RECVD || came(s, stream, GV_EVENT_RESET_ACKED), "an acknowledged reset was reported");
  }
}

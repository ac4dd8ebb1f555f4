/* The public calls that do more than forward; the others are in forwarding.c. Each checks its pointers and copies between the public
 * structs and those of the library below, which checks the numbers. So the public structs may grow, no proof has to be done again for that,
 * and what is proved only ever gets whole, written values. */
#include <stdalign.h>
#include <string.h>

#include "hearing.h"

/* A field that a later version adds must not lie in today's padding, which a program may leave unwritten. */
#define ENDS_WITH(type, field) _Static_assert(sizeof(type) == UP_TO(type, field), #type " ends with " #field)
ENDS_WITH(gv_settings, lifetime_uni);
ENDS_WITH(gv_tuning, spare);
ENDS_WITH(gv_limits, streams_uni);
ENDS_WITH(gv_allocator, release);
ENDS_WITH(gv_made, len);
ENDS_WITH(gv_fill_request, most_bytes);
ENDS_WITH(gv_filled, last_stream);
ENDS_WITH(gv_event, code);
ENDS_WITH(gv_sending, reset_code);
ENDS_WITH(gv_receiving, stop_code);
ENDS_WITH(gv_closing_info, place);
ENDS_WITH(gv_frame, token);
ENDS_WITH(gv_fault, place);
ENDS_WITH(gv_peeked, back);

/* An endpoint. */

gv_status gv_settings_init(gv_settings *settings, size_t size) {
  const gv_settings first = {size, 1 << 20, 1 << 18, 1 << 18, 1 << 18, 1 << 18, 100, 100, 1 << 21, 1 << 21};
  if (settings == NULL || size < UP_TO(gv_settings, lifetime_uni) || size > MOST_SIZE) return GV_INVALID;
  memset(settings, 0, size);
  memcpy(settings, &first, least(size, sizeof first));
  return GV_OK;
}

static const gv_tuning untuned = {sizeof untuned, GV_SHARE_HALF, GV_SHARE_NONE, GV_OFF, GV_OFF, 0, 0, GV_OFF, GV_OFF};

gv_status gv_tuning_init(gv_tuning *tuning, size_t size) {
  if (tuning == NULL || size < UP_TO(gv_tuning, reads_when_closed) || size > MOST_SIZE) return GV_INVALID;
  memset(tuning, 0, size);
  memcpy(tuning, &untuned, least(size, sizeof untuned));
  tuning->size = size;
  return GV_OK;
}

gv_status gv_limits_init(gv_limits *limits, size_t size) {
  if (limits == NULL || size < UP_TO(gv_limits, streams_uni) || size > MOST_SIZE) return GV_INVALID;
  memset(limits, 0, size);
  limits->size = size;
  return GV_OK;
}

static bool take_settings(gvp_settings *to, const gv_settings *from) {
  gv_settings s;
  if (!copy_in(&s, sizeof s, from, UP_TO(gv_settings, lifetime_uni))) return false;
  gvp_settings own = {
    s.conn_window, s.bidi_local, s.bidi_remote, s.uni, s.send_buffer, s.grant_bidi, s.grant_uni, s.lifetime_bidi, s.lifetime_uni,
  };
  *to = own;
  return true;
}

static bool take_tuning(gvp_tuning *to, const gv_tuning *from) {
  gv_tuning t;
  if (!copy_in(&t, sizeof t, from, UP_TO(gv_tuning, reads_when_closed))) return false;
  if ((unsigned)t.within_credit > GV_ON || (unsigned)t.reads_when_closed > GV_ON) return false;
  if ((unsigned)t.answers_stops > GV_ON || t.spare != GV_OFF) return false;
  gvp_tuning own = {
    (uint32_t)t.credit_step, (uint32_t)t.count_step, t.within_credit == GV_ON, t.reads_when_closed == GV_ON, t.epoch, t.send_window,
    t.answers_stops == GV_ON,
  };
  *to = own;
  return true;
}

static bool take_limits(gvp_limits *to, const gv_limits *from) {
  gv_limits l;
  if (!copy_in(&l, sizeof l, from, UP_TO(gv_limits, streams_uni))) return false;
  gvp_limits own = {l.max_data, l.bidi_local, l.bidi_remote, l.uni, l.streams_bidi, l.streams_uni};
  *to = own;
  return true;
}

gv_status gv_limits_of(const gv_settings *settings, gv_limits *limits) {
  gvp_settings s;
  if (!take_settings(&s, settings) || !is_sized(limits, UP_TO(gv_limits, streams_uni))) return GV_INVALID;
  gv_limits granted = {0, s.conn_window, s.bidi_local, s.bidi_remote, s.uni, s.grant_bidi, s.grant_uni};
  copy_out(limits, &granted, sizeof granted);
  return GV_OK;
}

static bool take_allocator(gv_allocator *to, const gv_allocator *from) {
  return copy_in(to, sizeof *to, from, UP_TO(gv_allocator, release)) && to->allocate != NULL && to->release != NULL;
}

gv_status gv_endpoint_new_tuned(gv_role role, const gv_settings *settings, const gv_tuning *tuning, const gv_limits *peer,
                                const gv_allocator *allocator, gv_endpoint **out) {
  gvp_settings own;
  gvp_tuning chosen;
  gvp_limits limits;
  gv_allocator memory = gvp_of_c;
  if (out == NULL || !take_settings(&own, settings) || !take_limits(&limits, peer)) return GV_INVALID;
  if (!take_tuning(&chosen, tuning == NULL ? &untuned : tuning)) return GV_INVALID;
  if (allocator != NULL && !take_allocator(&memory, allocator)) return GV_INVALID;
  gv_endpoint *end = memory.allocate(memory.context, sizeof *end, alignof(gv_endpoint));
  if (end == NULL) return GV_NO_MEMORY;
  gv_endpoint fresh = {{false, NULL}, {false, NULL}, {false, false}, memory, NULL, {no_numbers, 0}, false, false, {no_numbers, 0}, 0, NO_STREAM};
  *end = fresh;
  gv_status status = leave(end, gvp_reserve(enter(end)));
  if (status == GV_OK) status = leave(end, gvp_new(enter(end), (uint32_t)role, &own, &chosen, &limits));
  if (status == GV_OK) {
    *out = end;
  } else {
    gv_endpoint_free(end);
  }
  return status;
}

gv_status gv_endpoint_new_with(gv_role role, const gv_settings *settings, const gv_limits *peer, const gv_allocator *allocator,
                               gv_endpoint **out) {
  return gv_endpoint_new_tuned(role, settings, NULL, peer, allocator, out);
}

gv_status gv_endpoint_new(gv_role role, const gv_settings *settings, const gv_limits *peer, gv_endpoint **out) {
  return gv_endpoint_new_with(role, settings, peer, NULL, out);
}

void gv_endpoint_free(gv_endpoint *end) {
  if (end == NULL) return;
  gv_allocator memory = end->memory;
  free_numbers(end, &end->told);
  free_numbers(end, &end->said);
  gvp_heard_drop(enter_heard(end));
  (void)leave(end, GV_OK);
  gvp_free(enter(end));
  (void)leave(end, GV_OK);
  memory.release(memory.context, end, sizeof *end, alignof(gv_endpoint));
}

gv_status gv_raise_limits(gv_endpoint *end, const gv_limits *peer) {
  gvp_limits limits;
  if (end == NULL || !take_limits(&limits, peer)) return GV_INVALID;
  return leave(end, gvp_raise_limits(enter(end), &limits));
}

/* Packets. */

/* What no packet has is refused here, before the payload is looked through. */
static bool is_packet(uint64_t number, const uint8_t *payload, size_t len) {
  return number <= MOST_NUMBER && len <= GV_MAX_PAYLOAD && is_slice(payload, len);
}

/* What a payload's blocked frames say is noted once they took effect. */
static gv_status received(gv_endpoint *end, gv_status status, const uint8_t *payload, size_t len, size_t blocked) {
  if (status == GV_OK && blocked > 0) (void)look_through(end, payload, len, true);
  give_back(end);
  return status;
}

gv_status gv_receive(gv_endpoint *end, uint64_t number, const uint8_t *payload, size_t len) {
  gvp_closing_info why = {0, 0, 0};
  size_t blocked;
  if (end == NULL || !is_packet(number, payload, len)) return GV_INVALID;
  const uint8_t *from = read_from(payload, len);
  if (!expect_payload(end, from, len, &blocked)) return GV_NO_MEMORY;
  gv_status status = leave(end, gvp_receive(enter(end), number, from, len, &why));
  return received(end, status, from, len, blocked);
}

/* Makes room for each number from the lowest outstanding to the highest: as much as the library below wants, taken at once. */
static bool has_room_for_acked(gv_endpoint *end) {
  enum { FIRST_ROOM = 64 };
  size_t room = FIRST_ROOM;
  uint64_t least = 0, other = 0;
  (void)leave(end, gvp_next_outstanding(enter(end), 0, &least));
  while (leave(end, gvp_next_outstanding(enter(end), least + room, &other)) == GV_OK) room *= 2;
  return has_room(end, &end->told, room);
}

gv_status gv_receive_with_acks(gv_endpoint *end, uint64_t number, const uint8_t *payload, size_t len,
                             void (*told)(void *context, uint64_t number), void *context) {
  gvp_closing_info why = {0, 0, 0};
  size_t count = 0, blocked;
  gv_status status;
  if (end == NULL || told == NULL || !is_packet(number, payload, len)) return GV_INVALID;
  const uint8_t *from = read_from(payload, len);
  if (!expect_payload(end, from, len, &blocked)) return GV_NO_MEMORY;
  do {
    status = leave(end, gvp_receive_with_acks(enter(end), number, from, len, &why, end->told.at, end->told.room, &count));
  } while (status == GV_NO_ROOM && has_room_for_acked(end));
  for (size_t i = 0; i < count; i++) told(context, end->told.at[i]);
  return received(end, status == GV_NO_ROOM ? GV_NO_MEMORY : status, from, len, blocked);
}

static gv_status give_made(gv_made *to, gv_status status, gvp_made made) {
  gv_made got = {0, made.is_ack_eliciting, made.number, made.len};
  if (status == GV_OK) copy_out(to, &got, sizeof got);
  return status;
}

gv_status gv_make_packet_from(gv_endpoint *end, uint64_t first, uint64_t delay, uint8_t *out, size_t room, gv_made *made) {
  gvp_made got = {0, 0, false};
  if (end == NULL || out == NULL || !is_slice(out, room) || !is_sized(made, UP_TO(gv_made, len))) return GV_INVALID;
  gv_status status = leave(end, gvp_make_packet_from(enter(end), first, delay, out, room, &got));
  return give_made(made, status, got);
}

gv_status gv_make_packet(gv_endpoint *end, uint8_t *out, size_t room, gv_made *made) {
  return gv_make_packet_from(end, 0, 0, out, room, made);
}

gv_status gv_make_ack(gv_endpoint *end, uint64_t delay, uint8_t *out, size_t room, gv_made *made) {
  gvp_made got = {0, 0, false};
  if (end == NULL || out == NULL || !is_slice(out, room) || !is_sized(made, UP_TO(gv_made, len))) return GV_INVALID;
  gv_status status = leave(end, gvp_make_ack(enter(end), delay, out, room, &got));
  return give_made(made, status, got);
}

/* Events. */

gv_status gv_next_event(gv_endpoint *end, gv_event *event) {
  gvp_news got = {0, 0, 0, 0};
  if (end == NULL || !is_sized(event, UP_TO(gv_event, code))) return GV_INVALID;
  if (!listens(end) || !catch_up(end) || !note_said(end)) return GV_NO_MEMORY;
  end->hears = true;
  for (uint32_t dir = GV_DIR_BIDI; dir <= GV_DIR_UNI; dir++) {
    if (end->wants[dir]) (void)leave(end, gvp_wants(enter_heard(end), dir));
    end->wants[dir] = false;
  }
  gv_status status = leave(end, gvp_next_news(&end->heard, enter(end), &got));
  gv_event told = {0, (gv_event_kind)got.kind, (gv_dir)got.dir, got.stream, got.code};
  if (status == GV_OK) copy_out(event, &told, sizeof told);
  return status;
}

gv_status gv_report_blocked(gv_endpoint *end, bool is_chosen) {
  if (end == NULL) return GV_INVALID;
  end->looks = is_chosen;
  return GV_OK;
}

/* Streams. */

gv_status gv_open(gv_endpoint *end, gv_dir dir, uint64_t *stream, uint64_t *limit) {
  uint64_t got = 0;
  if (end == NULL || stream == NULL) return GV_INVALID;
  gv_status status = leave(end, gvp_open(enter(end), (uint32_t)dir, &got));
  if (status == GV_OK) *stream = got;
  if (status != GV_STREAM_LIMIT) return status;
  end->wants[dir == GV_DIR_UNI] = true;
  if (limit != NULL) *limit = got;
  return status;
}

gv_status gv_write(gv_endpoint *end, uint64_t stream, const uint8_t *bytes, size_t len, size_t *count) {
  size_t got = 0;
  if (end == NULL || count == NULL || !is_slice(bytes, len)) return GV_INVALID;
  /* A write that couldn't be noted holds the next one up, lest its event never comes. Any other error has priority over the want of memory. */
  bool is_noted = catch_up(end);
  size_t most = is_noted ? len : 0;
  gv_status status = leave(end, gvp_write(enter(end), stream, read_from(bytes, most), most, &got));
  if (status != GV_OK) return status;
  if (got < len) {
    if (!is_noted) return GV_NO_MEMORY;
    end->unnoted = stream;
    (void)catch_up(end);
  }
  *count = got;
  return GV_OK;
}

gv_status gv_stop(gv_endpoint *end, uint64_t stream, uint64_t code) {
  if (end == NULL) return GV_INVALID;
  return read_on(end, stream, leave(end, gvp_stop(enter(end), stream, code)));
}

gv_status gv_stop_and_discard(gv_endpoint *end, uint64_t stream, uint64_t code) {
  if (end == NULL) return GV_INVALID;
  return read_on(end, stream, leave(end, gvp_stop_and_discard(enter(end), stream, code)));
}

gv_status gv_read(gv_endpoint *end, uint64_t stream, uint8_t *into, size_t size, size_t *count, uint64_t *code) {
  uint64_t got = 0;
  if (end == NULL || count == NULL || !is_slice(into, size)) return GV_INVALID;
  gv_status status = read_on(end, stream, leave(end, gvp_read(enter(end), stream, written_to(into, size), size, &got)));
  if (status == GV_OK) *count = (size_t)got;
  if (status == GV_RESET_BY_PEER && code != NULL) *code = got;
  return status;
}

gv_status gv_peek(const gv_endpoint *end, uint64_t stream, gv_peeked *peeked, uint64_t *code) {
  gvp_pieces lent = {none, 0, none, 0};
  uint64_t why = 0;
  if (end == NULL || !is_sized(peeked, UP_TO(gv_peeked, back))) return GV_INVALID;
  gv_status status = leave(end, gvp_peek(enter(end), stream, &why, &lent));
  gv_peeked got = {0, lent.front_len, lent.back_len, lent.front, lent.back};
  if (status == GV_OK) copy_out(peeked, &got, sizeof got);
  if (status == GV_RESET_BY_PEER && code != NULL) *code = why;
  return status;
}

gv_status gv_consume(gv_endpoint *end, uint64_t stream, size_t most, size_t *count, bool *at_end, uint64_t *code) {
  uint64_t got = 0;
  bool ends = false;
  if (end == NULL || count == NULL || at_end == NULL) return GV_INVALID;
  gv_status status = read_on(end, stream, leave(end, gvp_consume(enter(end), stream, most, &got, &ends)));
  if (status == GV_OK) {
    *count = (size_t)got;
    *at_end = ends;
  }
  if (status == GV_RESET_BY_PEER && code != NULL) *code = got;
  return status;
}

static gv_status lane_of(const gv_endpoint *end, uint64_t stream, gvp_lane *lane) {
  memset(lane, 0, sizeof *lane);
  gv_status status = leave(end, gvp_lane_report(enter(end), stream, lane));
  return status == GV_NONE ? GV_NO_SUCH_STREAM : status;
}

gv_status gv_sending_report(const gv_endpoint *end, uint64_t stream, gv_sending *sending) {
  gvp_lane lane;
  if (end == NULL || !is_sized(sending, UP_TO(gv_sending, reset_code))) return GV_INVALID;
  gv_status status = lane_of(end, stream, &lane);
  if (status != GV_OK) return status;
  if (!lane.has_sending) return GV_WRONG_DIRECTION;
  const gvp_sending *s = &lane.sending;
  gv_sending got = {0, (gv_send_state)s->state, s->has_final_size, s->was_reset, s->written, s->limit, s->final_size, s->reset_code};
  copy_out(sending, &got, sizeof got);
  return GV_OK;
}

gv_status gv_receiving_report(const gv_endpoint *end, uint64_t stream, gv_receiving *receiving) {
  gvp_lane lane;
  if (end == NULL || !is_sized(receiving, UP_TO(gv_receiving, reset_code))) return GV_INVALID;
  gv_status status = lane_of(end, stream, &lane);
  if (status != GV_OK) return status;
  if (!lane.has_receiving) return GV_WRONG_DIRECTION;
  const gvp_receiving *r = &lane.receiving;
  gv_receiving got = {
    0, (gv_recv_state)r->state, r->has_final_size, r->was_reset, r->read_count, r->highest, r->limit, r->final_size, r->reset_code,
    r->was_stopped, r->stop_code,
  };
  copy_out(receiving, &got, sizeof got);
  return GV_OK;
}

/* Closing. */

gv_status gv_closing(const gv_endpoint *end, gv_closing_info *closing) {
  gvp_closing_info told = {0, 0, 0};
  if (end == NULL || !is_sized(closing, UP_TO(gv_closing_info, place))) return GV_INVALID;
  gv_status status = leave(end, gvp_closing(enter(end), &told));
  gv_closing_info got = {0, told.code, told.frame_type, told.place};
  if (status == GV_OK) copy_out(closing, &got, sizeof got);
  return status;
}

gv_status gv_close_payload(const gv_endpoint *end, uint8_t *out, size_t room, size_t *len) {
  size_t got = 0;
  if (end == NULL || len == NULL || !is_slice(out, room)) return GV_INVALID;
  gv_status status = leave(end, gvp_close_payload(enter(end), written_to(out, room), room, &got));
  if (status == GV_OK) *len = got;
  return status;
}

gv_status gv_noted_close(const gv_endpoint *end, gv_closer *by, gv_close_kind *kind, uint64_t *code) {
  gvp_told told = {0, 0, 0};
  if (end == NULL || by == NULL || kind == NULL || code == NULL) return GV_INVALID;
  gv_status status = leave(end, gvp_noted_close(enter(end), &told));
  if (status != GV_OK) return status;
  *by = (gv_closer)told.by;
  *kind = (gv_close_kind)told.kind;
  *code = told.code;
  return GV_OK;
}

/* Frames. */

gv_status gv_last_stream(const uint8_t *payload, size_t len, uint64_t *stream) {
  uint64_t got = 0;
  if (stream == NULL || !is_slice(payload, len)) return GV_INVALID;
  gv_status status = (gv_status)gvp_last_stream(read_from(payload, len), len, &got);
  if (status == GV_OK) *stream = got;
  return status;
}

static gv_frame frame_in(const uint8_t *payload, const gvp_frame *f) {
  gv_frame got;
  memset(&got, 0, sizeof got);
  got.kind = (gv_frame_kind)f->kind;
  got.dir = (gv_dir)f->dir;
  got.fin = f->fin;
  got.has_ecn = f->has_ecn;
  got.place = f->place;
  got.type = f->frame_type;
  got.stream = f->stream;
  got.offset = f->offset;
  got.code = f->code;
  got.final_size = f->final_size;
  got.limit = f->limit;
  got.largest = f->largest;
  got.delay = f->delay;
  got.ect0 = f->ect0;
  got.ect1 = f->ect1;
  got.ce = f->ce;
  got.sequence = f->sequence;
  got.retire = f->retire;
  got.at_fault = f->at_fault;
  got.len = f->len;
  got.bytes = payload + f->bytes_at;
  got.token = got.kind == GV_FRAME_NEW_CONNECTION_ID ? payload + f->token_at : NULL;
  return got;
}

static gvp_frame frame_of(const gv_frame *f) {
  gvp_frame given;
  memset(&given, 0, sizeof given);
  given.kind = (uint32_t)f->kind;
  given.dir = (uint32_t)f->dir;
  given.fin = f->fin;
  given.has_ecn = f->has_ecn;
  given.stream = f->stream;
  given.offset = f->offset;
  given.code = f->code;
  given.final_size = f->final_size;
  given.limit = f->limit;
  given.largest = f->largest;
  given.delay = f->delay;
  given.ect0 = f->ect0;
  given.ect1 = f->ect1;
  given.ce = f->ce;
  given.sequence = f->sequence;
  given.retire = f->retire;
  given.at_fault = f->at_fault;
  return given;
}

gv_status gv_frames_next(gv_frames *frames, gv_frame *frame, gv_fault *fault) {
  gvp_frame got;
  gvp_fault why = {0, 0, 0, 0};
  if (frames == NULL || !is_slice(frames->payload, frames->len)) return GV_INVALID;
  if (!is_sized(frame, UP_TO(gv_frame, token)) || !is_sized(fault, UP_TO(gv_fault, place))) return GV_INVALID;
  const uint8_t *payload = read_from(frames->payload, frames->len);
  memset(&got, 0, sizeof got);
  gv_status status = (gv_status)gvp_frames_next(payload, frames->len, &frames->place, &got, &why);
  if (status == GV_OK) {
    gv_frame read = frame_in(payload, &got);
    copy_out(frame, &read, sizeof read);
  } else if (status == GV_BAD_FRAME) {
    gv_fault told = {0, (gv_fault_kind)why.kind, why.code, why.frame_type, why.place};
    copy_out(fault, &told, sizeof told);
  }
  return status;
}

gv_status gv_ack_next(gv_acked *ranges, gv_range *range) {
  gvp_range got = {0, 0};
  size_t used = 0;
  if (ranges == NULL || range == NULL || !is_slice(ranges->bytes, ranges->len)) return GV_INVALID;
  const uint8_t *bytes = read_from(ranges->bytes, ranges->len);
  gv_status status = (gv_status)gvp_ack_next(bytes, ranges->len, &ranges->largest, &used, &got);
  if (status != GV_OK) return status;
  ranges->bytes = bytes + used;
  ranges->len -= used;
  range->smallest = got.smallest;
  range->largest = got.largest;
  return GV_OK;
}

gv_status gv_put(const gv_frame *frame, uint8_t *out, size_t room, size_t *len) {
  gv_frame f;
  size_t got = 0;
  if (len == NULL || !is_slice(out, room) || !copy_in(&f, sizeof f, frame, UP_TO(gv_frame, token))) return GV_INVALID;
  if (!is_slice(f.bytes, f.len)) return GV_INVALID;
  gvp_frame given = frame_of(&f);
  const uint8_t *token = f.token == NULL ? none : f.token;
  size_t token_len = f.token == NULL ? 0 : TOKEN_LEN;
  gv_status status =
    (gv_status)gvp_put(&given, read_from(f.bytes, f.len), f.len, token, token_len, written_to(out, room), room, &got);
  if (status == GV_OK) *len = got;
  return status;
}

gv_status gv_put_ack(const gv_range *ranges, size_t count, uint64_t delay, uint8_t *out, size_t room, size_t *written, size_t *len) {
  enum { MOST_RANGES = 32 };
  gvp_range given[MOST_RANGES];
  size_t taken = 0, got = 0;
  if (ranges == NULL || written == NULL || len == NULL || !is_slice(out, room)) return GV_INVALID;
  if (count > MOST_RANGES) return GV_INVALID;
  for (size_t i = 0; i < count; i++) {
    given[i].smallest = ranges[i].smallest;
    given[i].largest = ranges[i].largest;
  }
  gv_status status = (gv_status)gvp_put_ack(given, count, delay, written_to(out, room), room, &taken, &got);
  if (status != GV_OK) return status;
  *written = taken;
  *len = got;
  return GV_OK;
}

/* Frames and tokens. */

/* Whether a frame is of streams or flow control. The others are passed over here, so that they need no room below. */
static bool is_of_end(const gvp_frame *frame) {
  return frame->kind == GV_FRAME_RESET_STREAM || frame->kind == GV_FRAME_STOP_SENDING ||
         (frame->kind >= GV_FRAME_STREAM && frame->kind <= GV_FRAME_STREAMS_BLOCKED);
}

/* Conditions of the calls below, which check them no more. */
static bool is_given(const gvp_frame *frame) {
  return frame->kind <= GV_FRAME_HANDSHAKE_DONE && frame->dir <= GV_DIR_UNI && frame->stream <= MOST_NUMBER;
}

/* Copies the frames of streams and flow control for the library below, and counts them; false if one isn't a struct of the first one's
 * size, or no frame. All are checked before any takes effect, so that GV_INVALID changes nothing. */
static bool take_given(gvp_given *to, const gv_frame *frames, size_t count, size_t *ours) {
  *ours = 0;
  for (size_t i = 0; i < count; i++) {
    const uint8_t *at = (const uint8_t *)frames + i * size_of(frames);
    gv_frame f;
    if (size_of(at) != size_of(frames) || !copy_in(&f, sizeof f, at, UP_TO(gv_frame, token)) || !is_slice(f.bytes, f.len)) return false;
    gvp_given given = {frame_of(&f), read_from(f.bytes, f.len), f.len};
    if (!is_given(&given.frame)) return false;
    if (!is_of_end(&given.frame)) continue;
    if (to != NULL) to[*ours] = given;
    ++*ours;
  }
  return true;
}

/* Blocked frames are noted after they took effect, so the room for the notes is taken before. */
static gv_status take_all(gv_endpoint *end, const gvp_given *given, size_t count, gv_taken *taken) {
  uint32_t got = GV_TAKEN_NOT_OURS;
  gv_status status = GV_OK;
  size_t blocked = 0;
  for (size_t i = 0; i < count && (end->hears || end->looks); i++) blocked += says_blocked(&given[i].frame);
  if (!expect(end, blocked)) return GV_NO_MEMORY;
  if (count == 1) status = leave(end, gvp_take_frame(enter(end), &given->frame, given->bytes, given->bytes_len, &got));
  if (count > 1) status = leave(end, gvp_take_frames(enter(end), given, count, &got));
  if (status != GV_OK) return status;
  for (size_t i = 0; i < count && blocked > 0; i++)
    if (says_blocked(&given[i].frame)) note_blocked(end, &given[i].frame);
  *taken = (gv_taken)got;
  return GV_OK;
}

gv_status gv_take_frames(gv_endpoint *end, const gv_frame *frames, size_t count, gv_taken *taken) {
  enum { FEW = 16 };
  gvp_given few[FEW], *given = few;
  gv_status status = GV_OK;
  size_t ours;
  if (end == NULL || taken == NULL || count > PTRDIFF_MAX / sizeof *given) return GV_INVALID;
  if (count > 0 && !is_sized(frames, UP_TO(gv_frame, token))) return GV_INVALID;
  if (count > 1 && size_of(frames) % alignof(gv_frame) != 0) return GV_INVALID;
  bool is_few = count <= FEW;
  if (!take_given(is_few ? few : NULL, frames, count, &ours)) return GV_INVALID;
  /* Before memory is asked for, so that a closed endpoint never returns GV_NO_MEMORY. A single frame mostly needs none. */
  if (ours != 1 || !is_few || says_blocked(&few->frame)) status = ask_open(end);
  if (status != GV_OK) return status;
  if (is_few || ours == 0) return take_all(end, few, ours, taken);
  given = end->memory.allocate(end->memory.context, ours * sizeof *given, alignof(gvp_given));
  if (given == NULL) return GV_NO_MEMORY;
  (void)take_given(given, frames, count, &ours);
  status = take_all(end, given, ours, taken);
  give_back(end);
  end->memory.release(end->memory.context, given, ours * sizeof *given, alignof(gvp_given));
  return status;
}

gv_status gv_take_frame(gv_endpoint *end, const gv_frame *frame, gv_taken *taken) { return gv_take_frames(end, frame, 1, taken); }

static gv_token token_of(const gvp_token *from) {
  gv_token told = {from->epoch, from->first, from->number};
  return told;
}

static gvp_token given_token(const gv_token *from) {
  gvp_token given = {from->epoch, from->first, from->number};
  return given;
}

gv_status gv_fill(gv_endpoint *end, const gv_fill_request *want, uint8_t *out, size_t room, gv_filled *filled) {
  gv_fill_request w;
  gvp_filled got = {false, false, 0, 0, 0};
  gvp_token token = {0, 0, 0};
  if (end == NULL || !is_slice(out, room) || !copy_in(&w, sizeof w, want, UP_TO(gv_fill_request, most_bytes))) return GV_INVALID;
  if (!is_sized(filled, UP_TO(gv_filled, last_stream))) return GV_INVALID;
  gvp_request given = {w.items, w.streams, w.alone, w.first, w.is_capped ? w.most_bytes : SIZE_MAX};
  gv_status status = leave(end, gvp_fill(enter(end), &given, written_to(out, room), room, &got));
  if (status != GV_OK) return status;
  (void)leave(end, gvp_token_of(enter(end), got.token, &token));
  gv_filled told = {0, got.has_last_stream, got.more, token_of(&token), got.len, got.last_stream};
  copy_out(filled, &told, sizeof told);
  return GV_OK;
}

gv_status gv_token_of(const gv_endpoint *end, uint64_t number, gv_token *token) {
  gvp_token got = {0, 0, 0};
  if (end == NULL || token == NULL) return GV_INVALID;
  gv_status status = leave(end, gvp_token_of(enter(end), number, &got));
  if (status == GV_OK) *token = token_of(&got);
  return status;
}

gv_status gv_token_and(gv_token *token, const gv_token *next) {
  gvp_token both = {0, 0, 0};
  if (token == NULL || next == NULL) return GV_INVALID;
  gvp_token first = given_token(token), second = given_token(next);
  gv_status status = (gv_status)gvp_token_and(&first, &second, &both);
  if (status == GV_OK) *token = token_of(&both);
  return status;
}

gv_status gv_token_acked(gv_endpoint *end, const gv_token *token) {
  if (end == NULL || token == NULL) return GV_INVALID;
  gvp_token given = given_token(token);
  return leave(end, gvp_token_acked(enter(end), &given));
}

gv_status gv_token_lost(gv_endpoint *end, const gv_token *token) {
  if (end == NULL || token == NULL) return GV_INVALID;
  gvp_token given = given_token(token);
  return leave(end, gvp_token_lost(enter(end), &given));
}

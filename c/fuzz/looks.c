/* Questions: they agree with each other, and stay within what was promised. */
#include "world.h"

#define NUMBERS (UINT64_C(1) << 62)

typedef gv_status question(const gv_endpoint *, uint64_t *);

static uint64_t ask(const side *s, question *which) {
  uint64_t answer = 0;
  check(which(s->end, &answer) == GV_OK, "a question that is always answered");
  return answer;
}

bool is_closed(const gv_endpoint *end) {
  gv_closing_info closing = {.size = sizeof closing};
  uint64_t code;
  gv_closer by;
  gv_close_kind kind;
  return gv_closing(end, &closing) == GV_OK || gv_peer_closed(end, &code) == GV_OK || gv_noted_close(end, &by, &kind, &code) == GV_OK;
}

/* After each call: what grows never falls, and no more is kept than was granted. */
void look(world *w, side *s) {
  uint64_t granted = ask(s, gv_granted), spent = ask(s, gv_spent), taken = ask(s, gv_taken_sum), stored = ask(s, gv_stored);
  uint64_t next = ask(s, gv_next_number), noted = ask(s, gv_noted), unsent = ask(s, gv_unsent_sum), kept = ask(s, gv_kept_sum);
  bool closed = is_closed(s->end);
  gv_closing_info why = {.size = sizeof why};
  check(closed || !s->was_closed, "a closed endpoint stays closed");
  check(granted >= s->granted && spent >= s->spent && taken >= s->taken && next >= s->next_number, "what grows never falls");
  check(taken <= spent && spent <= granted && granted <= taken + s->widest, "no more is granted than the window");
  check(stored <= spent - taken && noted <= spent, "no more is stored than came, nor noted");
  check(unsent <= kept, "what wasn't sent is kept");
  check(!w->is_honest || gv_closing(s->end, &why) == GV_NONE, "an honest peer breaks no rule");
  s->was_closed = closed;
  s->granted = granted;
  s->spent = spent;
  s->taken = taken;
  s->next_number = next;
  mix(w, granted);
  mix(w, spent);
  mix(w, stored);
  mix(w, kept);
  mix(w, closed);
}

static bool is_next(const side *s, uint64_t stream, gv_status (*which)(const gv_endpoint *, uint64_t, uint64_t *)) {
  uint64_t found = 0;
  gv_status status = which(s->end, stream, &found);
  check(status == GV_OK ? found >= stream : status == GV_NONE, "a search finds none below");
  return status == GV_OK && found == stream;
}

static void fold(uint64_t *hash, uint64_t value) {
  *hash = (*hash ^ value) * UINT64_C(0x100000001b3);
  *hash ^= *hash >> 29;
}

/* Whether a read returns something new. */
static bool is_readable(const side *s, uint64_t stream, const gv_receiving *r) {
  gv_peeked peeked = {.size = sizeof peeked};
  gv_status status = gv_peek(s->end, stream, &peeked, NULL);
  bool is_new_end = status == GV_END_OF_STREAM && r->state != GV_RECV_STATE_DATA_READ;
  return status == GV_OK || is_new_end || (status == GV_RESET_BY_PEER && r->state != GV_RECV_STATE_RESET_READ);
}

/* What is said of a stream stays, or grows. */
static void check_receiving(side *s, uint64_t stream, const gv_receiving *r, uint64_t taken) {
  if (stream >= STREAMS) return;
  seen *last = &s->seen[stream];
  const gv_receiving *was = &last->receiving;
  bool is_same_state = was->state != GV_RECV_STATE_DATA_READ || r->state == was->state;
  check(r->state >= was->state && is_same_state, "a receiving half goes on from state to state");
  check(r->highest >= was->highest && r->limit >= was->limit, "what came and what is granted never fall");
  check(r->read_count >= was->read_count && taken >= last->taken, "what was read never falls");
  check(!was->has_final_size || (r->has_final_size && r->final_size == was->final_size), "a final size stays");
  check(!was->was_reset || (r->was_reset && r->reset_code == was->reset_code), "the code of the peer's reset stays");
  check(!was->was_stopped || (r->was_stopped && r->stop_code == was->stop_code), "the code of a stop stays");
  last->receiving = *r;
  last->taken = taken;
}

static void check_sending(side *s, uint64_t stream, const gv_sending *r, uint64_t acked, uint64_t stopped) {
  if (stream >= STREAMS) return;
  seen *last = &s->seen[stream];
  const gv_sending *was = &last->sending;
  bool is_same_state = was->state != GV_SEND_STATE_DATA_RECVD || r->state == was->state;
  check(r->state >= was->state && is_same_state, "a sending half goes on from state to state");
  check(r->written >= was->written && r->limit >= was->limit && acked >= last->acked, "what was written and acknowledged never falls");
  check(!was->has_final_size || (r->has_final_size && r->final_size == was->final_size), "a final size that was sent stays");
  check(!was->was_reset || (r->was_reset && r->reset_code == was->reset_code), "the code of a reset stays");
  check(last->stopped == 0 || stopped == last->stopped, "the code of the first STOP_SENDING stays");
  last->sending = *r;
  last->acked = acked;
  last->stopped = stopped;
}

static void look_at_receiving(side *s, uint64_t stream, const gv_receiving *r, sums *all, uint64_t *hash) {
  uint64_t taken = 0;
  bool is_over = r->state == GV_RECV_STATE_DATA_READ || r->state == GV_RECV_STATE_RESET_READ;
  check(gv_taken_on(s->end, stream, &taken) == GV_OK && taken <= r->highest, "what counts as consumed came");
  check(r->highest <= r->limit && r->read_count <= taken, "a stream stays within its limit");
  check(!r->has_final_size || r->final_size == r->highest, "the final size");
  check(!r->was_reset || taken == r->final_size, "a reset stream counts as consumed");
  check(r->was_reset || r->was_stopped || taken == r->read_count, "what was read counts as consumed");
  check(is_next(s, stream, gv_next_readable) == is_readable(s, stream, r), "which streams are readable");
  check_receiving(s, stream, r, taken);
  all->taken += taken;
  all->highest += r->highest;
  if (!is_over && !r->was_reset && !r->was_stopped) all->receiving++;
  fold(hash, r->state);
  fold(hash, r->read_count);
  fold(hash, r->highest);
  fold(hash, r->limit);
  fold(hash, r->has_final_size);
  fold(hash, r->was_stopped ? r->stop_code + 1 : 0);
}

static void look_at_sending(side *s, uint64_t stream, const gv_sending *r, sums *all, uint64_t *hash) {
  uint64_t unsent = 0, acked = 0, room = 0, code = 0;
  bool is_blocked = false, closed = is_closed(s->end);
  check(gv_unsent(s->end, stream, &unsent) == GV_OK && gv_acked_below(s->end, stream, &acked) == GV_OK, "a sending half");
  check(gv_room(s->end, stream, &room) == GV_OK && gv_is_blocked(s->end, stream, &is_blocked) == GV_OK, "its room");
  gv_status stopped = gv_stopped_with(s->end, stream, &code);
  check(acked + unsent <= r->written, "what is unsent isn't acknowledged");
  check(!is_blocked || unsent > 0, "a blocked stream has something to send");
  check(!r->has_final_size || r->final_size <= r->written, "the final size of a sending half");
  bool is_writable = is_next(s, stream, gv_next_writable);
  check(room == 0 || is_writable, "a stream with room is writable");
  check(s->bounds_writes || !is_writable || room > 0, "a writable stream has room");
  check(!closed || (room == 0 && !is_blocked), "nothing is written to a closed endpoint");
  check_sending(s, stream, r, acked, stopped == GV_OK ? code + 1 : 0);
  all->unsent += unsent;
  all->kept += r->was_reset ? 0 : r->written - acked;
  all->sending++;
  fold(hash, r->state);
  fold(hash, r->written);
  fold(hash, r->limit);
  fold(hash, acked);
  fold(hash, unsent);
  fold(hash, is_next(s, stream, gv_next_sendable));
  fold(hash, stopped == GV_OK ? code + 1 : 0);
}

static bool look_at_stream(side *s, uint64_t stream, sums *all, uint64_t *hash) {
  gv_sending sending = {.size = sizeof sending};
  gv_receiving receiving = {.size = sizeof receiving};
  gv_status sends = gv_sending_report(s->end, stream, &sending), receives = gv_receiving_report(s->end, stream, &receiving);
  if (sends == GV_NO_SUCH_STREAM) return false;
  if (sends == GV_OK) look_at_sending(s, stream, &sending, all, hash);
  if (receives == GV_OK) look_at_receiving(s, stream, &receiving, all, hash);
  bool is_sent = sends != GV_OK || sending.state == GV_SEND_STATE_DATA_RECVD || sending.state == GV_SEND_STATE_RESET_RECVD;
  bool is_read = receives != GV_OK || receiving.state == GV_RECV_STATE_DATA_READ || receiving.state == GV_RECV_STATE_RESET_READ;
  check(is_next(s, stream, gv_next_ended) == (is_sent && is_read), "which streams are over");
  return true;
}

/* Looks at each stream, and returns a hash of all that was seen. */
uint64_t look_at_all(side *s) {
  sums all = {0, 0, 0, 0, 0, 0};
  uint64_t hash = 0, receiving = 0, sending = 0, asked = s->memory.asked, most = 2 * s->widest_buffer > 4096 ? 2 * s->widest_buffer : 4096;
  bool is_whole = true;
  for (uint64_t kind = 0; kind < 4; kind++) {
    uint64_t index = 0;
    while (index < LOOKED_AT && look_at_stream(s, 4 * index + kind, &all, &hash)) index++;
    is_whole = is_whole && index < LOOKED_AT;
  }
  check(gv_held(s->end, &receiving, &sending) == GV_OK, "what is held");
  check(s->memory.asked == asked, "a question takes no memory");
  fold(&hash, ask(s, gv_stored));
  fold(&hash, ask(s, gv_granted));
  fold(&hash, ask(s, gv_next_number));
  fold(&hash, ask(s, gv_credit_left));
  if (!is_whole) return hash;
  check(all.unsent == ask(s, gv_unsent_sum), "the sum of what is unsent");
  check(all.kept == ask(s, gv_kept_sum), "the sum of what is kept");
  check(all.taken == ask(s, gv_taken_sum), "the sum of what is consumed");
  check(all.highest == ask(s, gv_spent), "the sum of the highest offsets");
  check(receiving <= 4 * s->widest + 4096 * all.receiving, "how much the receive buffers hold");
  check(sending <= most * all.sending, "how much the sending buffers hold");
  return hash;
}

/* Questions with any number. */
void search(world *w, side *s) {
  uint64_t from = take_number(&w->in);
  gv_status (*const which[])(const gv_endpoint *, uint64_t, uint64_t *) = {
    gv_next_readable, gv_next_writable, gv_next_sendable, gv_next_ended, gv_next_outstanding, gv_room, gv_unsent, gv_acked_below,
    gv_taken_on, gv_stopped_with,
  };
  for (size_t i = 0; i < sizeof which / sizeof *which; i++) {
    uint64_t answer = 0;
    gv_status status = which[i](s->end, from, &answer);
    check(status != GV_INVALID || from >= NUMBERS, "a number in its range");
    mix(w, status);
    mix(w, answer);
  }
  for (unsigned dir = GV_DIR_BIDI; dir <= GV_DIR_UNI; dir++) {
    uint64_t left = 0, granted = 0, open_left = 0;
    check(gv_streams_left(s->end, (gv_dir)dir, &left) == GV_OK && gv_granted_streams(s->end, (gv_dir)dir, &granted) == GV_OK, "counts");
    check(gv_open_left(s->end, (gv_dir)dir, &open_left) == GV_OK, "how many may be opened");
    mix(w, left);
    mix(w, granted);
    mix(w, open_left);
  }
  mix(w, ask(s, gv_credit_left));
  mix(w, look_at_all(s));
}

/* The text of an endpoint's own close is a CONNECTION_CLOSE with its code. */
void look_close(world *w, side *s) {
  uint8_t out[MOST_ROOM];
  gv_closing_info why = {.size = sizeof why};
  gv_frame frame = {.size = sizeof frame};
  gv_fault fault = {.size = sizeof fault};
  size_t len = 0, room = take_byte(&w->in);
  gv_status closed = gv_closing(s->end, &why), status = gv_close_payload(s->end, out, room, &len);
  mix(w, status);
  mix(w, len);
  check(status == GV_OK || status == GV_NONE, "the text of a close");
  if (status == GV_NONE) return;
  check(closed == GV_OK && len > 0 && len <= room && len <= 64, "the length of a close");
  gv_frames frames = {out, len, 0};
  check(gv_frames_next(&frames, &frame, &fault) == GV_OK && frames.place == len, "a close is one frame");
  check(frame.kind == GV_FRAME_CONNECTION_CLOSE && frame.code == why.code && frame.at_fault == why.frame_type, "why it closed");
}

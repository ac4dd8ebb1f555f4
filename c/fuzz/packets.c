/* Packets are made, filled, delivered, lost and acknowledged, and hostile ones are received. */
#include <stdlib.h>
#include <string.h>

#include "world.h"

enum { MOST_TOLD = 4096, TOGETHER = 24 };

#define NUMBERS (UINT64_C(1) << 62)

static side *other(world *w, const side *s) { return &w->sides[1 - s->name]; }

static void keep(world *w, side *s, const uint8_t *bytes, size_t len, gv_token token) {
  packet *p = &w->packets[w->place];
  w->place = (w->place + 1) % PACKETS;
  free(p->bytes);
  p->bytes = malloc(len);
  check(p->bytes != NULL, "memory for a packet");
  memcpy(p->bytes, bytes, len);
  p->len = len;
  p->from = s->name;
  p->came = false;
  p->token = token;
}

static packet *packet_of(world *w, const side *s, unsigned which) {
  for (size_t i = 0; i < PACKETS; i++) {
    packet *p = &w->packets[(which + i) % PACKETS];
    if (p->bytes != NULL && p->from == s->name) return p;
  }
  return NULL;
}

/* What stands in *made after a packet was made under the next number. */
static void check_packet(side *s, const gv_made *made, const uint8_t *out, size_t room, uint64_t expected) {
  uint64_t next = 0, outstanding = 0;
  check(made->len > 0 && made->len <= room && made->number == expected, "a packet's length and number");
  check(gv_next_number(s->end, &next) == GV_OK && next == expected + 1, "the next number");
  gv_status status = gv_next_outstanding(s->end, expected, &outstanding);
  check(made->is_ack_eliciting ? status == GV_OK && outstanding == expected : status == GV_NONE, "an outstanding packet");
  check_made(s, out, made->len, made->is_ack_eliciting);
}

static gv_status make_by(world *w, side *s, unsigned way, size_t room, gv_made *made, uint8_t *out) {
  uint64_t first = 0, delay = 0, before;
  gv_status status = GV_INVALID;
  if (way == 1) first = take_number(&w->in);
  if (way != 0) delay = take_number(&w->in);
  do {
    begin(s, &before);
    if (way == 0) status = gv_make_packet(s->end, out, room, made);
    if (way == 1) status = gv_make_packet_from(s->end, first, delay, out, room, made);
    if (way == 2) status = gv_make_ack(s->end, delay, out, room, made);
  } while (is_made_again(s, status, before));
  bool is_fit = room >= 128 && room <= MOST_ROOM && first < NUMBERS && delay < NUMBERS;
  check((status == GV_INVALID) == !is_fit, "what a packet needs");
  return status;
}

void make(world *w, side *s) {
  static uint8_t out[1 << 18];
  gv_made made = {.size = sizeof made};
  uint64_t expected = 0;
  bool is_sendable = false, is_due = false;
  gv_token token;
  unsigned way = take_byte(&w->in) % 3;
  size_t room = take_size(&w->in);
  check(gv_next_number(s->end, &expected) == GV_OK && gv_is_sendable(s->end, &is_sendable) == GV_OK, "questions");
  check(gv_ack_is_due(s->end, &is_due) == GV_OK, "whether an ACK is due");
  gv_status status = make_by(w, s, way, room, &made, out);
  check(status == GV_OK || status == GV_NONE || status == GV_INVALID || status == GV_CONNECTION_CLOSED || status == GV_NUMBERS_EXHAUSTED,
        "a packet");
  if (way == 2) check(status != GV_NONE || !is_due, "an ACK goes that is due");
  if (way != 2 && status == GV_OK) check(made.is_ack_eliciting == is_sendable, "a packet carries what may be sent");
  if (way != 2 && status == GV_NONE) check(!is_sendable && !is_due, "nothing may go");
  mix(w, status);
  if (status != GV_OK) return;
  check_packet(s, &made, out, room, expected);
  check(gv_token_of(s->end, made.number, &token) == GV_OK && token.first == made.number && token.number == made.number, "its token");
  mix(w, made.number);
  mix(w, made.len);
  for (size_t i = 0; i < made.len; i += 16) mix(w, out[i]);
  keep(w, s, out, made.len, token);
}

static void take_request(input *in, gv_fill_request *want) {
  unsigned wishes = take_byte(in);
  want->items = wishes & 1;
  want->streams = wishes >> 1 & 1;
  want->alone = wishes >> 2 & 1;
  want->is_capped = wishes >> 3 & 1;
  want->first = take_number(in);
  if (want->is_capped) want->most_bytes = take_size(in);
}

/* Only what was asked for was filled in. */
static void check_filled(const gv_fill_request *want, const gv_filled *filled, const uint8_t *out) {
  gv_frames frames = {out, filled->len, 0};
  gv_frame frame = {.size = sizeof frame};
  gv_fault fault = {.size = sizeof fault};
  uint64_t bytes = 0, last = 0;
  while (gv_frames_next(&frames, &frame, &fault) == GV_OK) {
    check(frame.kind == GV_FRAME_STREAM ? want->streams : want->items && frame.kind != GV_FRAME_ACK, "a frame that was asked for");
    if (frame.kind != GV_FRAME_STREAM) continue;
    check(!want->alone || frame.stream == want->first, "a stream that was asked for");
    bytes += frame.len;
  }
  check(!want->is_capped || bytes <= want->most_bytes, "a cap");
  gv_status status = gv_last_stream(out, filled->len, &last);
  check(status == (filled->has_last_stream ? GV_OK : GV_NONE) && last == filled->last_stream, "the last stream");
}

void fill(world *w, side *s) {
  static uint8_t out[1 << 18];
  gv_fill_request want = {.size = sizeof want};
  gv_filled filled = {.size = sizeof filled};
  gv_status status;
  uint64_t before, expected = 0;
  bool is_sendable = false;
  take_request(&w->in, &want);
  size_t room = take_size(&w->in);
  check(gv_next_number(s->end, &expected) == GV_OK && gv_is_sendable(s->end, &is_sendable) == GV_OK, "questions");
  do {
    begin(s, &before);
    status = gv_fill(s->end, &want, out, room, &filled);
  } while (is_made_again(s, status, before));
  check((status == GV_INVALID) == (want.first >= NUMBERS), "from which stream");
  if (!want.items && !want.streams) {
    check(status != GV_OK, "nothing was asked for");
    return; /* (the Rust crate has no such request) */
  }
  bool wants_all = want.items && want.streams && !want.alone && !want.is_capped && room >= GV_MIN_FILL;
  check(status != GV_NONE || !wants_all || !is_sendable, "something goes in where there is room");
  mix(w, status);
  if (status != GV_OK) return;
  check(filled.len > 0 && filled.len <= room && filled.token.first == expected && filled.token.number == expected, "what was filled in");
  check_made(s, out, filled.len, true);
  check_filled(&want, &filled, out);
  mix(w, filled.len);
  mix(w, filled.more);
  keep(w, s, out, filled.len, filled.token);
}

/* Which outstanding packets the ACKs of a payload name, in the order in which gv_receive_with_acks() has to report them. */
static size_t expect_told(const side *s, const uint8_t *payload, size_t len, uint64_t *all) {
  gv_frames frames = {payload, len, 0};
  gv_frame frame = {.size = sizeof frame};
  gv_fault fault = {.size = sizeof fault};
  size_t count = 0;
  while (gv_frames_next(&frames, &frame, &fault) == GV_OK) {
    gv_acked ranges = {frame.bytes, frame.len, frame.largest};
    gv_range range;
    while (frame.kind == GV_FRAME_ACK && gv_ack_next(&ranges, &range) == GV_OK) {
      size_t begins = count;
      uint64_t number = range.smallest;
      while (gv_next_outstanding(s->end, number, &number) == GV_OK && number <= range.largest && count < MOST_TOLD) {
        bool is_known = false;
        for (size_t i = 0; i < begins; i++) is_known = is_known || all[i] == number;
        if (!is_known) all[count++] = number;
        number++;
      }
      for (size_t i = begins, j = count; i + 1 < j; i++) {
        uint64_t low = all[i];
        all[i] = all[--j];
        all[j] = low;
      }
    }
  }
  return count;
}

typedef struct told {
  uint64_t numbers[MOST_TOLD];
  size_t count;
} told;

static void note(void *context, uint64_t number) {
  told *to = context;
  check(to->count < MOST_TOLD, "so many packets were never made");
  to->numbers[to->count++] = number;
}

static gv_status receive_telling(world *w, side *s, uint64_t number, const uint8_t *payload, size_t len) {
  static uint64_t expected[MOST_TOLD];
  static told got;
  gv_status status;
  uint64_t outstanding = 0;
  size_t count = expect_told(s, payload, len, expected);
  got.count = 0;
  do {
    s->memory.refused = 0;
    status = gv_receive_with_acks(s->end, number, payload, len, note, &got);
    check(status != GV_NO_MEMORY || s->memory.refused > 0, "no memory, though none was refused");
  } while (status == GV_NO_MEMORY);
  check(status == GV_OK ? got.count == count : got.count <= count, "how many packets were newly acknowledged");
  check(memcmp(expected, got.numbers, got.count * sizeof *expected) == 0, "which packets were newly acknowledged");
  for (size_t i = 0; i < got.count; i++) {
    gv_status left = gv_next_outstanding(s->end, got.numbers[i], &outstanding);
    check(left != GV_OK || outstanding != got.numbers[i], "an acknowledged packet isn't outstanding");
    mix(w, got.numbers[i]);
  }
  return status;
}

static gv_status receive_plainly(side *s, uint64_t number, const uint8_t *payload, size_t len) {
  gv_status status;
  do {
    s->memory.refused = 0;
    status = gv_receive(s->end, number, payload, len);
    check(status != GV_NO_MEMORY || s->memory.refused > 0, "no memory, though none was refused");
  } while (status == GV_NO_MEMORY);
  return status;
}

static bool has_broken(const side *s) {
  gv_closing_info closing = {.size = sizeof closing};
  return gv_closing(s->end, &closing) == GV_OK;
}

static bool receive(world *w, side *s, uint64_t number, const uint8_t *payload, size_t len, bool tells) {
  static const uint8_t ping[] = {1};
  bool was_open = !is_closed(s->end);
  gv_status status = tells ? receive_telling(w, s, number, payload, len) : receive_plainly(s, number, payload, len);
  check((status == GV_INVALID) == (number >= NUMBERS), "a payload is refused");
  check(status != GV_OK || was_open, "a closed endpoint takes nothing");
  check(!was_open || (status == GV_PROTOCOL_ERROR) == has_broken(s), "an endpoint that refuses a payload is closed");
  check(!w->is_honest || status != GV_PROTOCOL_ERROR || !was_open, "an honest peer breaks no rule");
  mix(w, status);
  if (status != GV_OK) return status == GV_DUPLICATE;
  status = gv_receive(s->end, number, ping, sizeof ping);
  check(status == GV_DUPLICATE || status == GV_TOO_OLD, "a number counts once");
  return true;
}

/* Hands frames in one by one, or together. */
static bool take_all(world *w, side *s, const uint8_t *payload, size_t len, bool together) {
  static gv_frame frames[TOGETHER];
  gv_frames walk = {payload, len, 0};
  gv_fault fault = {.size = sizeof fault};
  gv_status status = GV_OK, more = GV_OK;
  while (status == GV_OK && more == GV_OK) {
    gv_taken taken = GV_TAKEN_TOOK;
    size_t count = 0, most = together ? TOGETHER : 1;
    uint64_t before;
    bool was_open = !is_closed(s->end);
    for (; count < most; count++) {
      frames[count].size = sizeof *frames;
      more = gv_frames_next(&walk, &frames[count], &fault);
      if (more != GV_OK) break;
    }
    if (count == 0) break;
    if (together) {
      do status = gv_take_frames(s->end, frames, count, &taken);
      while (status == GV_NO_MEMORY);
    } else {
      do {
        begin(s, &before);
        status = gv_take_frame(s->end, frames, &taken);
      } while (is_made_again(s, status, before));
      check(frames->kind != GV_FRAME_ACK || status != GV_OK || taken == GV_TAKEN_NOT_OURS, "an ACK is the stack's");
    }
    check(status == GV_OK || status == GV_PROTOCOL_ERROR || status == GV_CLOSED_BY_PEER, "frames are handed in");
    check(status == GV_OK ? was_open : is_closed(s->end), "an endpoint that refuses a frame is closed");
    check(!w->is_honest || status == GV_OK || !was_open, "an honest peer breaks no rule");
    mix(w, status);
    if (status == GV_OK) mix(w, taken);
  }
  return status == GV_OK;
}

void deliver(world *w, side *s) {
  unsigned how = take_byte(&w->in);
  packet *p = packet_of(w, s, how >> 2);
  side *to = other(w, s);
  if (p == NULL) return;
  bool came = how & 2 ? take_all(w, to, p->bytes, p->len, how & 1) : receive(w, to, p->token.number, p->bytes, p->len, how & 1);
  p->came = p->came || came;
  look(w, to);
}

/* A packet is declared lost. It may still come, if it is kept. */
void lose(world *w, side *s) {
  unsigned how = take_byte(&w->in);
  packet *p = packet_of(w, s, how >> 2);
  gv_status status;
  if (p == NULL) return;
  do {
    s->memory.refused = 0;
    status = how & 1 ? gv_token_lost(s->end, &p->token) : gv_declare_lost(s->end, p->token.number);
    check(status != GV_NO_MEMORY || s->memory.refused > 0, "no memory, though none was refused");
  } while (status == GV_NO_MEMORY);
  bool is_told = status == GV_NOT_OUTSTANDING && !(how & 1);
  check(status == GV_OK || status == GV_CONNECTION_CLOSED || is_told, "a packet is lost");
  mix(w, status);
  if (how & 2) return;
  free(p->bytes);
  p->bytes = NULL;
}

static gv_status report(side *s, const gv_token *token, bool is_lost) {
  gv_status status;
  do {
    s->memory.refused = 0;
    status = is_lost ? gv_token_lost(s->end, token) : gv_token_acked(s->end, token);
    check(status != GV_NO_MEMORY || s->memory.refused > 0, "no memory, though none was refused");
  } while (status == GV_NO_MEMORY);
  return status;
}

void acknowledge(world *w, side *s) {
  uint64_t outstanding = 0;
  packet *p = packet_of(w, s, take_byte(&w->in));
  if (p == NULL) return;
  gv_status status = report(s, &p->token, false);
  check(status == GV_OK || status == GV_CONNECTION_CLOSED, "a packet is acknowledged");
  gv_status left = gv_next_outstanding(s->end, p->token.number, &outstanding);
  check(status != GV_OK || left != GV_OK || outstanding > p->token.number, "an acknowledged packet isn't outstanding");
  mix(w, status);
  if (!p->came) w->is_whole = false;
}

static void was_hostile(world *w) { w->is_honest = w->is_whole = false; }

void receive_raw(world *w, side *s) {
  uint64_t number = take_number(&w->in);
  unsigned how = take_byte(&w->in);
  size_t len;
  const uint8_t *bytes = take_bytes(&w->in, 4 * (size_t)(how >> 1), &len);
  uint8_t *copy = malloc(len > 0 ? len : 1); /* of exactly that size, so that a byte behind it is seen to be read */
  check(copy != NULL, "memory for a payload");
  memcpy(copy, bytes, len);
  check_frames(copy, len);
  was_hostile(w);
  s->is_foreign = true;
  (void)receive(w, s, number, copy, len, how & 1);
  free(copy);
}

void receive_composed(world *w, side *s) {
  static uint8_t out[MOST_PAYLOAD];
  uint64_t number = take_number(&w->in);
  unsigned how = take_byte(&w->in);
  size_t len = compose(w, 1 - s->name, out, sizeof out);
  was_hostile(w);
  check_frames(out, len);
  (void)receive(w, s, number, out, len, how & 1);
}

void take_composed(world *w, side *s) {
  static uint8_t out[MOST_PAYLOAD];
  unsigned how = take_byte(&w->in);
  size_t len = compose(w, 1 - s->name, out, sizeof out);
  was_hostile(w);
  (void)take_all(w, s, out, len, how & 1);
}

/* Many pieces of a stream in one payload, each so far behind the one before. */
void receive_pieces(world *w, side *s) {
  static uint8_t out[MOST_PAYLOAD], bytes[32];
  gv_frame frame = {.size = sizeof frame, .kind = GV_FRAME_STREAM, .bytes = bytes};
  uint64_t number = take_number(&w->in);
  frame.stream = take_number(&w->in);
  frame.offset = take_number(&w->in);
  uint64_t step = take_byte(&w->in);
  unsigned count = take_byte(&w->in);
  frame.len = take_byte(&w->in) % sizeof bytes;
  size_t len = 0, size = 0;
  for (unsigned i = 0; i < count; i++) {
    for (size_t j = 0; j < frame.len; j++) bytes[j] = pattern(1 - s->name, frame.stream, frame.offset + j);
    if (gv_put(&frame, out + len, sizeof out - len, &size) != GV_OK) break;
    len += size;
    frame.offset += step;
  }
  was_hostile(w);
  (void)receive(w, s, number, out, len, false);
}

/* A PING under each of many numbers, that rise or fall. */
void receive_numbers(world *w, side *s) {
  static const uint8_t ping[] = {1};
  uint64_t number = take_number(&w->in);
  unsigned how = take_byte(&w->in);
  unsigned count = take_byte(&w->in), taken = 0;
  uint64_t step = how & 0x80 ? UINT64_C(0) - (how & 0x7f) : how;
  was_hostile(w);
  for (unsigned i = 0; i < count; i++, number += step) {
    if (receive_plainly(s, number, ping, sizeof ping) != GV_OK) continue;
    gv_status again = gv_receive(s->end, number, ping, sizeof ping);
    check(again == GV_DUPLICATE || again == GV_TOO_OLD, "a number counts once");
    taken++;
  }
  mix(w, taken);
}

static bool closed_with(const side *s, uint64_t code) {
  gv_closing_info why = {.size = sizeof why};
  return gv_closing(s->end, &why) == GV_OK && why.code == code;
}

/* Receives a frame whose verdict is known: none, or a close with a code. */
static void receive_judged(world *w, side *s, uint64_t number, const gv_frame *frame, uint64_t code) {
  uint8_t out[64];
  size_t len = 0;
  bool was_open = !is_closed(s->end);
  check(gv_put(frame, out, sizeof out, &len) == GV_OK, "a frame at a limit");
  was_hostile(w);
  gv_status status = gv_receive(s->end, number, out, len);
  while (status == GV_NO_MEMORY) status = gv_receive(s->end, number, out, len);
  mix(w, status);
  if (!was_open || status == GV_INVALID || status == GV_DUPLICATE || status == GV_TOO_OLD) return;
  check(code == 0 ? status == GV_OK : status == GV_PROTOCOL_ERROR && closed_with(s, code), "what comes at a limit, and one beyond it");
}

/* The last byte that a stream's limit and the connection's permit, or the one behind it, by a STREAM frame or a RESET_STREAM. */
void receive_at_limit(world *w, side *s) {
  enum { FLOW_CONTROL_ERROR = 3 };
  uint8_t byte;
  gv_frame frame = {.size = sizeof frame, .kind = GV_FRAME_STREAM, .len = 1, .bytes = &byte};
  gv_receiving half = {.size = sizeof half};
  uint64_t granted = 0, spent = 0;
  uint64_t number = take_number(&w->in);
  frame.stream = take_number(&w->in);
  unsigned how = take_byte(&w->in);
  if (gv_receiving_report(s->end, frame.stream, &half) != GV_OK || half.has_final_size) return;
  check(gv_granted(s->end, &granted) == GV_OK && gv_spent(s->end, &spent) == GV_OK, "questions");
  uint64_t most = half.highest + (granted - spent);
  frame.final_size = (half.limit < most ? half.limit : most) + (how & 1);
  if (frame.final_size == 0 || frame.final_size >= NUMBERS) return;
  frame.offset = frame.final_size - 1;
  byte = pattern(1 - s->name, frame.stream, frame.offset);
  if (how & 2) frame.kind = GV_FRAME_RESET_STREAM;
  receive_judged(w, s, number, &frame, how & 1 ? FLOW_CONTROL_ERROR : 0);
}

/* The last stream that the count permits, or the one behind it. */
void receive_at_count(world *w, side *s) {
  enum { STREAM_LIMIT_ERROR = 4 };
  gv_frame frame = {.size = sizeof frame, .kind = GV_FRAME_STREAM};
  uint64_t granted = 0;
  uint64_t number = take_number(&w->in);
  unsigned how = take_byte(&w->in);
  check(gv_granted_streams(s->end, (gv_dir)(how >> 1 & 1), &granted) == GV_OK, "how many streams the peer may open");
  if (granted + (how & 1) == 0) return;
  frame.stream = 4 * (granted + (how & 1) - 1) + (how & 2) + (s->role == GV_ROLE_CLIENT ? 1 : 0);
  if (gv_receiving_report(s->end, frame.stream, &(gv_receiving){.size = sizeof(gv_receiving)}) == GV_OK) return;
  receive_judged(w, s, number, &frame, how & 1 ? STREAM_LIMIT_ERROR : 0);
}

/* Many packets with a byte of a stream each, of which none comes. Seldom very many, since that takes long. */
void make_many(world *w, side *s) {
  uint8_t out[128];
  gv_made made = {.size = sizeof made};
  gv_sending report = {.size = sizeof report};
  uint64_t stream = take_number(&w->in);
  unsigned count = take_byte(&w->in), done = 0;
  if (count == 0xff) count = 4200; /* (so many that what is kept of old packets is dropped) */
  gv_status status = gv_sending_report(s->end, stream, &report);
  while (status == GV_OK && done < count) {
    uint8_t byte = pattern(s->name, stream, report.written);
    size_t written = 0;
    do status = gv_write(s->end, stream, &byte, 1, &written);
    while (status == GV_NO_MEMORY);
    report.written += written;
    do status = gv_make_packet(s->end, out, sizeof out, &made);
    while (status == GV_NO_MEMORY);
    if (status == GV_OK) done++;
  }
  mix(w, status);
  mix(w, done);
}

/* Numbers are claimed, and any packet is declared lost. */
void use_number(world *w, side *s) {
  uint64_t number = take_number(&w->in);
  uint64_t claimed = 0, next = 0;
  gv_status status;
  if (number < 0x40) {
    check(gv_next_number(s->end, &next) == GV_OK, "the next number");
    status = gv_claim_number(s->end, &claimed);
    check(status == GV_OK ? claimed == next : status == GV_NUMBERS_EXHAUSTED, "a number");
  } else {
    gv_status found = gv_next_outstanding(s->end, number - 0x40, &next);
    if (found != GV_OK) next = number;
    do status = gv_declare_lost(s->end, next);
    while (status == GV_NO_MEMORY);
    check(found != GV_OK || status == GV_OK || status == GV_CONNECTION_CLOSED, "an outstanding packet is lost");
  }
  mix(w, status);
  mix(w, next);
}

/* Tokens are joined, and any are reported. */
void join(world *w, side *s) {
  gv_token token = {0, 0, 0};
  unsigned how = take_byte(&w->in);
  uint64_t number = take_number(&w->in);
  uint64_t next = 0;
  check(gv_next_number(s->end, &next) == GV_OK, "the next number");
  gv_status status = gv_token_of(s->end, number, &token);
  check(status == GV_OK && token.first == number && token.number == number, "a token of a number");
  gv_token both = s->joined;
  status = gv_token_and(&both, &token);
  bool follows = s->joined.epoch == token.epoch && token.first > 0 && s->joined.number == token.first - 1;
  check(status == (follows ? GV_OK : GV_NONE), "whether tokens join");
  check(both.first == s->joined.first && both.number == (follows ? token.number : s->joined.number), "tokens that join");
  s->joined = status == GV_OK ? both : token;
  mix(w, status);
  if ((how & 3) == 0) return;
  if (how & 1) w->is_whole = false;
  if (how & 4) s->joined.epoch++;
  status = report(s, &s->joined, !(how & 1));
  bool is_closed_now = status == GV_CONNECTION_CLOSED;
  check(is_closed_now || status == (s->joined.number < next && !(how & 4) ? GV_OK : GV_NOT_GIVEN), "a token that was given");
  mix(w, status);
}

/* Each side makes so many packets, and the other one gets them. */
static bool exchange(world *w, size_t room, bool tells, unsigned most) {
  static uint8_t out[MOST_ROOM];
  bool any = false;
  for (size_t i = 0; i < SIDES; i++) {
    side *s = &w->sides[i];
    for (unsigned j = 0; j < most; j++) {
      gv_made made = {.size = sizeof made};
      gv_status status;
      do status = gv_make_packet(s->end, out, room, &made);
      while (status == GV_NO_MEMORY);
      mix(w, status);
      if (status != GV_OK) break;
      any = true;
      mix(w, made.len);
      (void)receive(w, other(w, s), made.number, out, made.len, tells);
    }
  }
  return any;
}

void carry(world *w, side *s) {
  unsigned how = take_byte(&w->in);
  size_t room = 128 + 508 * (size_t)(how >> 3); /* at most 15,876 */
  for (unsigned i = 0; i <= (how & 3); i++) (void)exchange(w, room, how & 4, i + 1);
  look(w, s);
  look(w, other(w, s));
}

/* Whatever was lost comes after all. */
static void declare_all_lost(side *s) {
  uint64_t number = 0;
  while (gv_next_outstanding(s->end, number, &number) == GV_OK) {
    gv_status status = gv_declare_lost(s->end, number);
    if (status == GV_CONNECTION_CLOSED) return;
    if (status != GV_NO_MEMORY) number++;
  }
}

static void check_arrived(world *w, const side *from, uint64_t stream) {
  gv_sending sent = {.size = sizeof sent};
  gv_receiving got = {.size = sizeof got};
  if (gv_sending_report(from->end, stream, &sent) != GV_OK || sent.was_reset) return;
  gv_status status = gv_receiving_report(other(w, from)->end, stream, &got);
  if (status == GV_NO_SUCH_STREAM) {
    check(sent.written == 0 && !sent.has_final_size, "a stream of which something was written is open at the peer");
    return;
  }
  check(status == GV_OK && got.highest == sent.written && got.has_final_size == sent.has_final_size, "all that was written came");
  check(!sent.has_final_size || sent.state == GV_SEND_STATE_DATA_RECVD, "all was acknowledged");
  check(got.was_stopped || got.read_count == sent.written, "all that was written was read");
}

/* Two honest endpoints talk on until nothing is left: then all that was written was read. */
void settle(world *w) {
  enum { ROUNDS = 64 };
  bool any = true;
  if (!w->is_honest || !w->is_whole) return;
  for (size_t i = 0; i < SIDES; i++) declare_all_lost(&w->sides[i]);
  for (unsigned i = 0; i < ROUNDS && any; i++) {
    for (size_t j = 0; j < SIDES; j++) read_all(w, &w->sides[j]);
    any = exchange(w, MOST_ROOM, true, 2);
  }
  for (size_t i = 0; i < SIDES; i++) any = any || is_closed(w->sides[i].end);
  if (any) return;
  for (size_t i = 0; i < SIDES; i++)
    for (uint64_t stream = 0; stream < STREAMS; stream++) check_arrived(w, &w->sides[i], stream);
}

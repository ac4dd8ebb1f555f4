/* Frames that are handed in, and frames that are filled in: each answer of both calls once, and what stands after it. */
#include <stdio.h>
#include <stdlib.h>
#include <string.h>

#include "gotsavena.h"
#include "refusing.h"

static int failed;

static void want(gv_status status, gv_status wanted, const char *what) {
  if (status == wanted) return;
  fprintf(stderr, "%s: %s, not %s\n", what, gv_strerror(status), gv_strerror(wanted));
  failed = 1;
}

static void holds(bool is, const char *what) { want(is ? GV_OK : GV_INVALID, GV_OK, what); }

static gv_endpoint *new_end(void) {
  gv_settings settings = {sizeof settings, 4096, 1024, 1024, 1024, 2048, 8, 8, 8, 8};
  gv_limits limits = {sizeof limits, 4096, 1024, 1024, 1024, 8, 8};
  gv_allocator memory = {.size = sizeof memory, .allocate = allocate, .release = release};
  gv_endpoint *end = NULL;
  gv_tuning tuning;
  want(gv_tuning_init(&tuning, sizeof tuning), GV_OK, "tuning");
  tuning.epoch = 7;
  want(gv_endpoint_new_tuned(GV_ROLE_CLIENT, &settings, &tuning, &limits, &memory, &end), GV_OK, "new");
  return end;
}

static const uint64_t big = UINT64_C(1) << 62;

/* A frame that the peer may send first. */
static const gv_frame first = {
  .size = sizeof first, .kind = GV_FRAME_STREAM, .stream = 3, .fin = true, .bytes = (const uint8_t *)"abc", .len = 3};

static const gv_taken untouched = (gv_taken)9;

/* What is no frame is refused, and changes nothing. */
static void no_frames(gv_endpoint *end) {
  gv_taken taken = untouched;
  gv_frame frame = first;
  uint64_t stream;
  want(gv_take_frame(NULL, &frame, &taken), GV_INVALID, "to no end");
  want(gv_take_frame(end, NULL, &taken), GV_INVALID, "no frame");
  want(gv_take_frame(end, &frame, NULL), GV_INVALID, "told to null");
  frame.size = sizeof frame - 1;
  want(gv_take_frame(end, &frame, &taken), GV_INVALID, "a small frame");
  frame = first;
  frame.kind = (gv_frame_kind)21;
  want(gv_take_frame(end, &frame, &taken), GV_INVALID, "no kind");
  frame = first;
  frame.dir = (gv_dir)2;
  want(gv_take_frame(end, &frame, &taken), GV_INVALID, "no direction");
  frame = first;
  frame.stream = big;
  want(gv_take_frame(end, &frame, &taken), GV_INVALID, "no stream");
  frame = first;
  frame.bytes = NULL;
  want(gv_take_frame(end, &frame, &taken), GV_INVALID, "bytes at null");
  holds(taken == untouched, "nothing was told");
  want(gv_accept(end, &stream), GV_NONE, "nothing was opened");
}

/* A frame of the layer's, twice, and frames of the stack's own. */
static void frames(gv_endpoint *end) {
  gv_taken taken = untouched;
  uint8_t into[8];
  size_t count = 0;
  uint64_t stream = 0;
  is_refused = true;
  want(gv_take_frame(end, &first, &taken), GV_NO_MEMORY, "no memory");
  holds(taken == untouched, "and nothing was told");
  is_refused = false;
  want(gv_take_frame(end, &first, &taken), GV_OK, "a STREAM frame");
  holds(taken == GV_TAKEN_TOOK, "it took effect");
  want(gv_take_frame(end, &first, &taken), GV_OK, "it comes again");
  want(gv_accept(end, &stream), GV_OK, "it opened its stream");
  want(gv_read(end, stream, into, sizeof into, &count, NULL), GV_OK, "its bytes are read");
  holds(stream == 3 && count == 3 && memcmp(into, "abc", 3) == 0, "which they are");
  want(gv_read(end, stream, into, sizeof into, &count, NULL), GV_END_OF_STREAM, "its end is");
  gv_frame ping = {.size = sizeof ping, .kind = GV_FRAME_PING};
  want(gv_take_frame(end, &ping, &taken), GV_OK, "a PING");
  holds(taken == GV_TAKEN_NOT_OURS, "is the stack's own");
  gv_frame fresh = {.size = sizeof fresh, .kind = GV_FRAME_NEW_CONNECTION_ID, .bytes = into, .len = 8};
  fresh.token = (const uint8_t *)"0123456789abcdef";
  taken = untouched;
  want(gv_take_frame(end, &fresh, &taken), GV_OK, "a NEW_CONNECTION_ID");
  holds(taken == GV_TAKEN_NOT_OURS, "is the stack's own, too");
  gv_frame close = {.size = sizeof close, .kind = GV_FRAME_CONNECTION_CLOSE, .code = 1};
  want(gv_take_frame(end, &close, &taken), GV_OK, "a CONNECTION_CLOSE");
  want(gv_peer_closed(end, &stream), GV_NONE, "is, too");
}

enum { MANY = 40, LEN = 20 };

/* Frames of one stream, every second one first, so that there are gaps between them. */
static void many_frames(gv_frame *many) {
  static uint8_t bytes[MANY * LEN];
  for (size_t i = 0; i < sizeof bytes; i++) bytes[i] = (uint8_t)(i * 7);
  for (size_t i = 0; i < MANY; i++) {
    size_t place = i < MANY / 2 ? 2 * i : 2 * (i - MANY / 2) + 1;
    gv_frame frame = {.size = sizeof frame, .kind = GV_FRAME_STREAM, .stream = 3, .offset = place * LEN, .fin = place == MANY - 1};
    frame.bytes = bytes + place * LEN;
    frame.len = LEN;
    many[i] = frame;
  }
}

/* What may not be handed in at once, and what comes of what may. */
static void at_once(void) {
  gv_endpoint *end = new_end();
  gv_taken taken = untouched;
  gv_frame two[2] = {first, first}, ping = {.size = sizeof ping, .kind = GV_FRAME_PING};
  want(gv_take_frames(NULL, two, 2, &taken), GV_INVALID, "frames to no end");
  want(gv_take_frames(end, NULL, 1, &taken), GV_INVALID, "frames at null");
  want(gv_take_frames(end, two, 2, NULL), GV_INVALID, "what came to null");
  want(gv_take_frames(end, two, SIZE_MAX, &taken), GV_INVALID, "more than there can be");
  two[1].size++;
  want(gv_take_frames(end, two, 2, &taken), GV_INVALID, "of two sizes");
  two[0].size = two[1].size;
  want(gv_take_frames(end, two, 2, &taken), GV_INVALID, "of a size that none has");
  two[0] = two[1] = first;
  two[1].kind = (gv_frame_kind)21;
  want(gv_take_frames(end, two, 2, &taken), GV_INVALID, "no frame behind one");
  two[1] = first;
  two[1].bytes = NULL;
  want(gv_take_frames(end, two, 2, &taken), GV_INVALID, "bytes at null behind a frame");
  holds(taken == untouched, "nothing was told");
  want(gv_take_frames(end, NULL, 0, &taken), GV_OK, "none");
  holds(taken == GV_TAKEN_NOT_OURS, "none is taken");
  two[1] = ping;
  want(gv_take_frames(end, two, 2, &taken), GV_OK, "two");
  holds(taken == GV_TAKEN_TOOK, "one took effect");
  want(gv_take_frames(end, two, 2, &taken), GV_OK, "two again");
  holds(taken == GV_TAKEN_UNCHANGED, "one was taken");
  want(gv_take_frames(end, &ping, 1, &taken), GV_OK, "a PING alone");
  holds(taken == GV_TAKEN_NOT_OURS, "is the stack's own");
  two[1] = first;
  two[1].offset = 1000;
  taken = untouched;
  want(gv_take_frames(end, two, 2, &taken), GV_PROTOCOL_ERROR, "past the end of the stream");
  want(gv_take_frames(end, two, 1, &taken), GV_PROTOCOL_ERROR, "it is closed");
  holds(taken == untouched, "nothing was told");
  gv_endpoint_free(end);
}

/* Each allocation of many frames is refused in turn: some first ones went in, or none, and all of them may come again. */
static void where_memory_ends(void) {
  gv_frame many[MANY];
  uint8_t into[MANY * LEN];
  bool is_given = false;
  int somewhere = 0;
  many_frames(many);
  for (int gives = 0; !is_given; gives++) {
    gv_endpoint *end = new_end();
    gv_taken taken = untouched;
    size_t count = 0;
    uint64_t stored = 0;
    left = gives;
    gv_status status = gv_take_frames(end, many, MANY, &taken);
    is_given = status == GV_OK;
    left = -1;
    if (!is_given) {
      want(status, GV_NO_MEMORY, "memory ends");
      holds(taken == untouched, "nothing is told");
      want(gv_stored(end, &stored), GV_OK, "how much went in");
      holds(stored % LEN == 0 && stored < MANY * LEN, "some first ones, or none");
      somewhere += stored > 0;
      want(gv_take_frames(end, many, MANY, &taken), GV_OK, "all of them again");
    }
    holds(taken == GV_TAKEN_TOOK, "they took effect");
    want(gv_read(end, 3, into, sizeof into, &count, NULL), GV_OK, "all is read");
    holds(count == sizeof into, "all of it");
    for (size_t i = 0; i < sizeof into; i++) holds(into[i] == (uint8_t)(i * 7), "a byte");
    want(gv_read(end, 3, into, sizeof into, &count, NULL), GV_END_OF_STREAM, "to the end");
    gv_endpoint_free(end);
  }
  holds(somewhere > 0, "memory ended between two frames");
}

/* So much room that the record of what may go in wants memory. */
static uint8_t wide[100000];

/* Tokens of two fills that follow one another. */
static void tokens(gv_endpoint *end, gv_token token, gv_token next) {
  uint64_t number = token.number, after = next.number;
  gv_token other = {.number = 99};
  want(gv_token_of(NULL, number, &other), GV_INVALID, "of no end");
  want(gv_token_of(end, number, NULL), GV_INVALID, "told to null");
  holds(other.number == 99, "nothing was told");
  holds(token.epoch == 7 && token.first == number, "its numbers");
  want(gv_token_of(end, after, &other), GV_OK, "by its number");
  holds(other.epoch == next.epoch && other.first == next.first && other.number == after, "the same");
  other.first = after + 1;
  want(gv_token_acked(end, &other), GV_NOT_GIVEN, "acked from a number above its last");
  want(gv_token_lost(end, &other), GV_NOT_GIVEN, "lost from a number above its last");
  other = next;
  want(gv_token_and(NULL, &next), GV_INVALID, "of null");
  want(gv_token_and(&token, NULL), GV_INVALID, "and null");
  want(gv_token_and(&next, &token), GV_NONE, "the wrong way round");
  holds(next.first == after && next.number == after, "it stays");
  other.epoch = 8;
  want(gv_token_and(&token, &other), GV_NONE, "of another end");
  want(gv_token_acked(end, &other), GV_NOT_GIVEN, "acked of another end");
  want(gv_token_lost(end, &other), GV_NOT_GIVEN, "lost of another end");
  want(gv_token_acked(end, NULL), GV_INVALID, "acked by null");
  want(gv_token_lost(end, NULL), GV_INVALID, "lost by null");
  want(gv_token_and(&token, &next), GV_OK, "both");
  holds(token.epoch == 7 && token.first == number && token.number == after, "numbers of both");
}

/* What may not be asked, and what is asked for. */
static void fills(gv_endpoint *end) {
  gv_fill_request all = {.size = sizeof all, .items = true, .streams = true}, none = {.size = sizeof none}, low = all;
  gv_filled filled = {.size = sizeof filled, .token = {.number = 99}};
  uint8_t out[200];
  size_t count = 0;
  uint64_t stream = 0, other = 0;
  memset(out, 0xee, sizeof out);
  want(gv_open(end, GV_DIR_UNI, &stream, NULL), GV_OK, "open");
  want(gv_open(end, GV_DIR_UNI, &other, NULL), GV_OK, "open another");
  want(gv_write(end, stream, (const uint8_t *)"low", 3, &count), GV_OK, "write");
  want(gv_write(end, other, (const uint8_t *)"high", 4, &count), GV_OK, "write to the other");
  want(gv_fill(NULL, &all, out, sizeof out, &filled), GV_INVALID, "of no end");
  want(gv_fill(end, NULL, out, sizeof out, &filled), GV_INVALID, "asked by null");
  want(gv_fill(end, &all, NULL, sizeof out, &filled), GV_INVALID, "to null");
  want(gv_fill(end, &all, out, sizeof out, NULL), GV_INVALID, "told to null");
  low.size = sizeof low - sizeof low.most_bytes - 1;
  want(gv_fill(end, &low, out, sizeof out, &filled), GV_INVALID, "a small request");
  low = all;
  low.first = big;
  want(gv_fill(end, &low, out, sizeof out, &filled), GV_INVALID, "from no stream");
  filled.size = sizeof filled - 1;
  want(gv_fill(end, &all, out, sizeof out, &filled), GV_INVALID, "told to a small struct");
  filled.size = sizeof filled;
  want(gv_fill(end, &none, out, sizeof out, &filled), GV_NONE, "nothing is asked for");
  want(gv_fill(end, &all, NULL, 0, &filled), GV_NONE, "no room");
  is_refused = true;
  want(gv_fill(end, &all, wide, sizeof wide, &filled), GV_NO_MEMORY, "no memory");
  is_refused = false;
  holds(filled.token.number == 99 && wide[0] == 0, "nothing was told or written");
  low = all;
  low.alone = true;
  low.first = other;
  low.is_capped = true;
  want(gv_fill(end, &low, out, sizeof out, &filled), GV_NONE, "no byte of one stream, which has no end");
  low.most_bytes = 1;
  want(gv_fill(end, &low, out, sizeof out, &filled), GV_OK, "one byte of one stream");
  holds(filled.len > 1 && out[filled.len - 1] == 'h' && !filled.more && out[filled.len] == 0xee, "the byte");
  low.is_capped = false;
  want(gv_fill(end, &low, out, sizeof out, &filled), GV_OK, "of one stream");
  holds(filled.has_last_stream && filled.last_stream == other && filled.len > 4 && out[filled.len] == 0xee, "its bytes");
  gv_token token = filled.token;
  want(gv_fill(end, &all, out, GV_MIN_FILL, &filled), GV_OK, "the others");
  holds(filled.has_last_stream && filled.last_stream == stream && !filled.more && filled.token.number != token.number, "that is all");
  tokens(end, token, filled.token);
  want(gv_token_acked(end, &filled.token), GV_OK, "acked");
  want(gv_fill(end, &all, out, sizeof out, &filled), GV_NONE, "nothing is due");
  want(gv_token_lost(end, &token), GV_OK, "lost");
  all.items = false;
  want(gv_fill(end, &all, out, sizeof out, &filled), GV_OK, "it is due again");
  holds(filled.last_stream == other, "which it is");
}

/* Numbers that no text has close the connection, as a rule that is broken does; and an end that is closed says so again. */
static void closes(gv_endpoint *end) {
  gv_closing_info why = {.size = sizeof why};
  gv_fill_request all = {.size = sizeof all, .items = true, .streams = true};
  gv_filled filled = {.size = sizeof filled};
  gv_frame frame = first;
  gv_taken taken = untouched;
  uint8_t out[200];
  frame.stream = 7;
  frame.offset = big - 3;
  want(gv_take_frame(end, &frame, &taken), GV_PROTOCOL_ERROR, "an end above 2^62 - 1");
  want(gv_closing(end, &why), GV_OK, "why");
  holds(why.code == 7 && why.frame_type == 0x0f && why.place == 0, "FRAME_ENCODING_ERROR");
  want(gv_take_frame(end, &first, &taken), GV_PROTOCOL_ERROR, "it is closed");
  holds(taken == untouched, "nothing was told");
  want(gv_fill(end, &all, out, sizeof out, &filled), GV_CONNECTION_CLOSED, "and fills nothing");
}

static void is_told(gv_endpoint *end) {
  gv_closing_info why = {.size = sizeof why};
  gv_taken taken = untouched;
  gv_closer by = GV_CLOSER_US;
  gv_close_kind kind = GV_CLOSE_TRANSPORT;
  uint64_t code = 0;
  uint8_t out[200];
  size_t len = 0;
  want(gv_note_closed(NULL, GV_CLOSER_US, GV_CLOSE_TRANSPORT, 0), GV_INVALID, "no end");
  want(gv_note_closed(end, (gv_closer)2, GV_CLOSE_TRANSPORT, 0), GV_INVALID, "no side");
  want(gv_note_closed(end, GV_CLOSER_US, (gv_close_kind)2, 0), GV_INVALID, "no kind");
  want(gv_noted_close(end, &by, &kind, &code), GV_NONE, "it wasn't told yet");
  want(gv_note_closed(end, GV_CLOSER_PEER, GV_CLOSE_APPLICATION, 0x100), GV_OK, "the peer closed");
  want(gv_note_closed(end, GV_CLOSER_US, GV_CLOSE_TRANSPORT, 1), GV_OK, "and is closed already");
  want(gv_take_frame(end, &first, &taken), GV_CLOSED_BY_PEER, "it says so again");
  want(gv_peer_closed(end, &code), GV_NONE, "but no frame did it");
  want(gv_closing(end, &why), GV_NONE, "nor this end");
  want(gv_close_payload(end, out, sizeof out, &len), GV_NONE, "so it has no payload");
  want(gv_noted_close(NULL, &by, &kind, &code), GV_INVALID, "of no end");
  want(gv_noted_close(end, NULL, &kind, &code), GV_INVALID, "the side to null");
  want(gv_noted_close(end, &by, NULL, &code), GV_INVALID, "the kind to null");
  want(gv_noted_close(end, &by, &kind, NULL), GV_INVALID, "the code to null");
  holds(by == GV_CLOSER_US && kind == GV_CLOSE_TRANSPORT && code == 0, "nothing was told");
  want(gv_noted_close(end, &by, &kind, &code), GV_OK, "what it was told");
  holds(by == GV_CLOSER_PEER && kind == GV_CLOSE_APPLICATION && code == 0x100, "which it was, first");
  gv_endpoint *other = new_end();
  want(gv_note_closed(other, GV_CLOSER_US, GV_CLOSE_TRANSPORT, 1), GV_OK, "this side closed");
  want(gv_noted_close(other, &by, &kind, &code), GV_OK, "what that one was told");
  holds(by == GV_CLOSER_US && kind == GV_CLOSE_TRANSPORT && code == 1, "which it was");
  gv_endpoint_free(other);
}

/* Two frames, of which memory is refused after so many allocations: then both again. */
static gv_status take_two(gv_endpoint *end, const gv_frame *two, int gives, gv_taken *taken) {
  left = gives;
  gv_status status = gv_take_frames(end, two, 2, taken);
  left = -1;
  if (status == GV_NO_MEMORY) status = gv_take_frames(end, two, 2, taken);
  return status;
}

/* Whatever memory was refused the frames of a packet come to the same: the limits move behind them, and what is blocked is noted then. */
static void as_together(int gives) {
  static const uint8_t zeros[1021];
  gv_endpoint *end = new_end(), *other = new_end();
  gv_closing_info why = {.size = sizeof why};
  gv_event event = {.size = sizeof event};
  gv_taken taken = untouched;
  gv_frame open = first, two[2] = {first, first};
  open.fin = two[0].fin = two[1].fin = false;
  want(gv_take_frame(end, &open, &taken), GV_OK, "a stream opens");
  want(gv_stop(end, 3, 0), GV_OK, "and is stopped");
  two[0].bytes = two[1].bytes = zeros;
  two[0].offset = 3;
  two[0].len = sizeof zeros;
  two[1].offset = 1024;
  want(take_two(end, two, gives, &taken), GV_PROTOCOL_ERROR, "one byte past the limit, which didn't move yet");
  want(gv_closing(end, &why), GV_OK, "why");
  holds(why.code == 3, "FLOW_CONTROL_ERROR");
  want(gv_next_event(other, &event), GV_NONE, "events are asked for");
  gv_frame said = {.size = sizeof said, .kind = GV_FRAME_STREAM_DATA_BLOCKED, .stream = 3, .limit = 1024};
  gv_frame reset = {.size = sizeof reset, .kind = GV_FRAME_RESET_STREAM, .stream = 3, .code = 5};
  two[0] = said;
  two[1] = reset;
  want(take_two(other, two, gives, &taken), GV_OK, "blocked, and reset in the same packet");
  want(take_two(other, two, gives, &taken), GV_OK, "both again");
  holds(taken == GV_TAKEN_UNCHANGED, "change nothing");
  while (gv_next_event(other, &event) == GV_OK) holds(event.kind != GV_EVENT_STREAM_DATA_BLOCKED, "so no limit holds it back");
  gv_endpoint_free(end);
  gv_endpoint_free(other);
}

/* Frames of others' want no memory, and a closed end says so before it wants some. */
static void without_memory(void) {
  static const uint8_t payload[] = {0x1c, 0x05, 0x00, 0x00};
  gv_endpoint *end = new_end();
  gv_frame many[MANY];
  gv_taken taken = untouched;
  for (size_t i = 0; i < MANY; i++) many[i] = (gv_frame){.size = sizeof *many, .kind = GV_FRAME_PING};
  is_refused = true;
  want(gv_take_frames(end, many, MANY, &taken), GV_OK, "many PINGs");
  holds(taken == GV_TAKEN_NOT_OURS, "are the stack's own");
  is_refused = false;
  want(gv_receive(end, 0, payload, sizeof payload), GV_CLOSED_BY_PEER, "the peer closes");
  many_frames(many);
  is_refused = true;
  want(gv_take_frames(end, many, 2, &taken), GV_CLOSED_BY_PEER, "it is closed, for two frames");
  want(gv_take_frames(end, many, MANY, &taken), GV_CLOSED_BY_PEER, "and for many");
  is_refused = false;
  gv_endpoint_free(end);
}

static void is_closed_by_peer(gv_endpoint *end) {
  static const uint8_t payload[] = {0x1c, 0x05, 0x00, 0x00};
  gv_taken taken = untouched;
  gv_closer by = GV_CLOSER_US;
  gv_close_kind kind = GV_CLOSE_TRANSPORT;
  uint64_t code = 0;
  want(gv_receive(end, 0, payload, sizeof payload), GV_CLOSED_BY_PEER, "the peer closes");
  want(gv_take_frame(end, &first, &taken), GV_CLOSED_BY_PEER, "it is closed");
  want(gv_peer_closed(end, &code), GV_OK, "with a code");
  holds(code == 5, "which it is");
  want(gv_noted_close(end, &by, &kind, &code), GV_NONE, "and nobody told it");
}

int main(void) {
  gv_endpoint *end = new_end(), *other = new_end(), *third = new_end();
  at_once();
  where_memory_ends();
  for (int gives = 0; gives < 8; gives++) as_together(gives);
  without_memory();
  no_frames(end);
  frames(end);
  fills(end);
  closes(end);
  is_closed_by_peer(other);
  is_told(third);
  gv_endpoint_free(end);
  gv_endpoint_free(other);
  gv_endpoint_free(third);
  return failed;
}

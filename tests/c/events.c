/* What ends tell of by themselves: each event once, in the order that the header says, and none that no longer holds; and what comes where
 * there is no memory to note it. */
#include <inttypes.h>
#include <stdio.h>
#include <stdlib.h>
#include <string.h>

#include "gotsavena.h"
#include "refusing.h"

static int failed;

static void want(gv_status status, gv_status wanted, const char *what) {
  if (status == wanted) return;
  fprintf(stderr, "%s: %s, not %s\n", what, gv_strerror(status), gv_strerror(wanted));
  failed = 1;
}

static void holds(bool is, const char *what) { want(is ? GV_OK : GV_INVALID, GV_OK, what); }

/* One stream of each direction at a time, and buffers of 16 bytes. */
static gv_endpoint *new_end(gv_role role) {
  gv_settings settings = {sizeof settings, 4096, 1024, 1024, 1024, 16, 1, 1, 8, 8};
  gv_limits limits = {.size = sizeof limits};
  gv_allocator memory = {.size = sizeof memory, .allocate = allocate, .release = release};
  gv_endpoint *end = NULL;
  want(gv_limits_of(&settings, &limits), GV_OK, "limits");
  want(gv_endpoint_new_with(role, &settings, &limits, &memory, &end), GV_OK, "new");
  return end;
}

static bool carry_one(gv_endpoint *from, gv_endpoint *to) {
  uint8_t payload[1200];
  gv_made made = {.size = sizeof made};
  gv_status status = gv_make_packet(from, payload, sizeof payload, &made);
  if (status == GV_NONE) return false;
  want(status, GV_OK, "make");
  want(gv_receive(to, made.number, payload, made.len), GV_OK, "receive");
  return status == GV_OK;
}

/* All that may go, until both are quiet. */
static void carry(gv_endpoint *a, gv_endpoint *b) {
  bool some;
  do {
    some = carry_one(a, b);
    some = carry_one(b, a) || some;
  } while (some);
}

/* All events of an end, in words. */
static void hears(gv_endpoint *end, const char *wanted, const char *what) {
  static const char *const kinds[] = {"opened", "readable",  "writable",     "stopped", "finished",     "reset-acked",
                                      "ended",  "available", "conn-blocked", "blocked", "count-blocked"};
  char text[400] = "";
  gv_event event = {.size = sizeof event};
  gv_status status;
  while ((status = gv_next_event(end, &event)) == GV_OK && strlen(text) < 300) {
    char *at = text + strlen(text);
    size_t room = sizeof text - strlen(text);
    bool of_dir = event.kind == GV_EVENT_AVAILABLE || event.kind == GV_EVENT_STREAMS_BLOCKED;
    if (of_dir) snprintf(at, room, "%s %s;", kinds[event.kind], event.dir == GV_DIR_UNI ? "uni" : "bidi");
    else if (event.kind == GV_EVENT_STOPPED) snprintf(at, room, "stopped %" PRIu64 " %" PRIu64 ";", event.stream, event.code);
    else snprintf(at, room, "%s %" PRIu64 ";", kinds[event.kind], event.stream);
    if (!of_dir) holds(event.dir == GV_DIR_BIDI, "no direction");
    if (event.kind != GV_EVENT_STOPPED) holds(event.code == 0, "no code");
  }
  want(status, GV_NONE, what);
  if (strcmp(text, wanted) == 0) return;
  fprintf(stderr, "%s: '%s', not '%s'\n", what, text, wanted);
  failed = 1;
}

static void write_all(gv_endpoint *end, uint64_t stream, const char *bytes, size_t accepted, const char *what) {
  size_t count = 99;
  want(gv_write(end, stream, (const uint8_t *)bytes, strlen(bytes), &count), GV_OK, what);
  holds(count == accepted, what);
}

static void read_all(gv_endpoint *end, uint64_t stream, const char *bytes, gv_status then, const char *what) {
  uint8_t into[32];
  size_t count = 0;
  want(gv_read(end, stream, into, sizeof into, &count, NULL), GV_OK, what);
  holds(count == strlen(bytes) && memcmp(into, bytes, count) == 0, what);
  want(gv_read(end, stream, into, sizeof into, &count, NULL), then, what);
}

static void arguments(void) {
  gv_endpoint *end = new_end(GV_ROLE_CLIENT);
  gv_event event = {.size = sizeof event, .code = 77};
  want(gv_next_event(NULL, &event), GV_INVALID, "of no end");
  want(gv_next_event(end, NULL), GV_INVALID, "told to null");
  want(gv_next_event(end, &event), GV_NONE, "nothing came about");
  event.size = sizeof event - 1;
  want(gv_next_event(end, &event), GV_INVALID, "told to a small struct");
  holds(event.code == 77, "nothing is told");
  gv_endpoint_free(end);
}

/* A stream from its opening to its end. */
static void a_stream(gv_endpoint *client, gv_endpoint *server) {
  gv_event event = {.size = sizeof event};
  uint64_t stream = 99;
  want(gv_open(client, GV_DIR_BIDI, &stream, NULL), GV_OK, "open");
  is_refused = true;
  want(gv_open(client, GV_DIR_BIDI, &stream, NULL), GV_STREAM_LIMIT, "one at a time, though memory is refused");
  is_refused = false;
  hears(client, "", "what a client does is no news to it");
  write_all(client, 0, "0123456789abcdefXYZ", 16, "a write is cut short");
  hears(client, "", "no room yet");
  carry(client, server);
  hears(client, "writable 0;", "what was written is acknowledged");
  is_refused = true;
  want(gv_next_event(server, &event), GV_NO_MEMORY, "no notes can be kept");
  is_refused = false;
  want(gv_next_event(server, &event), GV_OK, "the client opened a stream");
  holds(event.kind == GV_EVENT_OPENED && event.stream == 0, "which it is");
  is_refused = true;
  want(gv_next_event(server, &event), GV_NO_MEMORY, "its bytes can't be noted");
  holds(event.kind == GV_EVENT_OPENED, "and aren't told");
  is_refused = false;
  hears(server, "readable 0;", "they come again");
  hears(server, "", "each once");
  write_all(client, 0, "XY", 2, "more bytes");
  carry(client, server);
  hears(client, "", "no write was cut short");
  hears(server, "", "the stream wasn't read since");
  read_all(server, 0, "0123456789abcdefXY", GV_NOTHING_YET, "read");
  write_all(client, 0, "Z", 1, "the last byte");
  carry(client, server);
  hears(server, "readable 0;", "there is more to read");
  read_all(server, 0, "Z", GV_NOTHING_YET, "read it");
  want(gv_finish(client, 0), GV_OK, "finish");
  carry(client, server);
  hears(client, "finished 0;", "all was acknowledged");
  hears(server, "readable 0;", "there is the end to read");
  write_all(server, 0, "answer", 6, "the answer");
  want(gv_finish(server, 0), GV_OK, "its end");
  carry(client, server);
  hears(server, "finished 0;", "the end isn't told again");
  hears(client, "readable 0;", "the answer");
  read_all(client, 0, "answer", GV_END_OF_STREAM, "read the answer");
  hears(client, "ended 0;", "the client's stream is over");
}

/* A stream that is refused by who reads it, and one whose owner breaks it off. */
static void broken_off(gv_endpoint *client, gv_endpoint *server) {
  uint8_t into[8];
  uint64_t stream = 99;
  size_t count = 0;
  want(gv_read(server, 0, into, sizeof into, &count, NULL), GV_END_OF_STREAM, "the server reads the end");
  carry(client, server);
  hears(server, "ended 0;", "the server's stream is over");
  hears(client, "available bidi;", "another stream may be opened");
  want(gv_open(client, GV_DIR_BIDI, &stream, NULL), GV_OK, "open");
  write_all(client, stream, "ab", 2, "two bytes");
  carry(client, server);
  want(gv_stop(server, stream, 9), GV_OK, "they aren't wanted");
  hears(server, "opened 4;", "they aren't told any more");
  carry(client, server);
  hears(client, "stopped 4 9;reset-acked 4;", "the peer stopped the stream");
  hears(server, "readable 4;", "the reset is to be read");
  want(gv_reset(server, stream, 8), GV_OK, "the server breaks off, too");
  want(gv_read(server, stream, into, sizeof into, &count, NULL), GV_RESET_BY_PEER, "the reset is read");
  carry(client, server);
  hears(server, "reset-acked 4;ended 4;", "the server's is over");
  hears(client, "readable 4;", "the client reads the reset");
}

/* Memory is refused where something is to be noted. */
static void refused(gv_endpoint *client, gv_endpoint *server) {
  uint64_t stream = 99, room = 0;
  size_t count = 77;
  want(gv_open(server, GV_DIR_UNI, &stream, NULL), GV_OK, "the server's stream");
  is_refused = true;
  want(gv_write(server, stream, (const uint8_t *)"0123456789abcdefXYZ", 19, &count), GV_NO_MEMORY, "a write that would be cut short");
  is_refused = false;
  want(gv_room(server, stream, &room), GV_OK, "room");
  holds(count == 77 && room == 16, "no byte was taken");
  write_all(server, stream, "ab", 2, "a write");
  want(gv_finish(server, stream), GV_OK, "finish");
  is_refused = true;
  want(gv_write(server, stream, (const uint8_t *)"c", 1, &count), GV_SENDING_FINISHED, "the refusal goes before");
  is_refused = false;
  carry(client, server);
  hears(server, "finished 3;ended 3;", "and no more of the write that was refused");
  hears(client, "opened 3;readable 3;", "the client is told, but not of stream 4 again");
}

/* One bound over what all streams keep: the second stream hears once the first one's bytes are acknowledged. */
static void bounded(void) {
  gv_settings settings = {sizeof settings, 4096, 1024, 1024, 1024, 2048, 8, 8, 8, 8};
  gv_limits limits = {sizeof limits, 4096, 1024, 1024, 1024, 8, 8};
  gv_endpoint *client = NULL, *server = NULL;
  gv_tuning tuning;
  uint64_t room = 99, stream = 99;
  want(gv_tuning_init(&tuning, sizeof tuning), GV_OK, "tuning");
  holds(tuning.send_window == 0, "no bound to begin with");
  tuning.send_window = 5;
  want(gv_endpoint_new_tuned(GV_ROLE_CLIENT, &settings, &tuning, &limits, NULL, &client), GV_OK, "a bounded end");
  tuning.send_window = 0;
  want(gv_endpoint_new_tuned(GV_ROLE_SERVER, &settings, &tuning, &limits, NULL, &server), GV_OK, "one that isn't");
  for (int i = 0; i < 2; i++) want(gv_open(client, GV_DIR_UNI, &stream, NULL), GV_OK, "open");
  holds(stream == 6, "two streams");
  write_all(client, 2, "abc", 3, "within the bound");
  write_all(client, 6, "defg", 2, "what it leaves");
  write_all(client, 2, "hi", 0, "nothing is left");
  want(gv_room(client, 6, &room), GV_OK, "room");
  holds(room == 0, "no room");
  hears(client, "", "nothing to write to");
  carry(client, server);
  hears(client, "writable 2;writable 6;", "what was kept is acknowledged");
  write_all(client, 6, "fg", 2, "the rest");
  for (int i = 0; i < 4; i++) {
    want(gv_open(server, GV_DIR_BIDI, &stream, NULL), GV_OK, "open at the other end");
    write_all(server, stream, "0123456789", 10, "which has no bound");
  }
  gv_endpoint_free(client);
  gv_endpoint_free(server);
}

/* What the peer says to hold it back, at these limits: all three kinds, in the frames of one packet. */
static gv_status says(gv_endpoint *end, uint64_t conn, uint64_t of_stream, uint64_t count) {
  gv_frame frames[3] = {
    {.size = sizeof frames[0], .kind = GV_FRAME_STREAMS_BLOCKED, .dir = GV_DIR_BIDI, .limit = count},
    {.size = sizeof frames[0], .kind = GV_FRAME_DATA_BLOCKED, .limit = conn},
    {.size = sizeof frames[0], .kind = GV_FRAME_STREAM_DATA_BLOCKED, .stream = 0, .limit = of_stream},
  };
  gv_taken taken = GV_TAKEN_NOT_OURS;
  return gv_take_frames(end, frames, 3, &taken);
}

/* Each is told once where it is said of a limit of the present, and of one that rose it isn't. */
static void held_back(void) {
  static const uint8_t payload[] = {0x14, 0x50, 0x00, 0x15, 0x00, 0x44, 0x00}; /* of the connection at 4096, and of stream 0 at 1024 */
  gv_endpoint *end = new_end(GV_ROLE_SERVER);
  gv_frame of_conn = {.size = sizeof of_conn, .kind = GV_FRAME_DATA_BLOCKED, .limit = 8192};
  gv_taken taken = GV_TAKEN_TOOK;
  want(says(end, 4096, 1024, 1), GV_OK, "nobody asked for events yet");
  hears(end, "opened 0;", "the stream opened");
  is_refused = true;
  want(says(end, 4096, 1024, 1), GV_NO_MEMORY, "there is no room for the note of the stream");
  is_refused = false;
  hears(end, "", "so none is noted");
  want(says(end, 4096, 1024, 1), GV_OK, "the same frames again");
  hears(end, "conn-blocked 0;blocked 0;count-blocked bidi;", "all three");
  hears(end, "", "each once");
  want(says(end, 4095, 1023, 0), GV_OK, "limits that rose");
  hears(end, "", "hold nobody back");
  want(gv_set_conn_window(end, 8192), GV_OK, "a wider window");
  want(gv_receive(end, 1, payload, sizeof payload), GV_OK, "a payload says so");
  hears(end, "", "and isn't looked through");
  want(gv_take_frame(end, &of_conn, &taken), GV_OK, "one frame");
  hears(end, "conn-blocked 0;", "of the limit that stands now");
  want(gv_report_blocked(NULL, true), GV_INVALID, "of no end");
  want(gv_report_blocked(end, true), GV_OK, "payloads are looked through");
  want(gv_receive(end, 2, payload, sizeof payload), GV_OK, "one is");
  want(gv_receive(end, 2, payload, sizeof payload), GV_DUPLICATE, "once");
  hears(end, "blocked 0;", "the connection's limit rose");
  want(gv_receive(end, 2, payload, sizeof payload), GV_DUPLICATE, "the packet again");
  hears(end, "", "says nothing new");
  gv_endpoint_free(end);
}

/* What counts is the end of the packet that says so: it is told though the limit rises later, or the stream's length becomes known. */
static void said_before(void) {
  static const uint8_t ends_0[] = {0x0f, 0x00, 0x44, 0x00, 0x00}; /* stream 0 ends at 1024 */
  const gv_frame said[2] = {
    {.size = sizeof said[0], .kind = GV_FRAME_STREAM_DATA_BLOCKED, .stream = 0, .limit = 1024},
    {.size = sizeof said[0], .kind = GV_FRAME_STREAM_DATA_BLOCKED, .stream = 2, .limit = 1024},
  };
  gv_endpoint *end = new_end(GV_ROLE_SERVER);
  gv_taken taken = GV_TAKEN_NOT_OURS;
  hears(end, "", "nothing came about");
  want(gv_take_frames(end, said, 2, &taken), GV_OK, "two streams are held back");
  want(gv_set_stream_window(end, 2, 2048), GV_OK, "the limit of one rises");
  want(gv_receive(end, 1, ends_0, sizeof ends_0), GV_OK, "the other one ends");
  hears(end, "opened 0;opened 2;blocked 0;blocked 2;", "both are told");
  want(gv_take_frames(end, said, 2, &taken), GV_OK, "the same frames again");
  hears(end, "", "hold nobody back any more");
  gv_endpoint_free(end);
}

/* A payload says that the limit of stream 0 or 2 holds the peer back, and so many allocations are given. */
static gv_status say(gv_endpoint *end, uint64_t number, int gives) {
  const uint8_t payload[] = {0x15, (uint8_t)(2 * number), 0x44, 0x00};
  left = gives;
  gv_status status = gv_receive(end, number, payload, sizeof payload);
  left = -1;
  if (status != GV_NO_MEMORY) want(status, GV_OK, "a payload that says so");
  return status;
}

/* Where notes find no room their payloads change nothing, no number of theirs is kept, and no news is lost. */
static bool two_payloads(int first, int second) {
  gv_endpoint *end = new_end(GV_ROLE_SERVER);
  uint64_t stream = 99;
  bool is_due = true;
  want(gv_report_blocked(end, true), GV_OK, "payloads are looked through");
  gv_status one = say(end, 0, first);
  if (one == GV_NO_MEMORY) {
    want(gv_ack_is_due(end, &is_due), GV_OK, "an ACK");
    holds(!is_due, "it isn't acknowledged");
    want(gv_accept(end, &stream), GV_NONE, "and opened nothing");
  }
  gv_status other = say(end, 1, second);
  if (one == GV_NO_MEMORY) want(say(end, 0, -1), GV_OK, "the first again");
  if (other == GV_NO_MEMORY) want(say(end, 1, -1), GV_OK, "the second again");
  hears(end, "opened 0;opened 2;blocked 0;blocked 2;", "all that was said");
  gv_endpoint_free(end);
  return other == GV_OK;
}

static void payloads_without_memory(void) {
  enum { ENOUGH = 48 };
  for (int first = 0; first < ENOUGH; first++)
    for (int second = 0; second < ENOUGH; second++) (void)two_payloads(first, second);
  holds(two_payloads(ENOUGH, ENOUGH), "so many allocations are enough");
}

/* A write that took no byte for want of memory was not cut short, and one that couldn't be noted is, before the next. */
static void writes_without_memory(void) {
  enum { ENOUGH = 20 };
  int refusals = 0;
  for (int gives = 0; gives < ENOUGH; gives++) {
    gv_endpoint *client = new_end(GV_ROLE_CLIENT), *server = new_end(GV_ROLE_SERVER);
    uint64_t stream = 99;
    size_t count = 77;
    want(gv_open(client, GV_DIR_UNI, &stream, NULL), GV_OK, "open");
    left = gives;
    gv_status status = gv_write(client, stream, (const uint8_t *)"0123456789abcdefXYZ", 19, &count);
    left = -1;
    bool is_cut = status == GV_OK;
    if (!is_cut) {
      want(status, GV_NO_MEMORY, "a write without memory");
      holds(count == 77, "took no byte");
      write_all(client, stream, "ab", 2, "then a whole one");
      refusals++;
    } else {
      holds(count == 16, "a write is cut short");
      is_refused = true;
      status = gv_write(client, stream, (const uint8_t *)"XYZ", 3, &count);
      is_refused = false;
      if (status != GV_NO_MEMORY) want(status, GV_OK, "the next one");
    }
    carry(client, server);
    hears(client, is_cut ? "writable 2;" : "", "writable after a write that was cut short");
    gv_endpoint_free(client);
    gv_endpoint_free(server);
  }
  holds(refusals > 0, "a write takes memory");
}

int main(void) {
  gv_endpoint *client = new_end(GV_ROLE_CLIENT), *server = new_end(GV_ROLE_SERVER);
  arguments();
  a_stream(client, server);
  broken_off(client, server);
  refused(client, server);
  bounded();
  held_back();
  said_before();
  payloads_without_memory();
  writes_without_memory();
  gv_endpoint_free(client);
  gv_endpoint_free(server);
  return failed;
}

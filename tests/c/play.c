/* Plays a script (docs/QSTREAM.md) through the calls of C, and prints what `qstream play` prints. Beside it, what the calls that ask
 * an end say before a call is held against what the call answers. */
#include <inttypes.h>
#include <stdarg.h>
#include <stdio.h>
#include <stdlib.h>
#include <string.h>

#include "gotsavena.h"

enum { MOST = 65535, WORDS = 5 };

typedef struct packet {
  uint8_t *bytes; /* none of a packet of the layer beneath, which is a PING */
  size_t len;
} packet;

static gv_endpoint *ends[2];
static packet *made[2];
static uint64_t made_count[2];

static char *text;
static size_t text_len, text_room;

static void fail(const char *why) {
  fprintf(stderr, "%s\n", why);
  exit(1);
}

static void check(bool holds, const char *what) {
  if (!holds) fail(what);
}

static void *more(void *at, size_t size) {
  void *found = realloc(at, size);
  if (found == NULL) fail("out of memory");
  return found;
}

static void print(const char *format, ...) {
  va_list words;
  for (;;) {
    size_t room = text_room - text_len;
    va_start(words, format);
    int len = vsnprintf(text == NULL ? NULL : text + text_len, room, format, words);
    va_end(words);
    if (len < 0) fail("no text");
    if ((size_t)len < room) {
      text_len += (size_t)len;
      return;
    }
    text_room = 2 * text_room + (size_t)len + 4096;
    text = more(text, text_room);
  }
}

static void print_hex(const uint8_t *bytes, size_t len) {
  if (len == 0) print("-");
  for (size_t i = 0; i < len; i++) print("%02x", bytes[i]);
}

static const char *name_of(gv_status status) {
  switch (status) {
    case GV_OK: return "ok";
    case GV_NO_MEMORY: return "no-memory";
    case GV_CONNECTION_CLOSED: return "closed";
    case GV_NO_SUCH_STREAM: return "no-such-stream";
    case GV_WRONG_DIRECTION: return "wrong-direction";
    case GV_SENDING_FINISHED: return "finished";
    case GV_SENDING_RESET: return "was-reset";
    case GV_NUMBERS_EXHAUSTED: return "exhausted";
    case GV_NOT_OUTSTANDING: return "not-outstanding";
    case GV_DUPLICATE: return "duplicate";
    case GV_TOO_OLD: return "below-floor";
    case GV_NOTHING_YET: return "wait";
    case GV_END_OF_STREAM: return "end";
    default: fail("a status that no call may answer here"); return "";
  }
}

/* Whether a question about a number is answered with the number itself. */
static bool names(gv_status (*next)(const gv_endpoint *, uint64_t, uint64_t *), const gv_endpoint *end, uint64_t number) {
  uint64_t found = 0;
  gv_status status = next(end, number, &found);
  check(status == GV_OK || status == GV_NONE, "a question is answered");
  check(status == GV_NONE || found >= number, "the answer isn't below what was asked for");
  return status == GV_OK && found == number;
}

static bool is_closed(const gv_endpoint *end) {
  gv_closing_info closing = {.size = sizeof closing};
  uint64_t code;
  return gv_closing(end, &closing) == GV_OK || gv_peer_closed(end, &code) == GV_OK;
}

static void open_stream(gv_endpoint *end, const char *word) {
  gv_dir dir = strcmp(word, "bidi") == 0 ? GV_DIR_BIDI : GV_DIR_UNI;
  uint64_t number, limit = 0, left, after;
  check(gv_open_left(end, dir, &left) == GV_OK, "open_left");
  bool closed = is_closed(end);
  gv_status status = gv_open(end, dir, &number, &limit);
  check(gv_open_left(end, dir, &after) == GV_OK, "open_left");
  check(after == left - (status == GV_OK), "a stream that opened is counted");
  check(closed || (status == GV_STREAM_LIMIT) == (left == 0), "none is left where it is blocked");
  if (status == GV_OK) {
    print("stream %" PRIu64, number);
  } else if (status == GV_STREAM_LIMIT) {
    print("blocked %" PRIu64, limit);
  } else {
    print("%s", name_of(status));
  }
}

static void accept_stream(gv_endpoint *end) {
  uint64_t number;
  gv_status status = gv_accept(end, &number);
  if (status == GV_OK) {
    print("stream %" PRIu64, number);
  } else {
    check(status == GV_NONE, "accept");
    print("none");
  }
}

static void write_stream(gv_endpoint *end, uint64_t stream, const uint8_t *bytes, size_t len) {
  bool takes = names(gv_next_writable, end, stream);
  size_t count = 0;
  gv_status status = gv_write(end, stream, bytes, len, &count);
  if (takes) check(status == GV_OK && (len == 0 || count > 0), "a writable stream takes a byte");
  if (!takes && len > 0) check(status != GV_OK || count == 0, "another one takes none");
  if (status == GV_OK) {
    print("wrote %zu", count);
  } else {
    print("%s", name_of(status));
  }
}

static size_t least(size_t a, size_t b) { return a < b ? a : b; }

/* What a look at the stream shows, copied: what it lends may not be read once the bytes are. */
static gv_status look(const gv_endpoint *end, uint64_t stream, uint8_t *into, size_t *count, uint64_t *code) {
  gv_peeked peeked = {.size = sizeof peeked};
  gv_status status = gv_peek(end, stream, &peeked, code);
  if (status != GV_OK) return status;
  check(peeked.front_len > 0, "a look shows a byte at least");
  size_t front = least(peeked.front_len, MOST), back = least(peeked.back_len, MOST - front);
  memcpy(into, peeked.front, front);
  memcpy(into + front, peeked.back, back);
  *count = front + back;
  return status;
}

static void read_stream(gv_endpoint *end, uint64_t stream, size_t size) {
  static uint8_t into[MOST], shown[MOST];
  bool has = names(gv_next_readable, end, stream);
  size_t count = 0, lent = 0;
  uint64_t code = 0, told = 0;
  gv_status looked = look(end, stream, shown, &lent, &told);
  gv_status status = gv_read(end, stream, into, size, &count, &code);
  if (size > 0) check(looked == status && told == code && memcmp(shown, into, least(lent, count)) == 0, "a look shows what a read gives");
  if (has) check(status == GV_OK || status == GV_END_OF_STREAM || status == GV_RESET_BY_PEER, "a readable stream has news");
  if (status == GV_NOTHING_YET) check(!has, "what waits has no news");
  if (status == GV_OK) {
    print("bytes ");
    print_hex(into, count);
  } else if (status == GV_RESET_BY_PEER) {
    print("reset %" PRIu64, code);
  } else {
    print("%s", name_of(status));
  }
}

static void keep(int side, uint64_t number, const uint8_t *bytes, size_t len) {
  check(number == made_count[side], "numbers go up by one");
  made[side] = more(made[side], (size_t)(number + 1) * sizeof *made[side]);
  packet *it = &made[side][number];
  it->bytes = NULL;
  it->len = len;
  if (bytes != NULL) it->bytes = memcpy(more(NULL, len + 1), bytes, len);
  made_count[side]++;
}

static void make_packet(int side, size_t room) {
  static uint8_t out[16383];
  gv_endpoint *end = ends[side];
  bool goes = false, ack = false;
  gv_made got = {.size = sizeof got};
  uint64_t next;
  check(gv_is_sendable(end, &goes) == GV_OK && gv_ack_is_due(end, &ack) == GV_OK, "questions before a packet");
  check(gv_next_number(end, &next) == GV_OK, "next_number");
  gv_status status = gv_make_packet(end, out, room, &got);
  if (status == GV_NONE) {
    check(!goes && !ack, "nothing was due");
    print("nothing");
    return;
  }
  if (status != GV_OK) {
    print("%s", name_of(status));
    return;
  }
  check(goes || ack, "something was due");
  check(got.number == next, "the packet has the next number");
  check(names(gv_next_outstanding, end, got.number) == got.is_ack_eliciting, "what asks for an ACK is outstanding");
  keep(side, got.number, out, got.len);
  print("packet %" PRIu64 " ", got.number);
  print_hex(out, got.len);
}

static void lose_packet(gv_endpoint *end, uint64_t number) {
  bool held = names(gv_next_outstanding, end, number);
  gv_status status = gv_declare_lost(end, number);
  check(status == GV_CONNECTION_CLOSED || held == (status == GV_OK), "what is lost was outstanding");
  print("%s", name_of(status));
}

static void claim_number(int side) {
  uint64_t number;
  gv_status status = gv_claim_number(ends[side], &number);
  if (status == GV_OK) {
    keep(side, number, NULL, 1);
    print("number %" PRIu64, number);
  } else {
    print("%s", name_of(status));
  }
}

static void print_closing(gv_closing_info closing) {
  print("closing 0x%02" PRIx64 " 0x%02" PRIx64 " %zu", closing.code, closing.frame_type, closing.place);
}

/* Which packets of an end are outstanding, less those that were told as acknowledged. */
typedef struct acks {
  uint64_t count;
  bool *left;
} acks;

static acks acks_of(int side) {
  uint64_t count = made_count[side];
  acks all = {count, more(NULL, (size_t)count + 1)};
  for (uint64_t i = 0; i < count; i++) all.left[i] = names(gv_next_outstanding, ends[side], i);
  return all;
}

static void tell(void *context, uint64_t number) {
  acks *all = context;
  check(number < all->count && all->left[number], "what is told was outstanding, and is told once");
  all->left[number] = false;
}

static void deliver(int side, uint64_t number) {
  static const uint8_t ping = 0x01;
  const packet *it = &made[side][number];
  const uint8_t *payload = it->bytes == NULL ? &ping : it->bytes;
  gv_endpoint *end = ends[1 - side];
  gv_closing_info closing = {.size = sizeof closing};
  uint64_t code = 0;
  acks all = acks_of(1 - side);
  gv_status status = gv_receive_with_acks(end, number, payload, it->len, tell, &all);
  for (uint64_t i = 0; status == GV_OK && i < all.count; i++) {
    check(names(gv_next_outstanding, end, i) == all.left[i], "what a payload newly acknowledges is told, and outstanding no more");
  }
  free(all.left);
  check((status == GV_CLOSED_BY_PEER) == (gv_peer_closed(end, &code) == GV_OK), "the peer closed");
  if (status == GV_OK) {
    print("done");
  } else if (status == GV_CLOSED_BY_PEER) {
    print("peer-closed %" PRIu64, code);
  } else if (status == GV_PROTOCOL_ERROR) {
    check(gv_closing(end, &closing) == GV_OK, "an end that closed tells why");
    print_closing(closing);
  } else {
    print("%s", name_of(status));
  }
}

/* How the halves of a stream stand at an end, and whether they are there. */
typedef struct lane {
  bool has_sending, has_receiving;
  gv_sending sending;
  gv_receiving receiving;
} lane;

static lane report_of(int side, uint64_t stream) {
  lane all = {.sending.size = sizeof all.sending, .receiving.size = sizeof all.receiving};
  uint64_t code;
  gv_status sends = gv_sending_report(ends[side], stream, &all.sending);
  gv_status receives = gv_receiving_report(ends[side], stream, &all.receiving);
  all.has_sending = sends == GV_OK;
  all.has_receiving = receives == GV_OK;
  check((sends == GV_NO_SUCH_STREAM) == (receives == GV_NO_SUCH_STREAM), "a stream is open or isn't");
  check(all.has_sending || sends == GV_NO_SUCH_STREAM || (sends == GV_WRONG_DIRECTION && all.has_receiving), "a report");
  check(all.has_receiving || receives == GV_NO_SUCH_STREAM || (receives == GV_WRONG_DIRECTION && all.has_sending), "another report");
  bool is_stopped = gv_stopped_with(ends[side], stream, &code) == GV_OK;
  check(!is_stopped || all.has_sending, "what was stopped has a sending half");
  check(!is_stopped || all.sending.was_reset || all.sending.state == GV_SEND_STATE_DATA_RECVD, "and sends no more");
  if (all.has_sending || all.has_receiving) {
    gv_send_state of_sending = all.sending.state;
    gv_recv_state of_receiving = all.receiving.state;
    bool sent = !all.has_sending || of_sending == GV_SEND_STATE_DATA_RECVD || of_sending == GV_SEND_STATE_RESET_RECVD;
    bool read = !all.has_receiving || of_receiving == GV_RECV_STATE_DATA_READ || of_receiving == GV_RECV_STATE_RESET_READ;
    check(names(gv_next_ended, ends[side], stream) == (sent && read), "a stream is over where its halves are");
  }
  return all;
}

static void print_size(const char *what, bool is_known, uint64_t size) {
  if (is_known) {
    print(" %s %" PRIu64, what, size);
  } else {
    print(" %s none", what);
  }
}

static bool print_lane(uint64_t stream, int side) {
  lane from = report_of(side, stream), to = report_of(1 - side, stream);
  bool has_from = from.has_sending, has_to = to.has_receiving;
  if (!has_from && !has_to) return false;
  print("lane %c %" PRIu64 " written %" PRIu64, "AB"[side], stream, has_from ? from.sending.written : 0);
  print(" read %" PRIu64, has_to ? to.receiving.read_count : 0);
  print(" received %s", has_from && from.sending.state == GV_SEND_STATE_DATA_RECVD ? "yes" : "no");
  print_size("declared", has_from && from.sending.has_final_size, from.sending.final_size);
  print_size("known", has_to && to.receiving.has_final_size, to.receiving.final_size);
  print("\n");
  return true;
}

static void report(void) {
  bool some = true;
  for (uint64_t first = 0; some; first += 4) {
    some = false;
    for (uint64_t stream = first; stream < first + 4; stream++) {
      bool of_a = print_lane(stream, 0), of_b = print_lane(stream, 1);
      some = some || of_a || of_b;
    }
  }
  for (int side = 0; side < 2; side++) {
    uint64_t spent = 0, granted = 0, stored = 0;
    gv_closing_info closing = {.size = sizeof closing};
    check(gv_spent(ends[side], &spent) == GV_OK, "spent");
    check(gv_granted(ends[side], &granted) == GV_OK, "granted");
    check(gv_stored(ends[side], &stored) == GV_OK, "stored");
    check(stored <= granted && spent <= granted, "all within credit");
    print("end %c spent %" PRIu64 " granted %" PRIu64 " stored %" PRIu64, "AB"[side], spent, granted, stored);
    if (gv_closing(ends[side], &closing) == GV_OK) {
      print(" ");
      print_closing(closing);
    }
    print("\n");
  }
}

static uint8_t digit(char c) {
  if (c >= '0' && c <= '9') return (uint8_t)(c - '0');
  if (c >= 'a' && c <= 'f') return (uint8_t)(c - 'a' + 10);
  fail("no hex");
  return 0;
}

static size_t unhex(const char *word, uint8_t *bytes) {
  size_t len = strlen(word) / 2;
  if (strcmp(word, "-") == 0) return 0;
  if (len > MOST) fail("a write that is too long");
  for (size_t i = 0; i < len; i++) bytes[i] = (uint8_t)(16 * digit(word[2 * i]) + digit(word[2 * i + 1]));
  return len;
}

static uint64_t number_of(const char *word) { return word == NULL ? 0 : strtoull(word, NULL, 10); }

/* Plays a line; false where its packet wasn't made. */
static bool play(char *words[WORDS]) {
  static uint8_t bytes[MOST];
  int side = strcmp(words[1], "B") == 0;
  gv_endpoint *end = ends[side];
  const char *word = words[0];
  uint64_t number = number_of(words[2]), second = number_of(words[3]);
  for (int i = 0; i < WORDS && words[i] != NULL; i++) print(i == 0 ? "%s" : " %s", words[i]);
  print(" -> ");
  if (strcmp(word, "open") == 0) {
    open_stream(end, words[2]);
  } else if (strcmp(word, "accept") == 0) {
    accept_stream(end);
  } else if (strcmp(word, "write") == 0) {
    write_stream(end, number, bytes, unhex(words[3], bytes));
  } else if (strcmp(word, "finish") == 0) {
    print("%s", name_of(gv_finish(end, number)));
  } else if (strcmp(word, "reset") == 0) {
    print("%s", name_of(gv_reset(end, number, second)));
  } else if (strcmp(word, "stop") == 0) {
    print("%s", name_of(gv_stop(end, number, second)));
  } else if (strcmp(word, "read") == 0) {
    read_stream(end, number, (size_t)second);
  } else if (strcmp(word, "make") == 0) {
    make_packet(side, (size_t)number);
  } else if (strcmp(word, "lose") == 0) {
    lose_packet(end, number);
  } else if (strcmp(word, "claim") == 0) {
    claim_number(side);
  } else if (strcmp(word, "deliver") == 0) {
    if (number >= made_count[side]) return false;
    deliver(side, number);
  } else {
    fail("no event");
  }
  print("\n");
  return true;
}

static char *read_all(FILE *file) {
  size_t len = 0, room = 65536;
  char *all = more(NULL, room);
  for (size_t count; (count = fread(all + len, 1, room - len - 1, file)) > 0;) {
    len += count;
    if (len + 1 == room) all = more(all, room *= 2);
  }
  all[len] = 0;
  return all;
}

/* The words of a line, each ended by a zero; false where it has none. */
static bool split(char *line, char *words[WORDS]) {
  int count = 0;
  for (char *at = line; count < WORDS - 1;) {
    at += strspn(at, " ");
    if (*at == 0) break;
    words[count++] = at;
    at += strcspn(at, " ");
    if (*at != 0) *at++ = 0;
  }
  words[count] = NULL;
  return count > 0 && words[0][0] != '#';
}

static void start(uint64_t grant, uint64_t lifetime) {
  gv_settings settings = {sizeof settings, 4096, 1024, 1024, 1024, 2048, grant, grant, lifetime, lifetime};
  gv_limits limits = {sizeof limits, 4096, 1024, 1024, 1024, grant, grant};
  check(gv_endpoint_new(GV_ROLE_CLIENT, &settings, &limits, &ends[0]) == GV_OK, "the client");
  check(gv_endpoint_new(GV_ROLE_SERVER, &settings, &limits, &ends[1]) == GV_OK, "the server");
}

static void finish(char *script) {
  for (int side = 0; side < 2; side++) {
    gv_endpoint_free(ends[side]);
    for (uint64_t i = 0; i < made_count[side]; i++) free(made[side][i].bytes);
    free(made[side]);
  }
  free(script);
  free(text);
}

/* play [GRANT LIFETIME] <SCRIPT */
int main(int count, char **arguments) {
  char *script = read_all(stdin);
  uint64_t event = 0;
  bool is_played = true;
  start(count > 2 ? number_of(arguments[1]) : 8, count > 2 ? number_of(arguments[2]) : 8);
  for (char *line = script; is_played && *line != 0;) {
    char *words[WORDS], *next = line + strcspn(line, "\n");
    if (*next != 0) *next++ = 0;
    if (split(line, words)) {
      event++;
      is_played = play(words);
    }
    line = next;
  }
  if (is_played) {
    report();
    fputs(text, stdout);
  } else {
    printf("fault: no such packet at event %" PRIu64 "\n", event);
  }
  finish(script);
  return is_played ? 0 : 1;
}

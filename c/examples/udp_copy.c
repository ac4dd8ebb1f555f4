/* Sends a file to another process over UDP on the loopback, on a stream of Gotsavena: `udp_copy receive FILE PORT`, then `udp_copy send
 * FILE HOST PORT`.
 *
 * It is an example and no transport: nothing is protected, nobody is authenticated, and there is no handshake and no congestion
 * control. Whoever can send to the port can write the file, or end the transfer.
 *
 * A datagram is a packet's number, in eight bytes with the most significant first, and its payload. What a transport adds beneath the
 * stream layer is here in its smallest form: a packet is lost once three later ones are acknowledged (RFC 9002, section 6.1.1), or
 * when nothing came for a while (section 6.2), and at most WINDOW packets are in flight.
 *
 * --lose N, --repeat N and --reorder N, before the other words, have so many of a hundred outgoing datagrams lost, sent twice, or held
 * back behind the next one. */
#define _POSIX_C_SOURCE 200809L
#include <arpa/inet.h>
#include <errno.h>
#include <netinet/in.h>
#include <poll.h>
#include <stdio.h>
#include <stdlib.h>
#include <string.h>
#include <sys/socket.h>
#include <time.h>
#include <unistd.h>

#include "gotsavena.h"

/* Sizes in bytes, times in milliseconds. */
enum { ROOM = 1200, HEADER = 8, WINDOW = 64, THRESHOLD = 3, BLOCK = 65536, PROBE = 20, LINGER = 200, PATIENCE = 5000 };

typedef struct wire {
  int socket;
  bool has_peer;
  struct sockaddr_in peer;
  uint8_t held[HEADER + ROOM]; /* a datagram that goes behind the next one */
  size_t held_len;
  unsigned lose, repeat, reorder; /* of a hundred */
  uint64_t random;
} wire;

typedef struct session {
  gv_endpoint *end;
  wire *wire;
  uint64_t in_flight[WINDOW]; /* numbers of packets that ask for an ACK, oldest first */
  size_t count;
} session;

static void fail(const char *what) {
  fprintf(stderr, "udp_copy: %s\n", what);
  exit(1);
}

static void want(gv_status status, gv_status wanted, const char *what) {
  if (status != wanted) {
    fprintf(stderr, "udp_copy: %s: %s\n", what, gv_strerror(status));
    exit(1);
  }
}

static uint64_t now(void) { /* in milliseconds */
  struct timespec time;
  if (clock_gettime(CLOCK_MONOTONIC, &time) != 0) fail("no clock");
  return (uint64_t)time.tv_sec * 1000 + (uint64_t)time.tv_nsec / 1000000;
}

static bool happens(wire *wire, unsigned of_a_hundred) {
  wire->random = wire->random * UINT64_C(6364136223846793005) + UINT64_C(1442695040888963407);
  return (wire->random >> 33) % 100 < of_a_hundred;
}

/* A datagram that the system doesn't take is lost. */
static void put(wire *wire, const uint8_t *bytes, size_t len) {
  (void)sendto(wire->socket, bytes, len, 0, (const struct sockaddr *)&wire->peer, sizeof wire->peer);
}

static void flush(wire *wire) {
  if (wire->held_len > 0) put(wire, wire->held, wire->held_len);
  wire->held_len = 0;
}

static void transmit(wire *wire, const uint8_t *bytes, size_t len) {
  if (happens(wire, wire->lose)) return;
  if (wire->held_len == 0 && happens(wire, wire->reorder)) {
    memcpy(wire->held, bytes, len);
    wire->held_len = len;
    return;
  }
  put(wire, bytes, len);
  if (happens(wire, wire->repeat)) put(wire, bytes, len);
  flush(wire);
}

/* Waits so long for a datagram; 0 where none came. */
static size_t take(wire *wire, uint8_t *bytes, size_t room, int milliseconds) {
  struct pollfd wait = {wire->socket, POLLIN, 0};
  struct sockaddr_in from;
  socklen_t from_len = sizeof from;
  if (poll(&wait, 1, milliseconds) <= 0) return 0;
  ssize_t len = recvfrom(wire->socket, bytes, room, 0, (struct sockaddr *)&from, &from_len);
  if (len <= HEADER) return 0;
  if (!wire->has_peer) {
    wire->peer = from;
    wire->has_peer = true;
  }
  if (from.sin_port != wire->peer.sin_port || from.sin_addr.s_addr != wire->peer.sin_addr.s_addr) return 0;
  return (size_t)len;
}

static bool is_outstanding(session *s, uint64_t number) {
  uint64_t found;
  return gv_next_outstanding(s->end, number, &found) == GV_OK && found == number;
}

/* Sends what may go. What an ACK alone holds may go where the window is full. */
static void send_all(session *s) {
  uint8_t bytes[HEADER + ROOM];
  gv_made made = {.size = sizeof made};
  if (!s->wire->has_peer) return;
  for (;;) {
    gv_status status = s->count < WINDOW ? gv_make_packet(s->end, bytes + HEADER, ROOM, &made)
                                         : gv_make_ack(s->end, 0, bytes + HEADER, ROOM, &made);
    if (status == GV_NONE) return;
    want(status, GV_OK, "make");
    for (int i = 0; i < HEADER; i++) bytes[i] = (uint8_t)(made.number >> (56 - 8 * i));
    if (made.is_ack_eliciting) s->in_flight[s->count++] = made.number;
    transmit(s->wire, bytes, HEADER + made.len);
  }
}

static void lose(session *s, uint64_t number) { want(gv_declare_lost(s->end, number), GV_OK, "lose"); }

/* Packets that are acknowledged leave the flight, and those that lie THRESHOLD packets before one are lost. */
static void look_for_losses(session *s) {
  size_t kept = 0, newest = 0;
  for (size_t i = 0; i < s->count; i++)
    if (!is_outstanding(s, s->in_flight[i])) newest = i;
  for (size_t i = 0; i < s->count; i++) {
    uint64_t number = s->in_flight[i];
    if (!is_outstanding(s, number)) continue;
    if (number + THRESHOLD <= s->in_flight[newest]) {
      lose(s, number);
    } else {
      s->in_flight[kept++] = number;
    }
  }
  s->count = kept;
}

/* Nothing came for a while: what is in flight goes again. */
static void probe(session *s) {
  for (size_t i = 0; i < s->count; i++)
    if (is_outstanding(s, s->in_flight[i])) lose(s, s->in_flight[i]);
  s->count = 0;
  flush(s->wire);
}

/* Takes datagrams in; false where none came. */
static bool receive_all(session *s, int milliseconds) {
  uint8_t bytes[65536];
  size_t len;
  bool some = false;
  while ((len = take(s->wire, bytes, sizeof bytes, some ? 0 : milliseconds)) > 0) {
    uint64_t number = 0;
    for (int i = 0; i < HEADER; i++) number = number << 8 | bytes[i];
    gv_status status = gv_receive(s->end, number, bytes + HEADER, len - HEADER);
    if (status != GV_DUPLICATE && status != GV_TOO_OLD && status != GV_INVALID) want(status, GV_OK, "receive");
    some = true;
  }
  return some;
}

/* One turn: what may go goes, what comes is taken in. Where nothing comes for PATIENCE the transfer fails, or ends with `false`. */
static bool turn(session *s, uint64_t *heard, bool may_end) {
  send_all(s);
  if (receive_all(s, PROBE)) {
    *heard = now();
    look_for_losses(s);
    return true;
  }
  if (s->wire->has_peer) probe(s);
  if (now() - *heard < PATIENCE) return true;
  if (!may_end) fail("the peer is gone");
  return false;
}

static session start(gv_role role, wire *wire) {
  gv_settings settings;
  gv_limits limits = {.size = sizeof limits};
  session s = {NULL, wire, {0}, 0};
  want(gv_settings_init(&settings, sizeof settings), GV_OK, "settings");
  want(gv_limits_of(&settings, &limits), GV_OK, "limits");
  want(gv_endpoint_new(role, &settings, &limits, &s.end), GV_OK, "new");
  return s;
}

typedef struct source {
  FILE *file;
  uint8_t block[BLOCK];
  size_t from, len; /* what of the block is still to be written */
  bool is_finished;
} source;

static void next_block(source *in) {
  in->from = 0;
  in->len = fread(in->block, 1, sizeof in->block, in->file);
  if (ferror(in->file)) fail("the file can't be read");
}

/* Writes to the stream what it takes, and finishes it at the file's end. */
static void fill(session *s, uint64_t stream, source *in) {
  while (!in->is_finished) {
    size_t count = 0;
    if (in->from == in->len) next_block(in);
    if (in->len == 0) {
      want(gv_finish(s->end, stream), GV_OK, "finish");
      in->is_finished = true;
      return;
    }
    want(gv_write(s->end, stream, in->block + in->from, in->len - in->from, &count), GV_OK, "write");
    if (count == 0) return;
    in->from += count;
  }
}

static void send_file(FILE *file, wire *wire) {
  static source in;
  session s = start(GV_ROLE_CLIENT, wire);
  uint64_t stream, over, heard = now();
  in.file = file;
  want(gv_open(s.end, GV_DIR_UNI, &stream, NULL), GV_OK, "open");
  while (gv_next_ended(s.end, stream, &over) != GV_OK) {
    fill(&s, stream, &in);
    (void)turn(&s, &heard, false);
  }
  gv_endpoint_free(s.end);
}

static void receive_file(FILE *file, wire *wire) {
  static uint8_t block[BLOCK];
  session s = start(GV_ROLE_SERVER, wire);
  const uint64_t stream = 2; /* the client's first unidirectional one */
  uint64_t heard = now(), ended = 0;
  size_t count;
  for (bool goes_on = true; goes_on;) {
    gv_status status;
    while ((status = gv_read(s.end, stream, block, sizeof block, &count, NULL)) == GV_OK)
      if (fwrite(block, 1, count, file) != count) fail("the file can't be written");
    if (status == GV_END_OF_STREAM && ended == 0) ended = now();
    if (status != GV_NO_SUCH_STREAM && status != GV_NOTHING_YET) want(status, GV_END_OF_STREAM, "read");
    goes_on = turn(&s, &heard, ended != 0);
    /* The last ACK may be lost, so the end stays a while, as long as the sender is heard of. */
    if (ended != 0 && now() - heard > LINGER) goes_on = false;
  }
  gv_endpoint_free(s.end);
}

static int bound(uint16_t port) {
  struct sockaddr_in here = {.sin_family = AF_INET, .sin_port = htons(port), .sin_addr = {htonl(INADDR_LOOPBACK)}};
  int made = socket(AF_INET, SOCK_DGRAM, 0), size = 1 << 22;
  if (made < 0) fail("no socket");
  (void)setsockopt(made, SOL_SOCKET, SO_RCVBUF, &size, sizeof size);
  if (bind(made, (const struct sockaddr *)&here, sizeof here) != 0) fail(strerror(errno));
  return made;
}

static unsigned long number(const char *word, unsigned long most) {
  char *end;
  unsigned long found = strtoul(word, &end, 10);
  if (*word == 0 || *end != 0 || found > most) fail("a number out of its range");
  return found;
}

static int usage(void) {
  fputs("udp_copy [--lose N] [--repeat N] [--reorder N] send FILE HOST PORT | receive FILE PORT\n", stderr);
  return 2;
}

int main(int count, char **words) {
  wire wire = {.random = 7};
  int at = 1;
  for (; at + 1 < count && strncmp(words[at], "--", 2) == 0; at += 2) {
    unsigned share = (unsigned)number(words[at + 1], 99);
    if (strcmp(words[at], "--lose") == 0) wire.lose = share;
    else if (strcmp(words[at], "--repeat") == 0) wire.repeat = share;
    else if (strcmp(words[at], "--reorder") == 0) wire.reorder = share;
    else return usage();
  }
  bool sends = count - at == 4 && strcmp(words[at], "send") == 0;
  if (!sends && !(count - at == 3 && strcmp(words[at], "receive") == 0)) return usage();
  FILE *file = fopen(words[at + 1], sends ? "rb" : "wb");
  if (file == NULL) fail(strerror(errno));
  uint16_t port = (uint16_t)number(words[count - 1], 65535);
  if (sends) {
    wire.has_peer = true;
    wire.peer.sin_family = AF_INET;
    wire.peer.sin_port = htons(port);
    if (inet_pton(AF_INET, words[at + 2], &wire.peer.sin_addr) != 1) fail("HOST is an IPv4 address");
    wire.socket = bound(0);
    send_file(file, &wire);
  } else {
    wire.socket = bound(port);
    receive_file(file, &wire);
  }
  (void)close(wire.socket);
  if (fclose(file) != 0) fail("the file can't be written");
  return 0;
}

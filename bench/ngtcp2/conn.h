/* Two connections of ngtcp2 in one process, by its public calls, with an empty handshake and a packet protection that changes nothing. */
#ifndef BENCH_NGTCP2_CONN_H
#define BENCH_NGTCP2_CONN_H

#include <ngtcp2/ngtcp2.h>

#include "../c/rows.h"

/* Called when bytes arrived, and when bytes were acknowledged up to an offset. */
struct owner {
  void (*came)(void *self, int64_t stream, uint64_t offset, const uint8_t *bytes, size_t len);
  void (*acked)(void *self, int64_t stream, uint64_t end);
  void *self;
};

struct conn {
  ngtcp2_conn *at;
  struct conn *peer;
  struct owner owner;
  bool is_server;
};

struct conns {
  struct conn client;
  struct conn server;
  ngtcp2_tstamp time; /* in nanoseconds */
};

/* The windows of the connection and of a stream, the longest packet, and how many packets arrive before an ACK. */
struct terms {
  uint64_t conn_window;
  uint64_t window;
  size_t packet;
  size_t ack_after;
};

/* Makes both, and delivers packets until the handshake is over and nothing is left to send. */
void conns_new(struct conns *conns, const struct terms *terms);
void conns_free(struct conns *conns);

/* Makes a packet, with bytes of a stream unless that is -1, and returns its length, or 0 if there is nothing to send. *taken is the
 * number of those bytes in it. */
size_t make_packet(struct conns *conns, struct conn *conn, uint8_t *packet, size_t room, int64_t stream, const uint8_t *bytes,
                   size_t len, size_t *taken);

void take_packet(struct conns *conns, struct conn *conn, const uint8_t *packet, size_t len);

#endif

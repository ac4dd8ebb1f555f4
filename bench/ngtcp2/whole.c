#include "whole.h"

#include <stdlib.h>
#include <string.h>

#include "conn.h"

/* The bytes of a packet around its payload: a first byte, a connection ID of 8, a number of up to 4 and a tag of 16. */
enum { AROUND = 29, KEPT = 1 << 20, LONGEST = 65536 };

struct load {
  uint64_t window;
  size_t write;
  size_t burst;
  uint64_t total;
  size_t room;
};

/* A stream's bytes at its sender, which must keep them itself until they are acknowledged, and at its reader. */
struct transfer {
  struct conns conns;
  struct load load;
  uint8_t *kept;
  uint8_t *out;
  uint8_t *packets;
  size_t *lens;
  int64_t stream;
  uint64_t given;
  uint64_t sent;
  uint64_t acked;
  uint64_t taken;
  uint64_t made;
};

static void came(void *self, int64_t stream, uint64_t offset, const uint8_t *bytes, size_t len) {
  struct transfer *transfer = self;
  want(stream == transfer->stream && offset == transfer->taken && len <= LONGEST, "other bytes come out than went in");
  memcpy(transfer->out, bytes, len);
  look_at(transfer->out);
  check(offset, transfer->out, len);
  transfer->taken += len;
}

static void acked(void *self, int64_t stream, uint64_t end) {
  struct transfer *transfer = self;
  (void)stream;
  if (end > transfer->acked) transfer->acked = end;
}

/* Buffers up to 256 KiB of what is written, as our endpoint does. */
static void fill(struct transfer *transfer) {
  size_t each = transfer->load.write, most = transfer->load.window < KEPT ? (size_t)transfer->load.window : KEPT;
  for (size_t times = (256 << 10) / each + 1; times > 0; --times) {
    size_t left = most - (size_t)(transfer->given - transfer->acked);
    size_t count = left < each ? left : each, at = (size_t)(transfer->given % KEPT), first = count < KEPT - at ? count : KEPT - at;
    const uint8_t *bytes = source_at(transfer->given);
    memcpy(transfer->kept + at, bytes, first);
    memcpy(transfer->kept, bytes + first, count - first);
    transfer->given += count;
    if (count < each) break;
  }
}

/* Makes a burst of packets, and delivers them. */
static void carry(struct transfer *transfer) {
  struct conns *conns = &transfer->conns;
  size_t room = transfer->load.room + AROUND, count = 0;
  while (count < transfer->load.burst) {
    size_t at = (size_t)(transfer->sent % KEPT), len = (size_t)(transfer->given - transfer->sent), taken = 0;
    if (len > KEPT - at) len = KEPT - at;
    if (len == 0) break;
    transfer->lens[count] = make_packet(conns, &conns->client, transfer->packets + count * room, room, transfer->stream,
                                        transfer->kept + at, len, &taken);
    if (transfer->lens[count] == 0) break;
    transfer->sent += taken;
    ++count;
  }
  for (size_t i = 0; i < count; ++i) take_packet(conns, &conns->server, transfer->packets + i * room, transfer->lens[i]);
  transfer->made += count;
}

/* Delivers the reader's ACKs and limits to the sender. */
static void answer(struct transfer *transfer) {
  struct conns *conns = &transfer->conns;
  size_t room = transfer->load.room + AROUND, taken = 0, len;
  while ((len = make_packet(conns, &conns->server, transfer->packets, room, -1, NULL, 0, &taken)) > 0) {
    take_packet(conns, &conns->client, transfer->packets, len);
  }
  conns->time += 1000000;
}

static void begin(struct transfer *transfer) {
  size_t room = transfer->load.room + AROUND;
  struct terms terms = {16 << 20, transfer->load.window, room, transfer->load.burst};
  struct owner sender = {NULL, acked, transfer}, reader = {came, NULL, transfer};
  transfer->conns.client.owner = sender;
  transfer->conns.server.owner = reader;
  conns_new(&transfer->conns, &terms);
  want(ngtcp2_conn_open_uni_stream(transfer->conns.client.at, &transfer->stream, NULL) == 0, "a stream can't be opened");
  transfer->kept = room_of(KEPT, 1);
  transfer->out = room_of(LONGEST, 1);
  transfer->packets = room_of(transfer->load.burst, room);
  transfer->lens = room_of(transfer->load.burst, sizeof *transfer->lens);
}

static struct run run_of(struct load load) {
  struct transfer *transfer = room_of(1, sizeof *transfer);
  transfer->load = load;
  begin(transfer);
  uint64_t turns = 0;
  double before = now();
  while (transfer->taken < load.total) {
    uint64_t made = transfer->made;
    fill(transfer);
    carry(transfer);
    answer(transfer);
    turns = transfer->made == made ? turns + 1 : 0;
    want(turns < 1000, "the loop stands still");
  }
  struct run run = {now() - before, (double)transfer->made};
  want(run.units * (double)load.room < 1.1 * (double)load.total, "packets aren't filled");
  conns_free(&transfer->conns);
  free(transfer->kept);
  free(transfer->out);
  free(transfer->packets);
  free(transfer->lens);
  free(transfer);
  return run;
}

struct run loop(size_t kind) {
  struct load load = {1 << 20, 16 << 10, 10, 128 << 20, 1200};
  if (kind == LOOP_ACK_EACH_2) load.burst = 2;
  if (kind == LOOP_WINDOW_64K) load.window = 64 << 10;
  if (kind == LOOP_WRITES_1200) load.write = 1200;
  if (kind == LOOP_WRITES_1200) load.total = 64 << 20;
  if (kind == LOOP_PACKETS_16383) load.room = 16383;
  return run_of(load);
}

#include "ends.h"

#include <stdlib.h>

/* An endpoint may open 4,096 streams of a direction, so above that count half of them are bidirectional. */
enum { MOST_OF_A_DIRECTION = 4096, OUT = 1 << 16 };

struct load plain(void) {
  struct load load = {1, 1, 1 << 20, 16 << 10, 10, 0, 128 << 20, 1200, 256 << 10};
  return load;
}

gv_settings settings_of(uint64_t conn_window, uint64_t window, size_t send_buffer, uint64_t streams) {
  gv_settings settings = {sizeof settings, conn_window, window, window, window, send_buffer, streams, streams, 1 << 16, 1 << 16};
  return settings;
}

gv_limits limits_of(const gv_settings *settings) {
  gv_limits limits = {.size = sizeof limits};
  want(gv_limits_of(settings, &limits) == GV_OK, "limits can't be made");
  return limits;
}

gv_endpoint *end_of(gv_role role, const gv_settings *settings) {
  gv_limits limits = limits_of(settings);
  gv_endpoint *end = NULL;
  want(gv_endpoint_new(role, settings, &limits, &end) == GV_OK, "an end can't be made");
  return end;
}

struct pair *pair_new(struct load load) {
  struct pair *pair = room_of(1, sizeof *pair);
  gv_settings settings = settings_of(16 << 20, load.window, (size_t)load.window, MOST_OF_A_DIRECTION);
  pair->load = load;
  pair->sender = end_of(GV_ROLE_CLIENT, &settings);
  pair->reader = end_of(GV_ROLE_SERVER, &settings);
  pair->streams = room_of(load.active, sizeof *pair->streams);
  pair->given = room_of(load.active, sizeof *pair->given);
  pair->taken = room_of(load.active, sizeof *pair->taken);
  pair->packets = room_of(load.burst, sizeof *pair->packets);
  pair->payloads = room_of(load.burst, load.room);
  pair->lost = room_of(load.burst, sizeof *pair->lost);
  pair->out = room_of(OUT, 1);
  for (size_t i = 0; i < load.burst; ++i) {
    pair->packets[i].bytes = pair->payloads + i * load.room;
    pair->packets[i].made.size = sizeof pair->packets[i].made;
  }
  for (size_t i = 0; i < load.open; ++i) {
    uint64_t stream = 0;
    want(gv_open(pair->sender, i < MOST_OF_A_DIRECTION ? GV_DIR_UNI : GV_DIR_BIDI, &stream, NULL) == GV_OK, "a stream can't be opened");
    if (i < load.active) pair->streams[i] = stream;
  }
  return pair;
}

void pair_free(struct pair *pair) {
  gv_endpoint_free(pair->sender);
  gv_endpoint_free(pair->reader);
  free(pair->streams);
  free(pair->given);
  free(pair->taken);
  free(pair->packets);
  free(pair->payloads);
  free(pair->lost);
  free(pair->out);
  free(pair);
}

/* Fills the send buffers of the active streams, up to what the load asks for. */
void pair_write(struct pair *pair) {
  size_t each = pair->load.write, times = pair->load.fill / each / pair->load.active + 1;
  for (size_t i = 0; i < pair->load.active; ++i) {
    for (size_t k = 0; k < times; ++k) {
      size_t count = 0;
      gv_write(pair->sender, pair->streams[i], source_at(pair->given[i]), each, &count);
      pair->given[i] += count;
      pair->written += count;
      if (count < each) break;
    }
  }
}

void receive(gv_endpoint *end, uint64_t number, const uint8_t *payload, size_t len) {
  want(gv_receive(end, number, payload, len) == GV_OK, "an honest packet is refused");
}

/* Makes a burst of packets, loses some, and delivers the others. */
void pair_carry(struct pair *pair) {
  size_t count = 0;
  while (count < pair->load.burst) {
    struct packet *packet = &pair->packets[count];
    if (gv_make_packet(pair->sender, packet->bytes, pair->load.room, &packet->made) != GV_OK) break;
    ++count;
  }
  for (size_t i = 0; i < count; ++i) {
    const struct packet *packet = &pair->packets[i];
    ++pair->made;
    if (pair->load.lose > 0 && pair->made % pair->load.lose == 0) {
      pair->lost[pair->lost_count++] = packet->made.number;
    } else {
      receive(pair->reader, packet->made.number, packet->bytes, packet->made.len);
    }
  }
}

/* Reads what arrived on each active stream and returns the number of bytes. */
uint64_t pair_read(struct pair *pair) {
  uint64_t stream = 0, count = 0;
  while (gv_accept(pair->reader, &stream) == GV_OK) {
  }
  for (size_t i = 0; i < pair->load.active; ++i) {
    size_t some = 0;
    while (gv_read(pair->reader, pair->streams[i], pair->out, OUT, &some, NULL) == GV_OK) {
      check(pair->taken[i], pair->out, some);
      pair->taken[i] += some;
      count += some;
    }
  }
  return count;
}

/* Delivers the reader's next packet to the sender, then declares the losses. */
void pair_answer(struct pair *pair) {
  gv_made made = {.size = sizeof made};
  if (gv_make_packet(pair->reader, pair->payloads, pair->load.room, &made) == GV_OK) {
    receive(pair->sender, made.number, pair->payloads, made.len);
  }
  /* If the packet was sent again, an ACK of it may have arrived already. */
  for (size_t i = 0; i < pair->lost_count; ++i) gv_declare_lost(pair->sender, pair->lost[i]);
  pair->lost_count = 0;
}

void hand_on(gv_endpoint *from, gv_endpoint *to) {
  uint8_t payload[1200];
  gv_made made = {.size = sizeof made};
  while (gv_make_packet(from, payload, sizeof payload, &made) == GV_OK) receive(to, made.number, payload, made.len);
}

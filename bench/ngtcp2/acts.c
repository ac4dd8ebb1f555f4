#include "acts.h"

#include <stdio.h>
#include <stdlib.h>
#include <string.h>

#include "conn.h"

enum { BYTES = 1000, ROOM = 1200, TIMES = 1000 };

/* A packet that is under way. */
struct packet {
  uint8_t bytes[ROOM];
  size_t len;
};

/* Two connections and a stream between them. The sender's owner keeps the bytes, and the reader's copies them out. */
struct scene {
  struct conns conns;
  int64_t stream;
  uint64_t given;
  uint64_t taken;
  uint8_t kept[BYTES];
  uint8_t out[BYTES];
  struct packet packet;
  struct packet answer;
};

static void came(void *self, int64_t stream, uint64_t offset, const uint8_t *bytes, size_t len) {
  struct scene *scene = self;
  want(stream == scene->stream && offset == scene->taken && len <= BYTES, "other bytes come out than went in");
  memcpy(scene->out, bytes, len);
  look_at(scene->out);
  scene->taken += len;
}

static void act_made(struct scene *scene) {
  struct packet *packet = &scene->packet;
  size_t taken = 0;
  memcpy(scene->kept, source_at(scene->given), BYTES);
  packet->len = make_packet(&scene->conns, &scene->conns.client, packet->bytes, ROOM, scene->stream, scene->kept, BYTES, &taken);
  want(taken == BYTES, "bytes can't be sent");
  scene->given += BYTES;
}

static void act_taken(struct scene *scene) {
  take_packet(&scene->conns, &scene->conns.server, scene->packet.bytes, scene->packet.len);
}

static void act_acked(struct scene *scene) {
  take_packet(&scene->conns, &scene->conns.client, scene->answer.bytes, scene->answer.len);
}

static bool answers(struct scene *scene) {
  struct packet *answer = &scene->answer;
  size_t taken = 0;
  answer->len = make_packet(&scene->conns, &scene->conns.server, answer->bytes, ROOM, -1, NULL, 0, &taken);
  return answer->len > 0;
}

/* callgrind finds this function by its name. */
void gotsavena_counted(void (*play)(struct scene *), struct scene *scene);
__attribute__((noinline)) void gotsavena_counted(void (*play)(struct scene *), struct scene *scene) {
  play(scene);
  /* So that it returns here, and isn't jumped to. */
  look_at(scene);
}

static const struct {
  const char *name;
  void (*play)(struct scene *scene);
} acts[] = {{"made", act_made}, {"taken", act_taken}, {"acked", act_acked}};

enum { ACTS = sizeof acts / sizeof *acts };

static void play(struct scene *scene, size_t counted) {
  for (size_t i = 0; i < ACTS; ++i) {
    if (acts[i].play == act_acked) want(answers(scene), "a packet isn't acknowledged");
    if (i == counted) {
      gotsavena_counted(acts[i].play, scene);
    } else {
      acts[i].play(scene);
    }
  }
  while (answers(scene)) act_acked(scene);
  scene->conns.time += 1000000;
}

int count_act(const char *name) {
  size_t counted = 0;
  while (counted < ACTS && strcmp(acts[counted].name, name) != 0) ++counted;
  if (counted == ACTS) {
    fprintf(stderr, "driver: there is no act %s\n", name);
    return 2;
  }
  struct scene *scene = room_of(1, sizeof *scene);
  struct terms terms = {1 << 20, 1 << 16, ROOM, 1};
  struct owner reader = {came, NULL, scene};
  scene->conns.server.owner = reader;
  conns_new(&scene->conns, &terms);
  want(ngtcp2_conn_open_bidi_stream(scene->conns.client.at, &scene->stream, NULL) == 0, "a stream can't be opened");
  for (size_t i = 0; i < 100; ++i) play(scene, ACTS);
  for (size_t i = 0; i < TIMES; ++i) play(scene, counted);
  printf("%d\n", TIMES);
  conns_free(&scene->conns);
  free(scene);
  return 0;
}

#include "acts.h"

#include <stdio.h>
#include <string.h>

#include "ends.h"

enum { BYTES = 1000, ROOM = 1200, TIMES = 1000 };

/* Two endpoints, a stream between them, and the packet in flight. */
struct scene {
  gv_endpoint *client;
  gv_endpoint *server;
  uint64_t stream;
  uint8_t payload[ROOM];
  gv_filled filled;
};

static void act_write(struct scene *scene) {
  size_t count = 0;
  want(gv_write(scene->client, scene->stream, source_at(0), BYTES, &count) == GV_OK && count == BYTES, "bytes can't be written");
}

static gv_status fill(gv_endpoint *end, struct scene *scene) {
  gv_fill_request all = {.size = sizeof all, .items = true, .streams = true};
  scene->filled.size = sizeof scene->filled;
  return gv_fill(end, &all, scene->payload, ROOM, &scene->filled);
}

static void act_fill(struct scene *scene) { want(fill(scene->client, scene) == GV_OK, "bytes are due"); }

static void take(gv_endpoint *end, const struct scene *scene) {
  gv_frames frames = {scene->payload, scene->filled.len, 0};
  gv_frame frame = {.size = sizeof frame};
  gv_fault fault = {.size = sizeof fault};
  gv_taken taken = GV_TAKEN_UNCHANGED;
  while (gv_frames_next(&frames, &frame, &fault) == GV_OK) want(gv_take_frame(end, &frame, &taken) == GV_OK, "an honest frame is refused");
}

static void act_take(struct scene *scene) { take(scene->server, scene); }

static void act_consume(struct scene *scene) {
  gv_peeked peeked = {.size = sizeof peeked};
  size_t count = 0;
  bool at_end = false;
  want(gv_peek(scene->server, scene->stream, &peeked, NULL) == GV_OK, "bytes are there");
  look_at(&peeked);
  want(gv_consume(scene->server, scene->stream, BYTES, &count, &at_end, NULL) == GV_OK && count == BYTES, "other bytes come out than went in");
}

static void acked(gv_endpoint *end, const struct scene *scene) {
  want(gv_token_acked(end, &scene->filled.token) == GV_OK, "it was filled");
}

static void act_ack(struct scene *scene) { acked(scene->client, scene); }

static void act_no_event(struct scene *scene) {
  gv_event event = {.size = sizeof event};
  want(gv_next_event(scene->client, &event) == GV_NONE, "there is no news");
}

static const struct {
  const char *name;
  void (*play)(struct scene *scene);
} acts[] = {
    {"write", act_write}, {"fill", act_fill}, {"take", act_take}, {"consume", act_consume}, {"ack", act_ack}, {"no-event", act_no_event},
};

/* Not counted: the server's credit goes back to the client, and its events are taken. */
static void settle(struct scene *scene) {
  gv_event event = {.size = sizeof event};
  while (gv_next_event(scene->server, &event) == GV_OK) {
  }
  while (fill(scene->server, scene) == GV_OK) {
    take(scene->client, scene);
    acked(scene->server, scene);
  }
}

/* callgrind finds this function by its name. */
void gotsavena_counted(void (*play)(struct scene *), struct scene *scene);
__attribute__((noinline)) void gotsavena_counted(void (*play)(struct scene *), struct scene *scene) {
  play(scene);
  /* Keeps the call above from becoming a tail call, so that callgrind sees a return. */
  look_at(scene);
}

static void play(struct scene *scene, size_t counted) {
  for (size_t i = 0; i < sizeof acts / sizeof *acts; ++i) {
    if (i == counted) {
      gotsavena_counted(acts[i].play, scene);
    } else {
      acts[i].play(scene);
    }
  }
  settle(scene);
}

int count_act(const char *name) {
  size_t count = sizeof acts / sizeof *acts, counted = 0;
  while (counted < count && strcmp(acts[counted].name, name) != 0) ++counted;
  if (counted == count) {
    fprintf(stderr, "driver: there is no act %s\n", name);
    return 2;
  }
  gv_settings settings = settings_of(1 << 20, 1 << 16, 1 << 16, 100);
  struct scene scene = {.client = end_of(GV_ROLE_CLIENT, &settings), .server = end_of(GV_ROLE_SERVER, &settings)};
  want(gv_open(scene.client, GV_DIR_BIDI, &scene.stream, NULL) == GV_OK, "a stream can't be opened");
  for (size_t i = 0; i < 100; ++i) play(&scene, count);
  for (size_t i = 0; i < TIMES; ++i) play(&scene, counted);
  printf("%d\n", TIMES);
  gv_endpoint_free(scene.client);
  gv_endpoint_free(scene.server);
  return 0;
}

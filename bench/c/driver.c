/* The rows of the whole loop over our library for C. */
/* Needed for the heap's figures. */
#define _GNU_SOURCE

#include <malloc.h>
#include <pthread.h>
#include <stdlib.h>
#include <string.h>

#include "acts.h"
#include "ends.h"
#include "payloads.h"

static struct run transfer(struct load load) {
  struct pair *pair = pair_new(load);
  uint64_t read = 0;
  double before = now();
  while (read < load.total) {
    pair_write(pair);
    pair_carry(pair);
    read += pair_read(pair);
    pair_answer(pair);
  }
  struct run run = {now() - before, (double)pair->made};
  pair_free(pair);
  return run;
}

/* Frames, read by the one call that needs no endpoint: STREAM frames of this many bytes, or with 0 the common ones. */
static struct run decode(size_t each) {
  struct payload payload = each == 0 ? mixed() : streams(each);
  uint64_t stream = 0, wanted = each == 0 ? 12 : 5;
  size_t times = 4000000 / payload.frames;
  double before = now();
  for (size_t i = 0; i < times; ++i) {
    look_at(&payload);
    want(gv_last_stream(payload.bytes, payload.len, &stream) == GV_OK && stream == wanted, "the last frame isn't read");
  }
  struct run run = {now() - before, (double)times * (double)payload.frames};
  return run;
}

enum { HOSTILE_WINDOW = 1 << 16, HOSTILE_PACKETS = 1024 };

/* Payloads of one-byte frames at the even offsets of a window, then at the odd ones. Returns the number of packets. */
static size_t hostile_packets(struct payload *packets) {
  size_t last = 0;
  for (uint64_t i = 0; i < HOSTILE_WINDOW; ++i) {
    uint64_t offset = i < HOSTILE_WINDOW / 2 ? 2 * i : 2 * i - HOSTILE_WINDOW + 1;
    if (put_byte_of(&packets[last], 2, offset)) continue;
    want(++last < HOSTILE_PACKETS && put_byte_of(&packets[last], 2, offset), "there are too many packets");
  }
  return last + 1;
}

static struct run hostile(size_t which) {
  static uint8_t out[HOSTILE_WINDOW];
  (void)which;
  struct payload *packets = room_of(HOSTILE_PACKETS, sizeof *packets);
  size_t count = hostile_packets(packets);
  gv_settings settings = settings_of(1 << 20, HOSTILE_WINDOW, HOSTILE_WINDOW, 8);
  gv_endpoint *end = end_of(GV_ROLE_SERVER, &settings);
  double before = now();
  for (size_t i = 0; i < count; ++i) receive(end, i, packets[i].bytes, packets[i].len);
  struct run run = {now() - before, (double)count};
  size_t read = 0;
  want(gv_read(end, 2, out, sizeof out, &read, NULL) == GV_OK && read == sizeof out, "other bytes come out than went in");
  check(0, out, sizeof out);
  gv_endpoint_free(end);
  free(packets);
  return run;
}

/* The whole loop, by the row's place in a list. */
enum kind { PLAIN, ACK_EACH_2, LOST_EACH_100TH, LOST_EACH_10TH, WINDOW_64K, WRITES_1200, WRITES_64, PACKETS_16383 };

static struct run loop(size_t kind) {
  struct load load = plain();
  if (kind == ACK_EACH_2) load.burst = 2;
  if (kind == LOST_EACH_100TH) load.lose = 100;
  if (kind == LOST_EACH_10TH) load.lose = 10;
  if (kind == WINDOW_64K) load.window = 64 << 10;
  if (kind == WRITES_1200 || kind == WRITES_64) load.write = kind == WRITES_64 ? 64 : 1200;
  if (kind == WRITES_1200 || kind == WRITES_64) load.total = kind == WRITES_64 ? 4 << 20 : 64 << 20;
  if (kind == PACKETS_16383) load.room = 16383;
  return transfer(load);
}

static struct run open_streams(size_t streams) {
  struct load load = plain();
  load.open = streams;
  load.total = 32 << 20;
  return transfer(load);
}

/* Windows of 16 KiB, so that the memory of many streams isn't what is timed. */
static struct load of_active(size_t streams) {
  struct load load = plain();
  load.active = load.open = streams;
  load.window = 16 << 10;
  load.write = 1200;
  load.total = 32 << 20;
  return load;
}

static struct run active(size_t streams) { return transfer(of_active(streams)); }

/* The same without the application's calls: only packets made, received and acknowledged are timed, by the clock on the wall, whose
 * reading is no system call. */
static struct run carried(size_t streams) {
  struct pair *pair = pair_new(of_active(streams));
  uint64_t read = 0;
  double spent = 0;
  while (read < pair->load.total) {
    pair_write(pair);
    double before = wall();
    pair_carry(pair);
    spent += wall() - before;
    read += pair_read(pair);
    before = wall();
    pair_answer(pair);
    spent += wall() - before;
  }
  struct run run = {spent, (double)pair->made};
  pair_free(pair);
  return run;
}

/* This many streams were used until their limits rose and the MAX_STREAM_DATA frames arrived. Then only one of them goes on. */
static struct run raised(size_t streams) {
  struct pair *pair = pair_new(of_active(streams));
  uint64_t read = 0;
  while (read < streams * (12 << 10) || read < pair->written) {
    if (read < streams * (12 << 10)) pair_write(pair);
    pair_carry(pair);
    read += pair_read(pair);
    pair_answer(pair);
  }
  pair->load.active = 1;
  uint64_t made = pair->made, until = read + (16 << 20);
  double before = now();
  while (read < until) {
    pair_write(pair);
    pair_carry(pair);
    read += pair_read(pair);
    pair_answer(pair);
  }
  struct run run = {now() - before, (double)(pair->made - made)};
  pair_free(pair);
  return run;
}

static struct run outstanding(size_t packets) {
  struct load load = plain();
  load.active = load.open = 16;
  load.write = 1200;
  load.burst = packets;
  load.total = 64 << 20;
  load.room = 128;
  load.fill = packets * 128 + (256 << 10);
  return transfer(load);
}

/* Threads, each with two endpoints of its own */

struct thread {
  pthread_t id;
  pthread_barrier_t *start;
  struct run run;
};

static void *runs(void *at) {
  struct thread *thread = at;
  struct load load = plain();
  load.total = 256 << 20;
  pthread_barrier_wait(thread->start);
  thread->run = transfer(load);
  return NULL;
}

/* Wall-clock time for a packet of any of them. */
static struct run threads(size_t count) {
  struct thread *all = room_of(count, sizeof *all);
  pthread_barrier_t start;
  want(pthread_barrier_init(&start, NULL, (unsigned)count + 1) == 0, "a barrier can't be made");
  for (size_t i = 0; i < count; ++i) {
    all[i].start = &start;
    want(pthread_create(&all[i].id, NULL, runs, &all[i]) == 0, "a thread can't be made");
  }
  pthread_barrier_wait(&start);
  double before = wall();
  struct run run = {0, 0};
  for (size_t i = 0; i < count; ++i) {
    want(pthread_join(all[i].id, NULL) == 0, "a thread can't be joined");
    run.units += all[i].run.units;
  }
  run.amount = wall() - before;
  pthread_barrier_destroy(&start);
  free(all);
  return run;
}

/* The heap of an idle endpoint */

static double held(void) {
  struct mallinfo2 told = mallinfo2();
  return (double)told.hblkhd + (double)told.uordblks;
}

static struct run idle(size_t count) {
  gv_settings settings = settings_of(1 << 20, 1 << 16, 1 << 16, 100);
  gv_endpoint **ends = room_of(count, sizeof *ends);
  double before = held();
  for (size_t i = 0; i < count; ++i) ends[i] = end_of(GV_ROLE_SERVER, &settings);
  struct run run = {held() - before, (double)count};
  for (size_t i = 0; i < count; ++i) gv_endpoint_free(ends[i]);
  free(ends);
  return run;
}

/* Packets with one ACK, again and again */

/* Makes this many packets. Of the last ones each 300th is lost, so that an ACK has 32 ranges. */
static void carry_with_holes(struct pair *pair, uint64_t packets) {
  uint8_t payload[1200];
  for (uint64_t i = 0; i < packets; ++i) {
    gv_made made = {.size = sizeof made};
    pair_write(pair);
    want(gv_make_packet(pair->sender, payload, sizeof payload, &made) == GV_OK, "bytes are due");
    if (i + 9600 < packets || i % 300 != 0) receive(pair->reader, made.number, payload, made.len);
    pair_read(pair);
  }
}

static struct run same_ack(size_t packets) {
  struct load load = plain();
  load.active = load.open = 16;
  struct pair *pair = pair_new(load);
  carry_with_holes(pair, packets);
  uint8_t ack[1200];
  gv_made made = {.size = sizeof made};
  want(gv_make_packet(pair->reader, ack, sizeof ack, &made) == GV_OK, "an ACK is due");
  receive(pair->sender, 0, ack, made.len);
  uint64_t times = 2000;
  double before = now();
  for (uint64_t number = 1; number <= times; ++number) receive(pair->sender, number, ack, made.len);
  struct run run = {now() - before, (double)times};
  pair_free(pair);
  return run;
}

/* Requests of one byte and responses of 1 KiB, one stream after the other: the cost of each of the last thousand */

enum { ANSWER = 1024 };

/* Reads this many bytes, then the FIN. */
static void read_to_end(gv_endpoint *end, uint64_t stream, uint64_t len) {
  uint8_t bytes[2048];
  size_t count = 0;
  want(gv_read(end, stream, bytes, sizeof bytes, &count, NULL) == GV_OK && count == len, "other bytes come out than went in");
  check(0, bytes, len);
  want(gv_read(end, stream, bytes, sizeof bytes, &count, NULL) == GV_END_OF_STREAM, "the end is missing");
}

static void write_and_finish(gv_endpoint *end, uint64_t stream, size_t len) {
  size_t count = 0;
  want(gv_write(end, stream, source_at(0), len, &count) == GV_OK && count == len, "bytes can't be written");
  want(gv_finish(end, stream) == GV_OK, "a stream can't be finished");
}

static void request(gv_endpoint *client, gv_endpoint *server) {
  uint64_t stream = 0, asked = 0;
  want(gv_open(client, GV_DIR_BIDI, &stream, NULL) == GV_OK, "the count didn't grow as streams ended");
  write_and_finish(client, stream, 1);
  hand_on(client, server);
  want(gv_accept(server, &asked) == GV_OK && asked == stream, "the request didn't come");
  read_to_end(server, asked, 1);
  write_and_finish(server, asked, ANSWER);
  hand_on(server, client);
  read_to_end(client, stream, ANSWER);
  hand_on(client, server);
}

static struct run request_after(size_t ended) {
  gv_settings settings = settings_of(1 << 20, 4096, 4096, 100);
  gv_endpoint *client = end_of(GV_ROLE_CLIENT, &settings), *server = end_of(GV_ROLE_SERVER, &settings);
  size_t timed = 1000;
  double before = 0;
  for (size_t i = 0; i < ended + timed; ++i) {
    if (i == ended) before = now();
    request(client, server);
  }
  struct run run = {now() - before, (double)timed};
  gv_endpoint_free(client);
  gv_endpoint_free(server);
  return run;
}

static const struct row rows[] = {
    {"decode-mixed", decode, 0},
    {"decode-stream-1200", decode, 1187},
    {"decode-stream-32", decode, 32},
    {"hostile-bytes-64k", hostile, 0},
    {"loop", loop, PLAIN},
    {"loop-ack-each-2", loop, ACK_EACH_2},
    {"loop-lost-each-100th", loop, LOST_EACH_100TH},
    {"loop-lost-each-10th", loop, LOST_EACH_10TH},
    {"loop-window-64k", loop, WINDOW_64K},
    {"loop-writes-1200", loop, WRITES_1200},
    {"loop-writes-64", loop, WRITES_64},
    {"loop-packets-16383", loop, PACKETS_16383},
    {"open-1", open_streams, 1},
    {"open-64", open_streams, 64},
    {"open-1000", open_streams, 1000},
    {"open-4096", open_streams, 4096},
    {"open-8192", open_streams, 8192},
    {"active-1", active, 1},
    {"active-64", active, 64},
    {"active-1000", active, 1000},
    {"active-4096", active, 4096},
    {"carried-1", carried, 1},
    {"carried-64", carried, 64},
    {"carried-1000", carried, 1000},
    {"carried-4096", carried, 4096},
    {"raised-1", raised, 1},
    {"raised-64", raised, 64},
    {"raised-1000", raised, 1000},
    {"raised-4096", raised, 4096},
    {"outstanding-10", outstanding, 10},
    {"outstanding-100", outstanding, 100},
    {"outstanding-1000", outstanding, 1000},
    {"outstanding-10000", outstanding, 10000},
    {"outstanding-100000", outstanding, 100000},
    {"threads-1", threads, 1},
    {"threads-2", threads, 2},
    {"threads-4", threads, 4},
    {"same-ack-32-ranges-of-10000", same_ack, 10000},
    {"request", request_after, 0},
    {"request-after-60000", request_after, 60000},
    {"idle-1", idle, 1},
    {"idle-100", idle, 100},
    {"idle-10000", idle, 10000},
    {"idle-1000000", idle, 1000000},
};

int main(int argc, char **argv) {
  if (argc == 3 && strcmp(argv[1], "--count") == 0) return count_act(argv[2]);
  return run_rows(argc, argv, rows, sizeof rows / sizeof *rows);
}

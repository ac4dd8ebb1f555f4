/* The rows over ngtcp2. The rows of parts use its frame decoder, its reorder buffer and its gap tracker. These are symbols of
 * libngtcp2.a without a public header, so they are declared here: `build` checks for the version that this was written for. Each
 * structure gets more memory than it needs, and the bytes behind it must stay unchanged. */
#include <string.h>

#include <ngtcp2/ngtcp2.h>

#include "../c/payloads.h"
#include "../c/rows.h"
#include "acts.h"
#include "whole.h"

enum { ROOM = 1024, KEPT = 0x5a };

/* Memory for one of ngtcp2's structures, which begins at its front. */
union theirs {
  max_align_t align;
  uint8_t bytes[ROOM];
};

const ngtcp2_mem *ngtcp2_mem_default(void);
void ngtcp2_rob_init(void *buffer, size_t block, const ngtcp2_mem *memory);
void ngtcp2_rob_free(void *buffer);
int ngtcp2_rob_push(void *buffer, uint64_t offset, const uint8_t *bytes, size_t len);
size_t ngtcp2_rob_data_at(void *buffer, const uint8_t **bytes, uint64_t offset);
void ngtcp2_rob_pop(void *buffer, uint64_t offset, size_t len);
void ngtcp2_gaptr_init(void *tracker, const ngtcp2_mem *memory);
void ngtcp2_gaptr_free(void *tracker);
int ngtcp2_gaptr_push(void *tracker, uint64_t offset, size_t len);
int ngtcp2_gaptr_is_pushed(void *tracker, uint64_t offset, size_t len);
uint64_t ngtcp2_gaptr_first_gap_offset(void *tracker);
ngtcp2_ssize ngtcp2_pkt_decode_frame(void *frame, const uint8_t *payload, size_t len);

static void prepare(union theirs *room) {
  memset(room->bytes, 0, ROOM / 2);
  memset(room->bytes + ROOM / 2, KEPT, ROOM / 2);
}

static void is_within(const union theirs *room) {
  for (size_t i = ROOM / 2; i < ROOM; ++i) want(room->bytes[i] == KEPT, "a structure is larger than its room");
}

/* Frames */

static size_t read_once(union theirs *frame, const struct payload *payload) {
  size_t at = 0, read = 0;
  while (at < payload->len) {
    ngtcp2_ssize len = ngtcp2_pkt_decode_frame(frame, payload->bytes + at, payload->len - at);
    want(len > 0, "a frame can't be read");
    look_at(frame);
    at += (size_t)len;
    ++read;
  }
  return at == payload->len ? read : 0;
}

/* STREAM frames of this many bytes, or with 0 the common frames. */
static struct run decode(size_t each) {
  static union theirs frame;
  struct payload payload = each == 0 ? mixed() : streams(each);
  prepare(&frame);
  want(read_once(&frame, &payload) == payload.frames, "other frames were read than were put");
  size_t times = 4000000 / payload.frames;
  double before = now();
  for (size_t i = 0; i < times; ++i) read_once(&frame, &payload);
  struct run run = {now() - before, (double)times * (double)payload.frames};
  is_within(&frame);
  return run;
}

/* Bytes put in order: the buffer alone, without the stream's checks */

static uint8_t out[MOST_AT_ONCE];

static void put(union theirs *buffer, uint64_t offset, size_t len) {
  want(ngtcp2_rob_push(buffer, offset, source_at(offset), len) == 0, "bytes can't be put");
}

/* Reads this many bytes from this offset on. */
static void read_all(union theirs *buffer, uint64_t from, size_t len) {
  size_t read = 0;
  while (read < len) {
    const uint8_t *bytes = NULL;
    size_t count = ngtcp2_rob_data_at(buffer, &bytes, from + read);
    want(count > 0 && count <= len - read, "other bytes come out than went in");
    memcpy(out + read, bytes, count);
    ngtcp2_rob_pop(buffer, from + read, count);
    read += count;
  }
  look_at(out);
  check(from, out, len);
}

enum order { IN_ORDER, IN_REVERSE, BYTES_IN_ORDER, BYTES_EVEN_THEN_ODD };

/* Puts in the bytes of a window from this offset on, and returns how many. */
static size_t put_window(union theirs *buffer, uint64_t from, size_t order) {
  switch (order) {
  case IN_REVERSE:
    for (uint64_t k = 54; k-- > 0;) put(buffer, from + k * CHUNK, CHUNK);
    return (size_t)54 * CHUNK;
  case BYTES_IN_ORDER:
    for (uint64_t k = 0; k < 65536; ++k) put(buffer, from + k, 1);
    return 65536;
  case BYTES_EVEN_THEN_ODD:
    for (uint64_t k = 0; k < 65536; k += 2) put(buffer, from + k, 1);
    for (uint64_t k = 1; k < 65536; k += 2) put(buffer, from + k, 1);
    return 65536;
  default:
    put(buffer, from, CHUNK);
    return CHUNK;
  }
}

static struct run half(size_t order) {
  size_t rounds = order == IN_ORDER ? 1000000 : order == IN_REVERSE ? 20000 : 10;
  size_t each = order == IN_ORDER || order == IN_REVERSE ? CHUNK : 1;
  static union theirs buffer;
  prepare(&buffer);
  ngtcp2_rob_init(&buffer, 8192, ngtcp2_mem_default());
  uint64_t offset = 0;
  double before = now();
  for (size_t round = 0; round < rounds; ++round) {
    size_t len = put_window(&buffer, offset, order);
    read_all(&buffer, offset, len);
    offset += len;
  }
  struct run run = {now() - before, (double)offset / (double)each};
  ngtcp2_rob_free(&buffer);
  is_within(&buffer);
  return run;
}

/* Sets of numbers: the tracker of gaps */

enum numbers { UP_ONE_BY_ONE, EVERY_OTHER_UP, EVERY_OTHER_DOWN };

static uint64_t number_at(uint64_t place, uint64_t count, size_t numbers) {
  return numbers == UP_ONE_BY_ONE ? place : numbers == EVERY_OTHER_UP ? 2 * place : 2 * (count - 1 - place);
}

static struct run insert(size_t numbers) {
  uint64_t count = numbers == EVERY_OTHER_DOWN ? 65536 : 1000000;
  static union theirs tracker;
  prepare(&tracker);
  ngtcp2_gaptr_init(&tracker, ngtcp2_mem_default());
  double before = now();
  for (uint64_t i = 0; i < count; ++i)
    want(ngtcp2_gaptr_push(&tracker, number_at(i, count, numbers), 1) == 0, "a number can't be put");
  struct run run = {now() - before, (double)count};
  want(ngtcp2_gaptr_first_gap_offset(&tracker) == (numbers == UP_ONE_BY_ONE ? count : 1), "a number is missing, or one too many");
  for (uint64_t i = 0; i < count; i += 997)
    want(ngtcp2_gaptr_is_pushed(&tracker, number_at(i, count, numbers), 1) != 0, "a number is missing");
  ngtcp2_gaptr_free(&tracker);
  is_within(&tracker);
  return run;
}

int main(int argc, char **argv) {
  static const struct row rows[] = {
      {"decode-mixed", decode, 0},
      {"decode-stream-1200", decode, 1187},
      {"decode-stream-32", decode, 32},
      {"half-in-order", half, IN_ORDER},
      {"half-in-reverse", half, IN_REVERSE},
      {"half-bytes-in-order", half, BYTES_IN_ORDER},
      {"half-bytes-even-then-odd", half, BYTES_EVEN_THEN_ODD},
      {"set-in-order", insert, UP_ONE_BY_ONE},
      {"set-every-other-up", insert, EVERY_OTHER_UP},
      {"set-every-other-down-65536", insert, EVERY_OTHER_DOWN},
      {"loop", loop, LOOP},
      {"loop-ack-each-2", loop, LOOP_ACK_EACH_2},
      {"loop-window-64k", loop, LOOP_WINDOW_64K},
      {"loop-writes-1200", loop, LOOP_WRITES_1200},
      {"loop-packets-16383", loop, LOOP_PACKETS_16383},
  };
  if (argc == 3 && strcmp(argv[1], "--count") == 0) return count_act(argv[2]);
  return run_rows(argc, argv, rows, sizeof rows / sizeof *rows);
}

/* How long a payload may be, what is read of one that is too long, and which memory stays once a long one was processed. It is linked with
 * --wrap=malloc, --wrap=calloc and --wrap=realloc: the readers of frames take no memory. */
#define _DEFAULT_SOURCE /* MAP_ANONYMOUS */
#include <stdio.h>
#include <stdlib.h>
#include <string.h>
#include <sys/mman.h>
#include <time.h>

#include "gotsavena.h"

void *__real_malloc(size_t size);
void *__real_calloc(size_t count, size_t size);
void *__real_realloc(void *at, size_t size);
void *__wrap_malloc(size_t size);
void *__wrap_calloc(size_t count, size_t size);
void *__wrap_realloc(void *at, size_t size);

static unsigned long of_c;

void *__wrap_malloc(size_t size) {
  of_c++;
  return __real_malloc(size);
}

void *__wrap_calloc(size_t count, size_t size) {
  of_c++;
  return __real_calloc(count, size);
}

void *__wrap_realloc(void *at, size_t size) {
  of_c++;
  return __real_realloc(at, size);
}

static void check(bool holds, const char *what) {
  if (holds) return;
  fprintf(stderr, "%s\n", what);
  exit(1);
}

static void want(gv_status status, gv_status wanted, const char *what) {
  if (status != wanted) fprintf(stderr, "%s, not %s: ", gv_strerror(status), gv_strerror(wanted));
  check(status == wanted, what);
}

/* An allocator that counts, and refuses if it is told to. */
typedef struct pool {
  size_t bytes, calls;
  bool refuses;
} pool;

static void *allocate(void *context, size_t size, size_t align) {
  pool *own = context;
  (void)align;
  own->calls++;
  if (own->refuses) return NULL;
  own->bytes += size;
  return __real_malloc(size);
}

static void release(void *context, void *at, size_t size, size_t align) {
  (void)align;
  ((pool *)context)->bytes -= size;
  free(at);
}

static gv_endpoint *new_end(pool *from) {
  gv_allocator memory = {sizeof memory, from, allocate, NULL, release};
  gv_settings settings;
  gv_limits limits = {.size = sizeof limits};
  gv_endpoint *end = NULL;
  want(gv_settings_init(&settings, sizeof settings), GV_OK, "settings");
  want(gv_limits_of(&settings, &limits), GV_OK, "limits");
  want(gv_endpoint_new_with(GV_ROLE_CLIENT, &settings, &limits, &memory, &end), GV_OK, "an endpoint");
  return end;
}

static void count_one(void *context, uint64_t number) {
  (void)number;
  ++*(size_t *)context;
}

static const uint64_t big = UINT64_C(1) << 62;

/* Both calls that process a payload. */
static void both(gv_endpoint *end, uint64_t number, const uint8_t *payload, size_t len, gv_status wanted, const char *what) {
  size_t told = 0;
  want(gv_receive(end, number, payload, len), wanted, what);
  want(gv_receive_with_acks(end, wanted == GV_OK ? number + 1 : number, payload, len, count_one, &told), wanted, what);
}

/* What no packet has is refused before it is read, in memory that can't be, and before memory is asked for. */
static void refused(const uint8_t *blocked) {
  const size_t huge = (size_t)64 << 20;
  uint8_t *unreadable = mmap(NULL, huge, PROT_NONE, MAP_PRIVATE | MAP_ANONYMOUS, -1, 0);
  pool memory = {0, 0, false};
  gv_endpoint *end = new_end(&memory);
  check(unreadable != MAP_FAILED, "memory that can't be read");
  want(gv_report_blocked(end, true), GV_OK, "payloads are looked through");
  memory.refuses = true;
  size_t before = memory.calls;
  both(end, 1, unreadable, huge, GV_INVALID, "64 MiB");
  both(end, 1, unreadable, GV_MAX_PAYLOAD + 1, GV_INVALID, "one byte too many");
  both(end, big, unreadable, 1, GV_INVALID, "no packet's number");
  both(end, UINT64_MAX, unreadable, huge, GV_INVALID, "neither of both");
  check(memory.calls == before, "memory was asked for");
  both(end, 1, blocked, GV_MAX_PAYLOAD - 1, GV_NO_MEMORY, "a payload wants memory");
  memory.refuses = false;
  both(end, 1, blocked, GV_MAX_PAYLOAD - 1, GV_OK, "a payload of almost the greatest length");
  uint8_t *padded = calloc(1, GV_MAX_PAYLOAD);
  check(padded != NULL, "memory");
  both(end, 3, padded, GV_MAX_PAYLOAD, GV_OK, "a payload of the greatest length");
  both(end, big - 2, padded, 1, GV_OK, "the greatest numbers");
  free(padded);
  gv_endpoint_free(end);
  munmap(unreadable, huge);
}

/* Notes of 32,767 blocked frames wait for their payload alone. */
static void said(const uint8_t *blocked) {
  pool memory = {0, 0, false};
  gv_endpoint *end = new_end(&memory);
  gv_event event = {.size = sizeof event};
  want(gv_next_event(end, &event), GV_NONE, "no event yet");
  want(gv_report_blocked(end, true), GV_OK, "payloads are looked through");
  size_t before = memory.bytes;
  both(end, 1, blocked, GV_MAX_PAYLOAD - 1, GV_OK, "a payload of blocked frames");
  check(memory.bytes <= before + 4096 + 1024, "more than 4,096 bytes stay of its notes");
  before = memory.bytes;
  gv_frame one = {.size = sizeof one, .kind = GV_FRAME_DATA_BLOCKED, .limit = 1};
  enum { COUNT = 3000 };
  gv_frame *many = malloc(COUNT * sizeof one);
  check(many != NULL, "memory");
  for (size_t i = 0; i < COUNT; i++) many[i] = one;
  gv_taken taken;
  want(gv_take_frames(end, many, COUNT, &taken), GV_OK, "many frames");
  check(memory.bytes <= before + 4096 + 1024, "more than 4,096 bytes stay of their notes");
  free(many);
  gv_endpoint_free(end);
}

/* Makes so many packets of a byte each, and returns how many bytes of memory more are held once one ACK named them all. */
static size_t left_by_acks(size_t packets, bool are_told) {
  pool memory = {0, 0, false};
  gv_endpoint *end = new_end(&memory);
  gv_made made = {.size = sizeof made};
  uint8_t out[128], ack[64];
  uint64_t stream;
  size_t count, len, written, told = 0;
  want(gv_open(end, GV_DIR_UNI, &stream, NULL), GV_OK, "open");
  for (size_t i = 0; i < packets; i++) {
    want(gv_write(end, stream, (const uint8_t *)"x", 1, &count), GV_OK, "write");
    want(gv_make_packet(end, out, sizeof out, &made), GV_OK, "make");
  }
  gv_range all = {0, packets - 1};
  want(gv_put_ack(&all, 1, 0, ack, sizeof ack, &written, &len), GV_OK, "an ACK");
  if (are_told) {
    want(gv_receive_with_acks(end, 0, ack, len, count_one, &told), GV_OK, "receive and tell");
    check(told == packets, "each packet is told");
  } else {
    want(gv_receive(end, 0, ack, len), GV_OK, "receive");
  }
  size_t left = memory.bytes;
  gv_endpoint_free(end);
  check(memory.bytes == 0, "each byte goes back");
  return left;
}

static void told(void) {
  static const size_t packets[] = {1, 64, 65, 512, 513, 4097, 20000};
  for (size_t i = 0; i < sizeof packets / sizeof *packets; i++) {
    size_t with = left_by_acks(packets[i], true), without = left_by_acks(packets[i], false);
    printf("%zu packets acknowledged: %zu bytes are held, %zu where none is told\n", packets[i], with, without);
    check(with <= without + 4096, "more than 4,096 bytes stay of the numbers");
  }
}

static double seconds(void) { return (double)clock() / CLOCKS_PER_SEC; }

/* A payload of n PINGs and a STREAM frame; and an ACK of n ranges, each of one number. Both are read to their ends. */
static void read_all(size_t n) {
  static const uint8_t stream[] = {0x08, 0x06, 0x61}, ack[] = {0x02, 0xbf, 0xff, 0xff, 0xff, 0x00, 0x80, 0, 0, 0, 0x00};
  uint8_t *payload = __real_malloc(2 * n + sizeof ack);
  check(payload != NULL, "memory");
  memset(payload, 0x01, n);
  memcpy(payload + n, stream, sizeof stream);
  gv_frames walk = {payload, n + sizeof stream, 0};
  gv_frame frame = {.size = sizeof frame};
  gv_fault fault = {.size = sizeof fault};
  uint64_t last = 0;
  size_t count = 0;
  unsigned long before = of_c;
  want(gv_last_stream(payload, walk.len, &last), GV_OK, "the last stream");
  check(last == 6, "which it is");
  while (gv_frames_next(&walk, &frame, &fault) == GV_OK) count++;
  check(count == n + 1 && walk.place == walk.len && frame.kind == GV_FRAME_STREAM, "each frame is read");
  memcpy(payload, ack, sizeof ack);
  for (size_t i = 0; i < 4; i++) payload[6 + i] |= (uint8_t)(n >> (24 - 8 * i)); /* how many ranges follow the first */
  memset(payload + sizeof ack, 0, 2 * n);
  gv_frames of_ack = {payload, 2 * n + sizeof ack, 0};
  want(gv_frames_next(&of_ack, &frame, &fault), GV_OK, "an ACK");
  gv_acked ranges = {frame.bytes, frame.len, frame.largest};
  gv_range range = {0, 0};
  for (count = 0; gv_ack_next(&ranges, &range) == GV_OK; count++)
    check(range.smallest == frame.largest - 2 * count && range.largest == range.smallest, "a range");
  check(count == n + 1, "each range is read");
  check(of_c == before, "memory was taken");
  free(payload);
}

/* Sixteen times as much takes no more than 64 times as long: with time by the square it would be 256 times. */
static void linear(void) {
  double before = seconds();
  read_all(1 << 18);
  double few = seconds() - before;
  before = seconds();
  read_all(1 << 22);
  double many = seconds() - before;
  printf("%d frames and ranges: %.3f s, and %d: %.3f s\n", 1 << 18, few, 1 << 22, many);
  check(few >= 0.001, "too short to be measured");
  check(many <= 64 * few, "time isn't linear");
}

int main(void) {
  static uint8_t blocked[GV_MAX_PAYLOAD - 1]; /* DATA_BLOCKED of 1, and again */
  for (size_t i = 0; i < sizeof blocked; i += 2) {
    blocked[i] = 0x14;
    blocked[i + 1] = 0x01;
  }
  refused(blocked);
  said(blocked);
  told();
  linear();
  return 0;
}

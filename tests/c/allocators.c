/* Two ends, each with an allocator of its own that counts, are handed from thread to thread: each byte goes back where it was taken, with
 * the size and the alignment that it was asked for with, on the thread of the call. Now and then an allocator makes an end of its own, in
 * the middle of the call that it serves. It is linked with --wrap=malloc and --wrap=realloc: the library takes no memory beside. */
#include <pthread.h>
#include <stdio.h>
#include <stdlib.h>
#include <string.h>

#include "gotsavena.h"

enum { TOTAL = 300000, STREAMS = 8, ROUNDS = 40, ROOM = 1200, MARK = 0x67766d6d };

void *__real_malloc(size_t size);
void *__real_realloc(void *at, size_t size);
void *__wrap_malloc(size_t size);
void *__wrap_realloc(void *at, size_t size);

static unsigned long of_c;

void *__wrap_malloc(size_t size) {
  of_c++;
  return __real_malloc(size);
}

void *__wrap_realloc(void *at, size_t size) {
  of_c++;
  return __real_realloc(at, size);
}

static void check(bool holds, const char *what) {
  if (holds) return;
  fprintf(stderr, "%s\n", what);
  exit(1);
}

/* What an allocator gave out, and on which thread its end is used now. */
typedef struct pool {
  size_t blocks, bytes, most, calls;
  pthread_t thread;
  bool is_in_call;
} pool;

/* It stands before each block. */
typedef struct head {
  pool *owner;
  size_t size, align, mark;
} head;

static void take_part(pool *own) {
  own->calls++;
  check(own->is_in_call && pthread_equal(own->thread, pthread_self()), "memory is asked for by a call of the end, on its thread");
}

static void use_another_end(void);

static void *allocate(void *context, size_t size, size_t align) {
  pool *own = context;
  take_part(own);
  if (own->calls % 16 == 1) use_another_end();
  check(size > 0 && align > 0 && align <= _Alignof(max_align_t), "a size and an alignment");
  head *at = __real_malloc(sizeof *at + size);
  if (at == NULL) return NULL;
  head fresh = {own, size, align, MARK};
  *at = fresh;
  own->blocks++;
  own->bytes += size;
  if (own->bytes > own->most) own->most = own->bytes;
  return at + 1;
}

static void release(void *context, void *at, size_t size, size_t align) {
  pool *own = context;
  head *it = (head *)at - 1;
  take_part(own);
  check(it->mark == MARK && it->owner == own, "memory goes back where it was taken");
  check(it->size == size && it->align == align, "with its size and its alignment");
  own->blocks--;
  own->bytes -= size;
  it->mark = 0;
  free(it);
}

static void *reallocate(void *context, void *at, size_t old_size, size_t new_size, size_t align) {
  void *found = allocate(context, new_size, align);
  if (found == NULL) return NULL;
  memcpy(found, at, old_size < new_size ? old_size : new_size);
  release(context, at, old_size, align);
  return found;
}

/* The last one is that of the ends which the others make. */
static pool pools[3];
static gv_endpoint *ends[2];
static uint64_t streams[STREAMS];
static size_t sent[STREAMS], got[STREAMS], all_sent;

static uint8_t byte_at(size_t offset) { return (uint8_t)(offset * 31 + (offset >> 8)); }

/* A call of an end. */
#define CALL(side, call) (pools[side].thread = pthread_self(), pools[side].is_in_call = true, leave(side, (call)))

static gv_status leave(int side, gv_status status) {
  pools[side].is_in_call = false;
  return status;
}

static void make_end(int side) {
  gv_settings settings;
  gv_limits limits = {.size = sizeof limits};
  gv_allocator from = {sizeof from, &pools[side], allocate, side == 0 ? reallocate : NULL, release};
  check(gv_settings_init(&settings, sizeof settings) == GV_OK && gv_limits_of(&settings, &limits) == GV_OK, "settings");
  gv_role role = side == 0 ? GV_ROLE_CLIENT : GV_ROLE_SERVER;
  check(CALL(side, gv_endpoint_new_with(role, &settings, &limits, &from, &ends[side])) == GV_OK, "an end");
}

static void use_another_end(void) {
  gv_settings settings;
  gv_limits limits = {.size = sizeof limits};
  gv_allocator from = {sizeof from, &pools[2], allocate, reallocate, release};
  gv_endpoint *end = NULL;
  uint64_t stream;
  if (pools[2].is_in_call) return;
  check(gv_settings_init(&settings, sizeof settings) == GV_OK && gv_limits_of(&settings, &limits) == GV_OK, "settings");
  check(CALL(2, gv_endpoint_new_with(GV_ROLE_CLIENT, &settings, &limits, &from, &end)) == GV_OK, "another end");
  check(CALL(2, gv_open(end, GV_DIR_UNI, &stream, NULL)) == GV_OK, "open");
  pools[2].is_in_call = true;
  gv_endpoint_free(end);
  pools[2].is_in_call = false;
}

static void write_some(size_t i) {
  uint8_t bytes[4000];
  size_t count = 0, len = TOTAL - sent[i] < sizeof bytes ? TOTAL - sent[i] : sizeof bytes;
  for (size_t k = 0; k < len; k++) bytes[k] = byte_at(sent[i] + k + i);
  check(CALL(0, gv_write(ends[0], streams[i], bytes, len, &count)) == GV_OK, "write");
  sent[i] += count;
  all_sent += count;
  if (count > 0 && sent[i] == TOTAL) check(CALL(0, gv_finish(ends[0], streams[i])) == GV_OK, "finish");
}

static void read_some(size_t i) {
  uint8_t bytes[3000];
  size_t count = 0;
  while (CALL(1, gv_read(ends[1], streams[i], bytes, sizeof bytes, &count, NULL)) == GV_OK)
    for (size_t k = 0; k < count; k++) check(bytes[k] == byte_at(got[i]++ + i), "byte");
}

/* A packet in ten is lost. */
static bool carry(int side) {
  uint8_t payload[ROOM];
  gv_made made = {.size = sizeof made};
  if (CALL(side, gv_make_packet(ends[side], payload, sizeof payload, &made)) != GV_OK) return false;
  if (made.number % 10 == 7) {
    if (made.is_ack_eliciting) check(CALL(side, gv_declare_lost(ends[side], made.number)) == GV_OK, "lose");
  } else {
    check(CALL(1 - side, gv_receive(ends[1 - side], made.number, payload, made.len)) == GV_OK, "receive");
  }
  return true;
}

static void *round_of(void *unused) {
  (void)unused;
  if (ends[0] == NULL) {
    make_end(0);
    make_end(1);
    for (size_t i = 0; i < STREAMS; i++) check(CALL(0, gv_open(ends[0], GV_DIR_BIDI, &streams[i], NULL)) == GV_OK, "open");
  }
  for (size_t i = 0; i < STREAMS; i++)
    if (sent[i] < TOTAL) write_some(i);
  for (int k = 0; k < 40 && (carry(0) || carry(1)); k++) {}
  for (size_t i = 0; i < STREAMS; i++) read_some(i);
  return NULL;
}

static void *free_both(void *unused) {
  (void)unused;
  for (int side = 0; side < 2; side++) {
    (void)CALL(side, GV_OK);
    pools[side].is_in_call = true;
    gv_endpoint_free(ends[side]);
    pools[side].is_in_call = false;
  }
  return NULL;
}

static void on_a_thread(void *(*what)(void *)) {
  pthread_t thread;
  check(pthread_create(&thread, NULL, what, NULL) == 0 && pthread_join(thread, NULL) == 0, "a thread");
}

int main(void) {
  for (int i = 0; i < ROUNDS; i++) on_a_thread(round_of);
  check(all_sent > TOTAL && pools[0].most > 100000 && pools[1].most > 10000, "memory was taken");
  on_a_thread(free_both);
  for (int side = 0; side < 3; side++) {
    check(pools[side].blocks == 0 && pools[side].bytes == 0, "each byte was given back");
    printf("end %d: %zu calls of its allocator, at most %zu bytes\n", side, pools[side].calls, pools[side].most);
  }
  check(of_c == 0, "no memory is taken beside");
  return 0;
}

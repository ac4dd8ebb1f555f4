/* An endpoint's handle, and what the public calls have in common: how structs are copied, and how a call begins and ends. */
#ifndef GOTSAVENA_CALLS_H
#define GOTSAVENA_CALLS_H

#include <stdalign.h>
#include <stddef.h>
#include <string.h>

#include "memory.h"
#include "proved.h"

typedef struct numbers {
  uint64_t *at;
  size_t room; /* how many have a place */
} numbers;

struct gv_endpoint {
  gvp_handle handle;
  gvp_heard heard; /* what its owner heard of, and waits for, once there is something to note */
  bool wants[2];   /* of which directions an opening was refused since an event was asked for: no memory is taken to refuse it */
  gv_allocator memory;
  const gv_allocator *outer; /* from where the thread takes memory again once the call ends */
  numbers told;              /* where gv_receive_with_acks() has the numbers written */
  bool hears;                /* whether an event was asked for: then frames are noted that say what holds the peer back */
  bool looks;                /* whether payloads are looked through for such frames */
  numbers said;              /* the streams of such frames that took effect and found no memory to be noted: those of one call */
  size_t said_count;         /* how many they are */
  uint64_t unnoted;          /* the stream of a write that was cut short, for which there was no memory to note it, else NO_STREAM */
};

/* The size of a struct up to a field and with it: what it had in the version of which this was the last field. So callers of that version
 * are known by their size. */
#define UP_TO(type, field) (offsetof(type, field) + sizeof((type *)0)->field)

enum { MOST_SIZE = 4096, TOKEN_LEN = 16 };

/* Two bits of eight bytes say the length (section 16). */
#define MOST_NUMBER ((UINT64_C(1) << 62) - 1)

static inline size_t least(size_t a, size_t b) { return a < b ? a : b; }

static inline size_t size_of(const void *at) {
  size_t size;
  memcpy(&size, at, sizeof size);
  return size;
}

/* At least the size of version 0.1, and not so large that it is surely no size. */
static inline bool is_sized(const void *at, size_t first) { return at != NULL && size_of(at) >= first && size_of(at) <= MOST_SIZE; }

/* Copies a caller's struct. What it lacks is 0, which means 'as before'. False if it has something that isn't known here: to ignore a
 * setting silently would be worse. */
static inline bool copy_in(void *to, size_t known, const void *from, size_t first) {
  static const uint8_t zeros[MOST_SIZE];
  if (!is_sized(from, first)) return false;
  size_t size = size_of(from);
  memset(to, 0, known);
  memcpy(to, from, least(size, known));
  return size <= known || memcmp((const uint8_t *)from + known, zeros, size - known) == 0;
}

/* Copies to a caller's struct what it has room for, and leaves its size. */
static inline void copy_out(void *to, const void *from, size_t known) {
  size_t skipped = sizeof(size_t);
  memcpy((uint8_t *)to + skipped, (const uint8_t *)from + skipped, least(size_of(to), known) - skipped);
}

/* A slice without bytes may be null in C, and the library below needs an address. */
static uint8_t none[1];

static uint64_t no_numbers[1];

#define NO_STREAM UINT64_MAX

static inline bool is_slice(const void *at, size_t len) { return (at != NULL || len == 0) && len <= (size_t)PTRDIFF_MAX; }

static inline const uint8_t *read_from(const uint8_t *at, size_t len) { return len == 0 ? none : at; }

static inline uint8_t *written_to(uint8_t *at, size_t len) { return len == 0 ? none : at; }

/* A call begins: until leave() the thread's memory is the endpoint's. Questions do that too, since the library below has no call without a
 * handle that may change; only the header says const. */
static inline gvp_handle *enter(const gv_endpoint *end) {
  gv_endpoint *own = (gv_endpoint *)end;
  own->outer = gvp_take_from(&own->memory);
  return &own->handle;
}

/* The same for a call that needs the notes of events alone. */
static inline gvp_heard *enter_heard(gv_endpoint *end) {
  (void)enter(end);
  return &end->heard;
}

static inline gv_status leave(const gv_endpoint *end, uint32_t status) {
  (void)gvp_take_from(end->outer);
  return (gv_status)status;
}

static inline void free_numbers(gv_endpoint *end, numbers *all) {
  if (all->room > 0) end->memory.release(end->memory.context, all->at, all->room * sizeof *all->at, alignof(uint64_t));
  all->at = no_numbers;
  all->room = 0;
}

/* A call ends: a list that took more than 4,096 bytes is given back, unless something in it still waits. */
static inline void give_back(gv_endpoint *end) {
  enum { MOST_KEPT = 4096 / sizeof(uint64_t) };
  if (end->told.room > MOST_KEPT) free_numbers(end, &end->told);
  if (end->said.room > MOST_KEPT && end->said_count == 0) free_numbers(end, &end->said);
}

/* Gives so many numbers a place, and drops those that had one; false if memory is refused, and then nothing changed. */
static inline bool has_room(gv_endpoint *end, numbers *all, size_t wanted) {
  if (wanted <= all->room) return true;
  uint64_t *at = end->memory.allocate(end->memory.context, wanted * sizeof *at, alignof(uint64_t));
  if (at == NULL) return false;
  free_numbers(end, all);
  all->at = at;
  all->room = wanted;
  return true;
}

#endif

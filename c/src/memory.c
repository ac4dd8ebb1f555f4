/* The three functions from which the library below has its memory, over the allocator of the call that runs. Alignments are at most that of
 * max_align_t. */
#include "memory.h"

#include <stdlib.h>
#include <string.h>

/* An address if is_some is 1. Else it means nothing, but isn't null, as the proved library lays out what may be missing. */
struct got {
  uint64_t is_some;
  void *at;
};

struct got rattle_alloc(size_t size, size_t align);
struct got rattle_realloc(void *at, size_t was, size_t size, size_t align);
void rattle_dealloc(void *at, size_t size, size_t align);

static void *allocate_of_c(void *context, size_t size, size_t align) {
  (void)context;
  (void)align;
  return malloc(size);
}

static void *reallocate_of_c(void *context, void *at, size_t old_size, size_t new_size, size_t align) {
  (void)context;
  (void)old_size;
  (void)align;
  return realloc(at, new_size);
}

static void release_of_c(void *context, void *at, size_t size, size_t align) {
  (void)context;
  (void)size;
  (void)align;
  free(at);
}

const gv_allocator gvp_of_c = {sizeof(gv_allocator), NULL, allocate_of_c, reallocate_of_c, release_of_c};

static _Thread_local const gv_allocator *current = &gvp_of_c;

const gv_allocator *gvp_take_from(const gv_allocator *allocator) {
  const gv_allocator *before = current;
  current = allocator;
  return before;
}

static struct got got(void *at) {
  static max_align_t nothing;
  struct got answer = {at != NULL, at != NULL ? at : (void *)&nothing};
  return answer;
}

/* The proved library doesn't say how large a block is when it gives it back, and a caller's allocator wants to know. So the size stands
 * before the block. */
typedef struct head {
  _Alignas(max_align_t) size_t size;
} head;

static bool is_of_c(const gv_allocator *from) { return from->allocate == allocate_of_c; }

static void *behind(head *at, size_t size) {
  if (at == NULL) return NULL;
  at->size = size;
  return at + 1;
}

static head *moved(const gv_allocator *from, head *at, size_t size) {
  head *found = from->allocate(from->context, size, _Alignof(head));
  if (found == NULL) return NULL;
  memcpy(found, at, at->size < size ? at->size : size);
  from->release(from->context, at, at->size, _Alignof(head));
  return found;
}

struct got rattle_alloc(size_t size, size_t align) {
  const gv_allocator *from = current;
  if (size > SIZE_MAX - sizeof(head)) return got(NULL);
  if (is_of_c(from)) return got(malloc(size != 0 ? size : align));
  size += sizeof(head);
  return got(behind(from->allocate(from->context, size, _Alignof(head)), size));
}

struct got rattle_realloc(void *at, size_t was, size_t size, size_t align) {
  const gv_allocator *from = current;
  (void)was;
  if (size > SIZE_MAX - sizeof(head)) return got(NULL);
  if (is_of_c(from)) return got(realloc(at, size != 0 ? size : align));
  size += sizeof(head);
  head *old = (head *)at - 1;
  if (from->reallocate == NULL) return got(behind(moved(from, old, size), size));
  return got(behind(from->reallocate(from->context, old, old->size, size, _Alignof(head)), size));
}

/* Only the address is sure to be right, which is why the size is kept before the block. */
void rattle_dealloc(void *at, size_t size, size_t align) {
  const gv_allocator *from = current;
  (void)size;
  (void)align;
  if (is_of_c(from)) {
    free(at);
    return;
  }
  head *old = (head *)at - 1;
  from->release(from->context, old, old->size, _Alignof(head));
}

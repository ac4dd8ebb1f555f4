/* An allocator that counts, and refuses what an input says. Blocks are those of malloc(), of exactly the size that was asked for, so that
 * the sanitizers see each byte that is read or written outside. */
#include <stdlib.h>

#include "world.h"

static bool is_refused(memory *m) {
  m->asked++;
  if (m->refusals == 0) return false;
  if (m->until > 0) {
    m->until--;
    return false;
  }
  m->refusals--;
  m->refused++;
  return true;
}

static void *allocate(void *context, size_t size, size_t align) {
  memory *m = context;
  check(size > 0 && align > 0 && align <= _Alignof(max_align_t), "a size and an alignment");
  if (is_refused(m)) return NULL;
  m->blocks++;
  m->bytes += size;
  return malloc(size);
}

static void *reallocate(void *context, void *at, size_t old_size, size_t new_size, size_t align) {
  memory *m = context;
  check(at != NULL && new_size > 0 && align > 0 && align <= _Alignof(max_align_t), "another size");
  if (is_refused(m)) return NULL;
  m->bytes += new_size - old_size;
  return realloc(at, new_size);
}

static void release(void *context, void *at, size_t size, size_t align) {
  memory *m = context;
  check(at != NULL && align > 0 && m->blocks > 0 && m->bytes >= size, "memory is given back as it was given");
  m->blocks--;
  m->bytes -= size;
  free(at);
}

gv_allocator allocator_of(side *s, bool can_reallocate) {
  gv_allocator of = {sizeof of, &s->memory, allocate, can_reallocate ? reallocate : NULL, release};
  return of;
}

/* From here on one allocation of the side is refused, or some in a row. */
void refuse(world *w, side *s) {
  s->memory.until = take_byte(&w->in) % 32;
  unsigned count = take_byte(&w->in) % 4;
  s->memory.refusals = s->is_refusable ? 1 + count : 0;
  w->is_compared = false;
}

/* Before a call that changes nothing where memory is refused. */
void begin(side *s, uint64_t *before) {
  s->memory.refused = 0;
  *before = s->memory.refusals > 0 ? look_at_all(s) : 0;
}

/* Whether memory was refused, so that the call is made once more. */
bool is_made_again(side *s, gv_status status, uint64_t before) {
  if (status != GV_NO_MEMORY) return false;
  check(s->memory.refused > 0, "no memory, though none was refused");
  check(look_at_all(s) == before, "nothing changed where memory was refused");
  return true;
}

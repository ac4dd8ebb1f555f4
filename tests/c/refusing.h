/* An allocator of the tests: it refuses memory where it is told to, and counts how often it gave some. */
#ifndef REFUSING_H
#define REFUSING_H
#include <stdbool.h>
#include <stddef.h>
#include <stdlib.h>

static bool is_refused; /* whether memory is */

static int left = -1; /* or how often it is still given, where that isn't negative */

static size_t given; /* how often it was */

static void *allocate(void *context, size_t size, size_t align) {
  (void)context;
  (void)align;
  if (is_refused || left == 0) return NULL;
  if (left > 0) left--;
  given++;
  return malloc(size);
}

static void release(void *context, void *at, size_t size, size_t align) {
  (void)context;
  (void)size;
  (void)align;
  free(at);
}
#endif

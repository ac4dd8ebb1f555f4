/* Needed for the clock of the thread. */
#define _POSIX_C_SOURCE 200809L

#include "rows.h"

#include <stdio.h>
#include <stdlib.h>
#include <string.h>
#include <time.h>

enum { PERIOD = 251 };

static bool is_checked = true;
static uint8_t source[MOST_AT_ONCE + PERIOD];

static double tell(clockid_t clock) {
  struct timespec time;
  want(clock_gettime(clock, &time) == 0, "the clock can't be read");
  return (double)time.tv_sec * 1e9 + (double)time.tv_nsec;
}

double now(void) { return tell(CLOCK_THREAD_CPUTIME_ID); }

double wall(void) { return tell(CLOCK_MONOTONIC); }

void want(bool is_so, const char *reason) {
  if (is_so) return;
  fprintf(stderr, "driver: %s\n", reason);
  exit(1);
}

void *room_of(size_t count, size_t each) {
  void *room = calloc(count, each);
  want(room != NULL, "there is no memory");
  return room;
}

const uint8_t *source_at(uint64_t offset) { return source + offset % PERIOD; }

void check(uint64_t offset, const uint8_t *bytes, size_t len) {
  if (!is_checked) return;
  want(len <= MOST_AT_ONCE && memcmp(bytes, source_at(offset), len) == 0, "the bytes differ");
}

void look_at(const void *bytes) { __asm__ volatile("" : : "r"(bytes) : "memory"); }

int run_rows(int argc, char **argv, const struct row *rows, size_t count) {
  for (size_t i = 0; i < sizeof source; ++i) source[i] = (uint8_t)(i % PERIOD);
  for (size_t i = 0; i < count; ++i) {
    if (argc < 2) {
      puts(rows[i].name);
    } else if (strcmp(rows[i].name, argv[1]) == 0) {
      rows[i].run(rows[i].which);
      is_checked = false;
      struct run run = rows[i].run(rows[i].which);
      printf("%.2f\n", run.amount / run.units);
      return 0;
    }
  }
  if (argc < 2) return 0;
  fprintf(stderr, "driver: there is no row %s\n", argv[1]);
  return 2;
}

/* Shared by the drivers in C: the clock, the bytes that they transfer, and how a row is run. */
#ifndef BENCH_ROWS_H
#define BENCH_ROWS_H

#include <stdbool.h>
#include <stddef.h>
#include <stdint.h>

/* The time or memory of a run, in nanoseconds or bytes, and its number of units. */
struct run {
  double amount;
  double units;
};

/* A row, and the parameter that distinguishes it from others of its kind. */
struct row {
  const char *name;
  struct run (*run)(size_t which);
  size_t which;
};

/* `PROGRAM ROW` runs the row once to warm up, with each byte that is read compared, and once timed, and prints the cost of a unit.
 * `PROGRAM` alone lists the rows. */
int run_rows(int argc, char **argv, const struct row *rows, size_t count);

/* Processor time of this thread and wall-clock time, in nanoseconds. */
double now(void);
double wall(void);

/* Ends the program with this reason unless the condition holds. */
void want(bool is_so, const char *reason);

/* Allocates this many zero bytes, or ends the program. */
void *room_of(size_t count, size_t each);

/* The byte at an offset of a stream is the offset modulo 251. Returns where this many of them begin, at most 65,536. */
enum { MOST_AT_ONCE = 65536 };
const uint8_t *source_at(uint64_t offset);

/* Compares the bytes with those of a stream at this offset, in the first run alone. */
void check(uint64_t offset, const uint8_t *bytes, size_t len);

/* Keeps the compiler from optimizing the bytes away. */
void look_at(const void *bytes);

#endif

/* The rows of the whole loop over ngtcp2's connection. */
#ifndef BENCH_NGTCP2_WHOLE_H
#define BENCH_NGTCP2_WHOLE_H

#include "../c/rows.h"

/* A row by its place in this list. */
enum { LOOP, LOOP_ACK_EACH_2, LOOP_WINDOW_64K, LOOP_WRITES_1200, LOOP_PACKETS_16383 };

struct run loop(size_t kind);

#endif

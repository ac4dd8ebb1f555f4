/* Payloads of packets, written by hand from RFC 9000, section 19. */
#ifndef BENCH_PAYLOADS_H
#define BENCH_PAYLOADS_H

#include "rows.h"

enum { CHUNK = 1200 };

struct payload {
  uint8_t bytes[2048];
  size_t len;
  size_t frames;
};

/* Payloads of the common frames, about 1,100 bytes in all. */
struct payload mixed(void);

/* A payload of STREAM frames of this many bytes. Each has a LEN field, unless one frame fills the packet. */
struct payload streams(size_t each);

/* Appends a STREAM frame of one byte, if the packet has room for it. */
bool put_byte_of(struct payload *payload, uint64_t stream, uint64_t offset);

#endif

#include "payloads.h"

#include <string.h>

static void put_byte(struct payload *payload, unsigned byte) { payload->bytes[payload->len++] = (uint8_t)byte; }

/* A number of variable length (section 16). */
static void put_number(struct payload *payload, uint64_t value) {
  unsigned kind = value < 64 ? 0 : value < 16384 ? 1 : value < (UINT64_C(1) << 30) ? 2 : 3;
  for (unsigned left = 1U << kind; left > 0; --left) {
    unsigned byte = (unsigned)(value >> (8 * (left - 1))) & 0xffU;
    put_byte(payload, left == 1U << kind ? byte | kind << 6 : byte);
  }
}

static void put_numbers(struct payload *payload, const uint64_t *values, size_t count) {
  for (size_t i = 0; i < count; ++i) put_number(payload, values[i]);
}

/* A STREAM frame (section 19.8). It has an OFF field unless the offset is 0. */
static void put_stream(struct payload *payload, uint64_t stream, uint64_t offset, size_t len, bool fin, bool has_len) {
  put_byte(payload, 0x08U | (offset > 0 ? 4U : 0U) | (has_len ? 2U : 0U) | (fin ? 1U : 0U));
  put_number(payload, stream);
  if (offset > 0) put_number(payload, offset);
  if (has_len) put_number(payload, len);
  memcpy(payload->bytes + payload->len, source_at(offset), len);
  payload->len += len;
  ++payload->frames;
}

struct payload mixed(void) {
  /* An ACK of 1 to 3, 7 to 8, 20 to 22 and 30, and seven control frames. */
  static const uint64_t ack[] = {2, 30, 0, 3, 0, 6, 2, 10, 1, 2, 2};
  static const uint64_t control[] = {0x10, 1 << 24, 0x11, 4, 70000, 4, 8, 7, 5000, 5, 12, 7, 0x12, 128, 0x15, 4, 70000, 1};
  struct payload payload = {.len = 0};
  while (payload.len < 1100) {
    put_numbers(&payload, ack, sizeof ack / sizeof *ack);
    put_numbers(&payload, control, sizeof control / sizeof *control);
    payload.frames += 8;
    for (uint64_t k = 0; k < 4; ++k) put_stream(&payload, 4 * k, 4096 * k, 32, k == 3, true);
  }
  return payload;
}

struct payload streams(size_t each) {
  struct payload payload = {.len = 0};
  while (payload.len + each + 13 <= CHUNK) {
    put_stream(&payload, 5, (UINT64_C(1) << 20) + payload.frames * each, each, false, each < 1000);
  }
  return payload;
}

bool put_byte_of(struct payload *payload, uint64_t stream, uint64_t offset) {
  if (payload->len + 16 > CHUNK) return false;
  put_stream(payload, stream, offset, 1, false, true);
  return true;
}

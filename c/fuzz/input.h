/* How an input is read. Each of these functions is called by a statement of its own, since C leaves the order open in which the arguments
 * of a call, or the values of a list, are computed: then an input means the same whatever compiled the target. rust/fuzz reads it alike. */
#ifndef GV_FUZZ_INPUT_H
#define GV_FUZZ_INPUT_H

#include <stddef.h>
#include <stdint.h>

typedef struct input {
  const uint8_t *at;
  size_t len; /* how many bytes are left */
} input;

/* The next byte, 0 where none is left. */
static inline unsigned take_byte(input *in) {
  if (in->len == 0) return 0;
  in->len--;
  return *in->at++;
}

/* A number. Small ones, powers of two and those below them take one byte, any other nine. */
static inline uint64_t take_number(input *in) {
  uint64_t number = take_byte(in);
  if (number < 0x80) return number;
  if (number < 0xc0) return UINT64_C(1) << (number - 0x80);
  if (number < 0xff) return (UINT64_C(1) << (number - 0xc0)) - 1;
  for (int i = 0; i < 8; i++) number = number << 8 | take_byte(in);
  return number;
}

/* A number of bytes up to 131,072, of which the smaller ones come more often. */
static inline size_t take_size(input *in) {
  unsigned code = take_byte(in);
  if (code < 0x80) return 10 * (size_t)code;
  return ((size_t)1 << code % 18) - (code >> 5 & 1);
}

/* The next bytes as they are: at most so many, and as many as are left. */
static inline const uint8_t *take_bytes(input *in, size_t most, size_t *len) {
  const uint8_t *at = in->at;
  *len = most < in->len ? most : in->len;
  in->at += *len;
  in->len -= *len;
  return at;
}

#endif

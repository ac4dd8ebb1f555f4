/* Frames are written as section 19 of RFC 9000 spells them, and what is none is refused. */
#include <stdio.h>
#include <string.h>

#include "gotsavena.h"

static int failed;

static void want(bool holds, const char *what) {
  if (holds) return;
  fprintf(stderr, "%s\n", what);
  failed = 1;
}

static const uint8_t letters[] = "abcdefghijklmnopqrstuvwxyz";

/* The frame has this text, where there is just room for it, and is refused where there is less. */
static void spells(const gv_frame *frame, const char *text, size_t len, const char *what) {
  uint8_t out[64];
  size_t written = 99;
  memset(out, 0xee, sizeof out);
  want(gv_put(frame, out, len - 1, &written) == GV_NO_ROOM && written == 99 && out[0] == 0xee, what);
  want(gv_put(frame, out, len, &written) == GV_OK && written == len && memcmp(out, text, len) == 0 && out[len] == 0xee, what);
}

static void refused(const gv_frame *frame, const char *what) {
  uint8_t out[64];
  size_t written = 99;
  want(gv_put(frame, out, sizeof out, &written) == GV_INVALID && written == 99, what);
}

static void of_streams(void) {
  gv_frame reset = {.size = sizeof reset, .kind = GV_FRAME_RESET_STREAM, .stream = 4, .code = 7, .final_size = 64};
  spells(&reset, "\x04\x04\x07\x40\x40", 5, "RESET_STREAM");
  gv_frame stop = {.size = sizeof stop, .kind = GV_FRAME_STOP_SENDING, .stream = 4, .code = 7};
  spells(&stop, "\x05\x04\x07", 3, "STOP_SENDING");
  gv_frame stream = {.size = sizeof stream, .kind = GV_FRAME_STREAM, .stream = 4, .bytes = letters, .len = 3};
  spells(&stream, "\x0a\x04\x03""abc", 6, "STREAM");
  stream.offset = 16384;
  stream.fin = true;
  spells(&stream, "\x0f\x04\x80\x00\x40\x00\x03""abc", 10, "STREAM with an offset");
  gv_frame max = {.size = sizeof max, .kind = GV_FRAME_MAX_STREAM_DATA, .stream = 4, .limit = 5};
  spells(&max, "\x11\x04\x05", 3, "MAX_STREAM_DATA");
  max.kind = GV_FRAME_STREAM_DATA_BLOCKED;
  spells(&max, "\x15\x04\x05", 3, "STREAM_DATA_BLOCKED");
  gv_frame streams = {.size = sizeof streams, .kind = GV_FRAME_MAX_STREAMS, .dir = GV_DIR_UNI, .limit = 8};
  spells(&streams, "\x13\x08", 2, "MAX_STREAMS");
  streams.kind = GV_FRAME_STREAMS_BLOCKED;
  spells(&streams, "\x17\x08", 2, "STREAMS_BLOCKED");
  streams.dir = GV_DIR_BIDI;
  spells(&streams, "\x16\x08", 2, "STREAMS_BLOCKED of both directions");
}

static void of_connections(void) {
  gv_frame plain = {.size = sizeof plain, .kind = GV_FRAME_PADDING};
  spells(&plain, "\x00", 1, "PADDING");
  plain.kind = GV_FRAME_PING;
  spells(&plain, "\x01", 1, "PING");
  plain.kind = GV_FRAME_HANDSHAKE_DONE;
  spells(&plain, "\x1e", 1, "HANDSHAKE_DONE");
  gv_frame limit = {.size = sizeof limit, .kind = GV_FRAME_MAX_DATA, .limit = (UINT64_C(1) << 62) - 1};
  spells(&limit, "\x10\xff\xff\xff\xff\xff\xff\xff\xff", 9, "MAX_DATA");
  limit.kind = GV_FRAME_DATA_BLOCKED;
  spells(&limit, "\x14\xff\xff\xff\xff\xff\xff\xff\xff", 9, "DATA_BLOCKED");
  gv_frame bytes = {.size = sizeof bytes, .kind = GV_FRAME_CRYPTO, .offset = 5, .bytes = letters, .len = 2};
  spells(&bytes, "\x06\x05\x02""ab", 5, "CRYPTO");
  bytes.kind = GV_FRAME_NEW_TOKEN;
  spells(&bytes, "\x07\x02""ab", 4, "NEW_TOKEN");
  bytes.kind = GV_FRAME_PATH_CHALLENGE;
  bytes.len = 8;
  spells(&bytes, "\x1a""abcdefgh", 9, "PATH_CHALLENGE");
  bytes.kind = GV_FRAME_PATH_RESPONSE;
  spells(&bytes, "\x1b""abcdefgh", 9, "PATH_RESPONSE");
  gv_frame id = {.size = sizeof id, .kind = GV_FRAME_NEW_CONNECTION_ID, .sequence = 5, .retire = 2, .bytes = letters + 20, .len = 4, .token = letters};
  spells(&id, "\x18\x05\x02\x04uvwxabcdefghijklmnop", 24, "NEW_CONNECTION_ID");
  gv_frame retire = {.size = sizeof retire, .kind = GV_FRAME_RETIRE_CONNECTION_ID, .sequence = 5};
  spells(&retire, "\x19\x05", 2, "RETIRE_CONNECTION_ID");
  gv_frame close = {.size = sizeof close, .kind = GV_FRAME_CONNECTION_CLOSE, .code = 3, .at_fault = 10, .bytes = letters, .len = 1};
  spells(&close, "\x1c\x03\x0a\x01""a", 5, "CONNECTION_CLOSE");
  close.kind = GV_FRAME_APPLICATION_CLOSE;
  close.bytes = NULL;
  close.len = 0;
  spells(&close, "\x1d\x03\x00", 3, "APPLICATION_CLOSE");
}

static void none_of_them(void) {
  const uint64_t big = UINT64_C(1) << 62;
  refused(&(gv_frame){.size = sizeof(gv_frame), .kind = 21}, "a kind");
  refused(&(gv_frame){.size = sizeof(gv_frame), .kind = GV_FRAME_MAX_STREAMS, .dir = 2}, "a direction");
  refused(&(gv_frame){.size = sizeof(gv_frame), .kind = GV_FRAME_MAX_STREAMS, .limit = (UINT64_C(1) << 60) + 1}, "a count");
  refused(&(gv_frame){.size = sizeof(gv_frame), .kind = GV_FRAME_MAX_DATA, .limit = big}, "a limit");
  refused(&(gv_frame){.size = sizeof(gv_frame), .kind = GV_FRAME_RESET_STREAM, .stream = big}, "a stream");
  refused(&(gv_frame){.size = sizeof(gv_frame), .kind = GV_FRAME_RESET_STREAM, .code = big}, "a code");
  refused(&(gv_frame){.size = sizeof(gv_frame), .kind = GV_FRAME_RESET_STREAM, .final_size = big}, "a final size");
  refused(&(gv_frame){.size = sizeof(gv_frame), .kind = GV_FRAME_CRYPTO, .offset = big - 2, .bytes = letters, .len = 2}, "an end");
  refused(&(gv_frame){.size = sizeof(gv_frame), .kind = GV_FRAME_STREAM, .bytes = NULL, .len = 1}, "bytes at null");
  refused(&(gv_frame){.size = sizeof(gv_frame), .kind = GV_FRAME_PATH_CHALLENGE, .bytes = letters, .len = 9}, "nine bytes");
  refused(&(gv_frame){.size = sizeof(gv_frame), .kind = GV_FRAME_PATH_RESPONSE, .bytes = letters, .len = 7}, "seven bytes");
  refused(&(gv_frame){.size = sizeof(gv_frame), .kind = GV_FRAME_NEW_CONNECTION_ID, .token = letters}, "no identifier");
  refused(&(gv_frame){.size = sizeof(gv_frame), .kind = GV_FRAME_NEW_CONNECTION_ID, .bytes = letters, .len = 21, .token = letters}, "21 bytes");
  refused(&(gv_frame){.size = sizeof(gv_frame), .kind = GV_FRAME_NEW_CONNECTION_ID, .bytes = letters, .len = 4}, "no token");
  refused(&(gv_frame){.size = sizeof(gv_frame), .kind = GV_FRAME_ACK, .largest = 5}, "no range");
  refused(&(gv_frame){.size = sizeof(gv_frame), .kind = GV_FRAME_ACK, .largest = 5, .bytes = (const uint8_t *)"\x01\x01", .len = 2}, "half a range");
  refused(&(gv_frame){.size = sizeof(gv_frame), .kind = GV_FRAME_ACK, .largest = 5, .bytes = (const uint8_t *)"\x00\x40", .len = 2}, "half a number");
  refused(&(gv_frame){.size = sizeof(gv_frame), .kind = GV_FRAME_ACK, .largest = 5, .bytes = (const uint8_t *)"\x06", .len = 1}, "below zero");
  refused(&(gv_frame){.size = sizeof(gv_frame), .kind = GV_FRAME_ACK, .largest = 5, .bytes = (const uint8_t *)"\x05", .len = 1, .delay = big}, "a delay");
  refused(&(gv_frame){.size = sizeof(gv_frame), .kind = GV_FRAME_ACK, .bytes = (const uint8_t *)"\x00", .len = 1, .has_ecn = true, .ce = big}, "a mark");
}

static void acks(void) {
  gv_range ranges[33] = {{100, 200}, {5, 9}, {1, 2}}, range;
  uint8_t out[64];
  size_t count = 0, len = 0;
  want(gv_put_ack(ranges, 3, 7, out, sizeof out, &count, &len) == GV_OK && count == 3 && len == 12, "an ACK");
  want(memcmp(out, "\x02\x40\xc8\x07\x02\x40\x64\x40\x59\x04\x01\x01", 12) == 0, "its text");
  want(gv_put_ack(ranges, 3, 7, out, 11, &count, &len) == GV_OK && count == 2 && len == 10, "an ACK of two ranges");
  want(gv_put_ack(ranges, 3, 7, out, 6, &count, &len) == GV_NO_ROOM && count == 2, "no room for an ACK");
  want(gv_put_ack(ranges, 0, 7, out, sizeof out, &count, &len) == GV_INVALID, "no ranges");
  want(gv_put_ack(ranges, 33, 7, out, sizeof out, &count, &len) == GV_INVALID, "33 ranges");
  want(gv_put_ack(NULL, 1, 7, out, sizeof out, &count, &len) == GV_INVALID, "ranges at null");
  want(gv_put_ack(ranges, 1, UINT64_C(1) << 62, out, sizeof out, &count, &len) == GV_INVALID, "the delay of an ACK");
  ranges[1].largest = 99;
  want(gv_put_ack(ranges, 2, 7, out, sizeof out, &count, &len) == GV_INVALID, "ranges without a gap");
  ranges[0].largest = 99;
  want(gv_put_ack(ranges, 1, 7, out, sizeof out, &count, &len) == GV_INVALID, "a range of none");
  gv_acked left = {(const uint8_t *)"\x01\x00\x02", 3, 9};
  want(gv_ack_next(&left, &range) == GV_OK && range.smallest == 8 && range.largest == 9, "a range");
  want(gv_ack_next(&left, &range) == GV_OK && range.smallest == 4 && range.largest == 6, "the next range");
  want(gv_ack_next(&left, &range) == GV_NONE && gv_ack_next(NULL, &range) == GV_INVALID, "the last range");
  left.largest = UINT64_C(1) << 62;
  want(gv_ack_next(&left, &range) == GV_INVALID, "a largest number");
}

static void walks(void) {
  static const uint8_t payload[] = {0x01, 0x0a};
  gv_frames frames = {payload, sizeof payload, 0};
  gv_frame frame = {.size = sizeof frame};
  gv_fault fault = {.size = sizeof fault};
  want(gv_frames_next(&frames, &frame, &fault) == GV_OK && frame.kind == GV_FRAME_PING && frames.place == 1, "a PING");
  want(gv_frames_next(&frames, &frame, &fault) == GV_BAD_FRAME && frames.place == 1, "a fault");
  want(fault.kind == GV_FAULT_TRUNCATED && fault.code == 7 && fault.type == 0x0a && fault.place == 1, "what it tells");
  frames.place = 3;
  want(gv_frames_next(&frames, &frame, &fault) == GV_INVALID, "past the end");
  frames.place = 2;
  want(gv_frames_next(&frames, &frame, &fault) == GV_NONE, "the end");
  gv_frames nothing = {NULL, 0, 0};
  want(gv_frames_next(&nothing, &frame, &fault) == GV_BAD_FRAME && fault.kind == GV_FAULT_EMPTY && fault.code == 10, "no payload");
  nothing.len = 1;
  want(gv_frames_next(&nothing, &frame, &fault) == GV_INVALID, "a payload at null");
  want(gv_frames_next(&frames, NULL, &fault) == GV_INVALID && gv_frames_next(NULL, &frame, &fault) == GV_INVALID, "null");
}

int main(void) {
  of_streams();
  of_connections();
  none_of_them();
  acks();
  walks();
  return failed;
}

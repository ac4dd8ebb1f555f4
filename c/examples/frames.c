/* Shows the frames of a payload that is given in hex, a line for each, and then their canonical text or the fault that ends them. It
 * prints what `qstream frames` prints, and ends with 1 where there is a fault. */
#include <inttypes.h>
#include <stdio.h>
#include <stdlib.h>
#include <string.h>

#include "gotsavena.h"

enum { MOST = 65535 };

static const char *const names[] = {
  "PADDING",
  "PING",
  "ACK",
  "RESET_STREAM",
  "STOP_SENDING",
  "CRYPTO",
  "NEW_TOKEN",
  "STREAM",
  "MAX_DATA",
  "MAX_STREAM_DATA",
  "MAX_STREAMS",
  "DATA_BLOCKED",
  "STREAM_DATA_BLOCKED",
  "STREAMS_BLOCKED",
  "NEW_CONNECTION_ID",
  "RETIRE_CONNECTION_ID",
  "PATH_CHALLENGE",
  "PATH_RESPONSE",
  "CONNECTION_CLOSE",
  "APPLICATION_CLOSE",
  "HANDSHAKE_DONE",
};

static void number(const char *name, uint64_t value) { printf(" %s=%" PRIu64, name, value); }

static void hex(const uint8_t *bytes, size_t len) {
  if (len == 0) printf("-");
  for (size_t i = 0; i < len; i++) printf("%02x", bytes[i]);
}

static void text(const char *name, const uint8_t *bytes, size_t len) {
  printf(" %s=", name);
  hex(bytes, len);
}

static void ranges(const gv_frame *frame) {
  gv_acked left = {frame->bytes, frame->len, frame->largest};
  gv_range range;
  const char *before = " ranges=";
  for (; gv_ack_next(&left, &range) == GV_OK; before = ",")
    printf("%s%" PRIu64 "..%" PRIu64, before, range.smallest, range.largest);
}

static void show_streams(const gv_frame *frame) {
  printf(" dir=%s", frame->dir == GV_DIR_BIDI ? "bidi" : "uni");
  number("count", frame->limit);
}

static void show_ack(const gv_frame *frame) {
  number("delay", frame->delay);
  ranges(frame);
  if (frame->has_ecn) printf(" ecn=%" PRIu64 ",%" PRIu64 ",%" PRIu64, frame->ect0, frame->ect1, frame->ce);
}

static void show_stream(const gv_frame *frame) {
  number("offset", frame->offset);
  printf(" fin=%s", frame->fin ? "yes" : "no");
  text("bytes", frame->bytes, frame->len);
}

/* What a frame of a stream holds. */
static void show_of_stream(const gv_frame *frame) {
  number("stream", frame->stream);
  switch (frame->kind) {
    case GV_FRAME_RESET_STREAM: number("code", frame->code); number("final", frame->final_size); break;
    case GV_FRAME_STOP_SENDING: number("code", frame->code); break;
    case GV_FRAME_STREAM: show_stream(frame); break;
    case GV_FRAME_MAX_STREAM_DATA: number("max", frame->limit); break;
    default: number("limit", frame->limit); break;
  }
}

static void show_id(const gv_frame *frame) {
  number("seq", frame->sequence);
  if (frame->kind == GV_FRAME_RETIRE_CONNECTION_ID) return;
  number("retire", frame->retire);
  text("id", frame->bytes, frame->len);
  text("token", frame->token, 16);
}

static void show_close(const gv_frame *frame) {
  number("code", frame->code);
  if (frame->kind == GV_FRAME_CONNECTION_CLOSE) printf(" type=0x%02" PRIx64, frame->at_fault);
  text("reason", frame->bytes, frame->len);
}

static void show(const gv_frame *frame) {
  printf("%zu %s", frame->place, names[frame->kind]);
  switch (frame->kind) {
    case GV_FRAME_PADDING: case GV_FRAME_PING: case GV_FRAME_HANDSHAKE_DONE: break;
    case GV_FRAME_ACK: show_ack(frame); break;
    case GV_FRAME_CRYPTO: number("offset", frame->offset); text("bytes", frame->bytes, frame->len); break;
    case GV_FRAME_NEW_TOKEN: text("token", frame->bytes, frame->len); break;
    case GV_FRAME_MAX_DATA: number("max", frame->limit); break;
    case GV_FRAME_DATA_BLOCKED: number("limit", frame->limit); break;
    case GV_FRAME_MAX_STREAMS: case GV_FRAME_STREAMS_BLOCKED: show_streams(frame); break;
    case GV_FRAME_NEW_CONNECTION_ID: case GV_FRAME_RETIRE_CONNECTION_ID: show_id(frame); break;
    case GV_FRAME_PATH_CHALLENGE: case GV_FRAME_PATH_RESPONSE: text("bytes", frame->bytes, frame->len); break;
    case GV_FRAME_CONNECTION_CLOSE: case GV_FRAME_APPLICATION_CLOSE: show_close(frame); break;
    default: show_of_stream(frame); break;
  }
  printf("\n");
}

static bool parse(const char *word, uint8_t *bytes, size_t *len) {
  size_t digits = strlen(word);
  if (digits % 2 != 0 || digits / 2 > MOST || strspn(word, "0123456789abcdefABCDEF") != digits) return false;
  for (size_t i = 0; i < digits / 2; i++) {
    char pair[3] = {word[2 * i], word[2 * i + 1], '\0'};
    bytes[i] = (uint8_t)strtoul(pair, NULL, 16);
  }
  *len = digits / 2;
  return true;
}

int main(int count, char **words) {
  static uint8_t payload[MOST], canonical[9 * MOST];
  size_t all = 0, written = 0;
  gv_frames frames = {payload, 0, 0};
  gv_frame frame = {.size = sizeof frame};
  gv_fault fault = {.size = sizeof fault};
  gv_status status;
  if (count != 2 || !parse(words[1], payload, &frames.len)) {
    fprintf(stderr, "frames HEX: shows the frames of a payload\n");
    return 2;
  }
  while ((status = gv_frames_next(&frames, &frame, &fault)) == GV_OK) {
    show(&frame);
    if (gv_put(&frame, canonical + all, sizeof canonical - all, &written) != GV_OK) return 3;
    all += written;
  }
  if (status == GV_BAD_FRAME) {
    printf("fault %d place %zu code 0x%02" PRIx64 " type 0x%02" PRIx64 "\n", (int)fault.kind, fault.place, fault.code, fault.type);
    return 1;
  }
  printf("canonical ");
  hex(canonical, all);
  printf("\n");
  return 0;
}

/* What was reported to the application, and what is noted for that: writes that were cut short, streams that were read, and blocked frames.
 * The proved notes need these calls made, so the library makes them. */
#ifndef GOTSAVENA_HEARING_H
#define GOTSAVENA_HEARING_H

#include "calls.h"

/* Notes are made with the first thing to note, since they take 2.9 KB, more than half of what an endpoint does, and many applications want
 * no events. False if there is no memory for them. */
static bool listens(gv_endpoint *end) { return end->heard.live || leave(end, gvp_heard_new(enter_heard(end))) == GV_OK; }

/* Notes a write that was cut short and found no memory for it before: the application is about to write the rest. False if there is none
 * again. */
static bool catch_up(gv_endpoint *end) {
  if (end->unnoted == NO_STREAM) return true;
  if (!listens(end)) return false;
  if (leave(end, gvp_will_write(&end->heard, enter(end), end->unnoted, SIZE_MAX)) == GV_NO_MEMORY) return false;
  end->unnoted = NO_STREAM;
  return true;
}

/* After a read or a stop the stream may become readable again, so the notes forget that it was reported. */
static gv_status read_on(gv_endpoint *end, uint64_t stream, gv_status status) {
  if (end->heard.live) (void)leave(end, gvp_was_read(&end->heard, enter(end), stream));
  return status;
}

/* A PING changes nothing and takes no memory, and a closed endpoint answers it with the very status that is wanted. */
static gv_status ask_open(gv_endpoint *end) {
  gvp_frame ping;
  uint32_t taken = 0;
  memset(&ping, 0, sizeof ping);
  ping.kind = GV_FRAME_PING;
  return leave(end, gvp_take_frame(enter(end), &ping, none, 0, &taken));
}

static bool says_blocked(const gvp_frame *frame) { return frame->kind >= GV_FRAME_DATA_BLOCKED && frame->kind <= GV_FRAME_STREAMS_BLOCKED; }

/* Notes what found no memory before. A stream whose length became known meanwhile waits for no limit, so it is left out. */
static bool note_said(gv_endpoint *end) {
  gvp_frame frame;
  memset(&frame, 0, sizeof frame);
  frame.kind = GV_FRAME_STREAM_DATA_BLOCKED;
  frame.limit = MOST_NUMBER;
  for (; end->said_count > 0; end->said_count--) {
    frame.stream = end->said.at[end->said_count - 1];
    if (leave(end, gvp_was_told(&end->heard, enter(end), &frame, none, 0)) == GV_NO_MEMORY) return false;
  }
  give_back(end);
  return true;
}

/* Takes the room for the notes of so many frames before they take effect. A note whose mark finds no memory waits there, and is left out
 * only if its stream's length becomes known before it is marked. */
static bool expect(gv_endpoint *end, size_t count) {
  return count == 0 || (listens(end) && note_said(end) && has_room(end, &end->said, count));
}

static void note_blocked(gv_endpoint *end, const gvp_frame *frame) {
  if (leave(end, gvp_was_told(&end->heard, enter(end), frame, none, 0)) == GV_NO_MEMORY) end->said.at[end->said_count++] = frame->stream;
}

/* Counts the blocked frames of a payload, up to its first fault, where gv_receive() ends too; or notes each. */
static size_t look_through(gv_endpoint *end, const uint8_t *payload, size_t len, bool is_noted) {
  gvp_frame frame;
  gvp_fault fault = {0, 0, 0, 0};
  size_t place = 0, count = 0;
  memset(&frame, 0, sizeof frame);
  while (gvp_frames_next(payload, len, &place, &frame, &fault) == GV_OK) {
    if (!says_blocked(&frame)) continue;
    count++;
    if (is_noted) note_blocked(end, &frame);
  }
  return count;
}

/* Counts, before a payload is processed, the frames to be noted afterwards, and takes room for their notes; false if there is none. */
static bool expect_payload(gv_endpoint *end, const uint8_t *payload, size_t len, size_t *count) {
  *count = 0;
  if (!end->looks || ask_open(end) != GV_OK) return true;
  *count = look_through(end, payload, len, false);
  return expect(end, *count);
}

#endif

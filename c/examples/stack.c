/* Two stacks that own their packets, over a link that drops every fifth one of each. Packet numbers, ACKs, PINGs and a HANDSHAKE_DONE are
 * theirs; their ends see frames and tokens alone, and tell by events when there is something to read or to write. */
#include <stdio.h>
#include <stdlib.h>
#include <string.h>

#include "gotsavena.h"

enum {
  TOTAL = 1 << 20,
  ROOM = 1200,
  AT_ONCE = 8,  /* how many frames of a packet are handed in at once */
  MOST = 32,    /* how many packets may be under way, and how many ranges an ACK has */
  REORDERED = 3 /* how many later packets are acknowledged before one counts as lost (RFC 9002, section 6.1.1) */
};

struct packet {
  uint64_t number;
  size_t len;
  uint8_t payload[ROOM];
};

/* What is to be known of a packet until it is acknowledged or lost. */
struct record {
  bool is_out;
  bool has_done; /* it has the stack's own HANDSHAKE_DONE */
  bool has_token;
  uint64_t number;
  gv_token token; /* of what the end filled in */
};

struct stack {
  gv_endpoint *end;
  uint64_t next;            /* the number of the next packet */
  struct record sent[MOST]; /* by number */
  gv_range came[MOST];      /* the packets that came, the highest first */
  size_t ranges;
  bool owes_ack;
  bool owes_done;
  bool is_done; /* the peer's HANDSHAKE_DONE came */
};

static void want(gv_status status, gv_status wanted, const char *what) {
  if (status == wanted) return;
  fprintf(stderr, "%s: %s\n", what, gv_strerror(status));
  exit(1);
}

static void put_own(struct packet *packet, gv_frame_kind kind) {
  gv_frame frame = {.size = sizeof frame, .kind = kind};
  size_t len = 0;
  want(gv_put(&frame, packet->payload + packet->len, ROOM - packet->len, &len), GV_OK, "put");
  packet->len += len;
}

static void put_ack(struct stack *stack, struct packet *packet) {
  size_t len = 0, written = 0;
  want(gv_put_ack(stack->came, stack->ranges, 0, packet->payload, ROOM, &written, &len), GV_OK, "put an ACK");
  packet->len += len;
  stack->owes_ack = false;
}

/* Frames that ask for an ACK: the stack's own, and what the end has to send. */
static void put_new(struct stack *stack, struct packet *packet, struct record *record) {
  gv_fill_request all = {.size = sizeof all, .items = true, .streams = true};
  gv_filled filled = {.size = sizeof filled};
  if (stack->owes_done) {
    put_own(packet, GV_FRAME_HANDSHAKE_DONE);
    record->has_done = true;
    stack->owes_done = false;
  }
  gv_status status = gv_fill(stack->end, &all, packet->payload + packet->len, ROOM - packet->len, &filled);
  if (status != GV_NONE) {
    want(status, GV_OK, "fill");
    packet->len += filled.len;
    record->has_token = true;
    record->token = filled.token;
  }
  record->number = packet->number;
  record->is_out = record->has_done || record->has_token;
}

static bool is_any_out(const struct stack *stack) {
  for (size_t i = 0; i < MOST; i++)
    if (stack->sent[i].is_out) return true;
  return false;
}

/* The next packet: an ACK where one is due, what is new, and a PING where all of that is under way. False where there is nothing to say. */
static bool make(struct stack *stack, struct packet *packet) {
  struct record *slot = &stack->sent[stack->next % MOST], fresh = {.is_out = false};
  packet->number = stack->next;
  packet->len = 0;
  if (stack->owes_ack) put_ack(stack, packet);
  if (!slot->is_out) put_new(stack, packet, &fresh);
  if (fresh.is_out) {
    *slot = fresh;
  } else if (is_any_out(stack)) {
    put_own(packet, GV_FRAME_PING);
  }
  if (packet->len == 0) return false;
  stack->next++;
  return true;
}

/* A packet is acknowledged: so is what the end put in. */
static void is_acked(struct stack *stack, struct record *record) {
  if (record->has_token) want(gv_token_acked(stack->end, &record->token), GV_OK, "acked");
  record->is_out = false;
}

/* A packet is lost: each puts in again what it had there. */
static void is_lost(struct stack *stack, struct record *record) {
  if (record->has_token) want(gv_token_lost(stack->end, &record->token), GV_OK, "lost");
  if (record->has_done) stack->owes_done = true;
  record->is_out = false;
}

/* The peer acknowledged packets. Those that lie well below the largest one are lost. */
static void take_ack(struct stack *stack, const gv_frame *ack) {
  gv_acked left = {ack->bytes, ack->len, ack->largest};
  gv_range range;
  while (gv_ack_next(&left, &range) == GV_OK)
    for (size_t i = 0; i < MOST; i++) {
      struct record *record = &stack->sent[i];
      if (record->is_out && range.smallest <= record->number && record->number <= range.largest) is_acked(stack, record);
    }
  for (size_t i = 0; i < MOST; i++) {
    struct record *record = &stack->sent[i];
    if (record->is_out && record->number + REORDERED <= ack->largest) is_lost(stack, record);
  }
}

/* A packet came, above all that came before: the link keeps their order. */
static void note(struct stack *stack, uint64_t number) {
  if (stack->ranges == 0 || stack->came[0].largest + 1 != number) {
    if (stack->ranges < MOST) stack->ranges++;
    memmove(stack->came + 1, stack->came, (stack->ranges - 1) * sizeof *stack->came);
    stack->came[0].smallest = number;
  }
  stack->came[0].largest = number;
}

/* Whether a frame of the peer's is the stack's own, and then takes it. */
static bool is_own(struct stack *stack, const gv_frame *frame) {
  switch (frame->kind) {
    case GV_FRAME_ACK: take_ack(stack, frame); return true;
    case GV_FRAME_HANDSHAKE_DONE: stack->is_done = stack->owes_ack = true; return true;
    case GV_FRAME_PING: stack->owes_ack = true; return true;
    default: stack->owes_ack = true; return false;
  }
}

/* Frames of the peer's are handed to the end. */
static void hand_in(struct stack *stack, const gv_frame *frames, size_t count) {
  gv_taken taken = GV_TAKEN_NOT_OURS;
  if (count == 0) return;
  want(gv_take_frames(stack->end, frames, count, &taken), GV_OK, "take frames");
  want(taken == GV_TAKEN_NOT_OURS ? GV_INVALID : GV_OK, GV_OK, "a frame that this stack has no use for");
}

/* Takes a packet in. It counts as one that came, and so is acknowledged, only once the end took each of its frames. */
static void take(struct stack *stack, const struct packet *packet) {
  gv_frames frames = {packet->payload, packet->len, 0};
  gv_frame came[AT_ONCE];
  gv_fault fault = {.size = sizeof fault};
  gv_status status;
  size_t count = 0;
  for (size_t i = 0; i < AT_ONCE; i++) came[i].size = sizeof *came;
  while ((status = gv_frames_next(&frames, &came[count], &fault)) == GV_OK) {
    if (!is_own(stack, &came[count])) count++;
    if (count < AT_ONCE) continue;
    hand_in(stack, came, count);
    count = 0;
  }
  want(status, GV_NONE, "a payload");
  hand_in(stack, came, count);
  note(stack, packet->number);
}

static unsigned sent, dropped;

/* A packet goes from one stack to the other, or is dropped. */
static void carry(struct stack *from, struct stack *to) {
  struct packet packet;
  if (!make(from, &packet)) return;
  sent++;
  if (packet.number % 5 == 4) dropped++;
  else take(to, &packet);
}

static uint8_t byte_at(size_t offset) { return (uint8_t)(offset * 31 + (offset >> 8)); }

/* Writes until a write is cut short, or all is written. */
static void write_some(gv_endpoint *end, uint64_t stream, size_t *written) {
  uint8_t bytes[4096];
  size_t count, len;
  do {
    len = TOTAL - *written < sizeof bytes ? TOTAL - *written : sizeof bytes;
    for (size_t i = 0; i < len; i++) bytes[i] = byte_at(*written + i);
    want(gv_write(end, stream, bytes, len, &count), GV_OK, "write");
    *written += count;
  } while (count == len && *written < TOTAL);
  if (*written == TOTAL) want(gv_finish(end, stream), GV_OK, "finish");
}

static void check(const uint8_t *bytes, size_t len, size_t *got) {
  for (size_t i = 0; i < len; i++)
    if (bytes[i] != byte_at((*got)++)) want(GV_INVALID, GV_OK, "byte");
}

/* What came is read where it lies, and each byte of it is checked. */
static void read_some(gv_endpoint *end, uint64_t stream, size_t *got) {
  gv_peeked next = {.size = sizeof next};
  size_t count = 0;
  bool at_end = false;
  while (gv_peek(end, stream, &next, NULL) == GV_OK) {
    check(next.front, next.front_len, got);
    check(next.back, next.back_len, got);
    want(gv_consume(end, stream, next.front_len + next.back_len, &count, &at_end, NULL), GV_OK, "consume");
  }
}

struct transfer {
  size_t written, got;
  bool is_received; /* all that was sent is acknowledged, and its end */
};

/* Does what an end tells that there is to do. */
static void hear(gv_endpoint *end, struct transfer *transfer) {
  gv_event event = {.size = sizeof event};
  gv_status status;
  while ((status = gv_next_event(end, &event)) == GV_OK) {
    if (event.kind == GV_EVENT_READABLE) read_some(end, event.stream, &transfer->got);
    if (event.kind == GV_EVENT_WRITABLE) write_some(end, event.stream, &transfer->written);
    if (event.kind == GV_EVENT_FINISHED) transfer->is_received = true;
  }
  want(status, GV_NONE, "events");
}

static void begin(struct stack *stack, gv_role role) {
  gv_settings settings;
  gv_limits limits = {.size = sizeof limits};
  memset(stack, 0, sizeof *stack);
  want(gv_settings_init(&settings, sizeof settings), GV_OK, "settings");
  want(gv_limits_of(&settings, &limits), GV_OK, "limits");
  want(gv_endpoint_new(role, &settings, &limits, &stack->end), GV_OK, "an end");
  stack->owes_done = role == GV_ROLE_SERVER;
}

int main(void) {
  struct stack client, server;
  uint64_t stream = 0;
  struct transfer transfer = {0, 0, false};
  begin(&client, GV_ROLE_CLIENT);
  begin(&server, GV_ROLE_SERVER);
  want(gv_open(client.end, GV_DIR_UNI, &stream, NULL), GV_OK, "open");
  write_some(client.end, stream, &transfer.written);
  while (!transfer.is_received || !client.is_done) {
    for (int turn = 0; turn < 4; turn++) carry(&client, &server);
    carry(&server, &client);
    hear(client.end, &transfer);
    hear(server.end, &transfer);
  }
  gv_endpoint_free(client.end);
  gv_endpoint_free(server.end);
  if (transfer.got != TOTAL) return 1;
  printf("%zu bytes came, each right, in %u packets, of which %u were dropped\n", transfer.got, sent, dropped);
  return 0;
}

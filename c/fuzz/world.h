/* Two endpoints that talk to each other, and what is known of them. Each file of this folder has the calls of one group, and checks what
 * gotsavena.h says of their answers. rust/fuzz does the same with the Rust crate: an input means there what it means here. */
#ifndef GV_FUZZ_WORLD_H
#define GV_FUZZ_WORLD_H

#include <stdbool.h>

#include "gotsavena.h"
#include "input.h"

enum { SIDES = 2, PACKETS = 16, STREAMS = 256, LOOKED_AT = 64, MOST_ROOM = 16383, MOST_PAYLOAD = 65535 };

/* A caller's allocator: it counts what it gave, and refuses when it is wanted. */
typedef struct memory {
  uint64_t asked;        /* how many allocations were asked for */
  uint64_t until;        /* how many of them are given until the next refusals, if there are some */
  unsigned refusals;     /* how many are refused then */
  uint64_t refused;      /* how many were refused so far */
  uint64_t blocks, bytes; /* how many are given and not taken back */
} memory;

typedef struct packet {
  uint8_t *bytes; /* null where no packet is kept */
  size_t len;
  unsigned from; /* the side that made it */
  bool came;     /* whether the other side processed it */
  gv_token token;
} packet;

/* What was last seen of a stream. */
typedef struct seen {
  gv_sending sending;
  gv_receiving receiving;
  uint64_t acked, taken;
  uint64_t stopped; /* the code of the peer's STOP_SENDING and one, or 0 */
} seen;

typedef struct side {
  gv_endpoint *end;
  unsigned name; /* 0 or 1 */
  gv_role role;
  memory memory;
  bool is_refusable; /* whether its memory comes from there */
  bool reads_when_closed, bounds_writes;
  bool is_foreign; /* whether bytes of streams may have come that follow no pattern */
  bool was_closed;
  uint64_t widest, widest_buffer; /* the widest window of the connection that was set, and the largest buffer of a stream */
  uint64_t granted, spent, taken, next_number;
  gv_token joined;
  seen seen[STREAMS];
  uint16_t news[STREAMS]; /* which events came of a stream, a bit for each kind */
} side;

typedef struct world {
  input in;
  side sides[SIDES];
  packet packets[PACKETS];
  size_t place;   /* where the next packet is kept */
  bool is_honest; /* whether each side got only what the other one made, under limits that the other one granted: then no rule is broken */
  bool is_whole;  /* whether no packet counts as acknowledged that didn't come */
  bool is_compared; /* whether answers still go into the digest: not once memory was refused, which C and Rust ask for in other places */
  uint64_t digest;
  unsigned calls; /* how many were made */
} world;

/* The sums over the streams of an endpoint, which it tells in constant time. */
typedef struct sums {
  uint64_t unsent, kept, taken, highest;
  uint64_t receiving, sending; /* how many halves there are that may hold a buffer */
} sums;

/* Ends the program where something doesn't hold. */
void check(bool holds, const char *what);

void mix(world *w, uint64_t value);
uint8_t pattern(unsigned sender, uint64_t stream, uint64_t offset);
bool has_pattern(unsigned sender, uint64_t stream, uint64_t offset, const uint8_t *bytes, size_t len);

/* memory.c */
gv_allocator allocator_of(side *s, bool can_reallocate);
void refuse(world *w, side *s);
void begin(side *s, uint64_t *before);
bool is_made_again(side *s, gv_status status, uint64_t before);

/* frames.c */
size_t compose(world *w, unsigned sender, uint8_t *out, size_t room);
void check_frames(const uint8_t *payload, size_t len);
void check_made(side *s, const uint8_t *payload, size_t len, bool is_ack_eliciting);
void read_frames(world *w, side *s);
void put_ranges(world *w, side *s);

/* packets.c */
void make(world *w, side *s);
void fill(world *w, side *s);
void deliver(world *w, side *s);
void lose(world *w, side *s);
void acknowledge(world *w, side *s);
void receive_raw(world *w, side *s);
void receive_composed(world *w, side *s);
void take_composed(world *w, side *s);
void receive_pieces(world *w, side *s);
void receive_numbers(world *w, side *s);
void receive_at_limit(world *w, side *s);
void receive_at_count(world *w, side *s);
void make_many(world *w, side *s);
void use_number(world *w, side *s);
void join(world *w, side *s);
void carry(world *w, side *s);
void settle(world *w);

/* streams.c */
void open_one(world *w, side *s);
void accept_one(world *w, side *s);
void write_some(world *w, side *s);
void end_sending(world *w, side *s);
void end_receiving(world *w, side *s);
void read_some(world *w, side *s);
void consume_some(world *w, side *s);
void set_one(world *w, side *s);
void raise_limits(world *w, side *s);
void note_closed(world *w, side *s);
void read_all(world *w, side *s);

/* events.c */
void hear(world *w, side *s);
void report_blocked(world *w, side *s);
void hear_all(world *w, side *s);

/* looks.c */
bool is_closed(const gv_endpoint *end);
void look(world *w, side *s);
uint64_t look_at_all(side *s);
void search(world *w, side *s);
void look_close(world *w, side *s);

/* arguments.c */
void pass_wrong_arguments(world *w, side *s);
void check_library(void);

/* target.c */
uint64_t run(const uint8_t *bytes, size_t len);

#endif

/* Two endpoints in one process, and what the rows do with them. */
#ifndef BENCH_ENDS_H
#define BENCH_ENDS_H

#include <gotsavena.h>

#include "rows.h"

/* The parameters of a row of the whole loop. */
struct load {
  size_t active;   /* how many streams carry bytes */
  size_t open;     /* how many are open: those above the active ones carry nothing */
  uint64_t window; /* of each stream, in bytes */
  size_t write;    /* how many bytes a call of gv_write is given */
  size_t burst;    /* how many packets are made before the other end acknowledges */
  uint64_t lose;   /* each so manyth packet is lost; none where it is 0 */
  uint64_t total;  /* how many bytes are read in all */
  size_t room;     /* of a packet, in bytes */
  size_t fill;     /* how many bytes are written in all before each burst, about */
};

struct load plain(void);

/* A packet's payload. */
struct packet {
  gv_made made;
  uint8_t *bytes;
};

struct pair {
  struct load load;
  gv_endpoint *sender;
  gv_endpoint *reader;
  uint64_t *streams; /* the active ones */
  uint64_t *given;   /* how many bytes each was given */
  uint64_t *taken;   /* how many were read of it */
  struct packet *packets;
  uint8_t *payloads;
  uint8_t *out; /* where bytes are read to */
  uint64_t *lost;
  size_t lost_count;
  uint64_t made;
  uint64_t written;
};

gv_settings settings_of(uint64_t conn_window, uint64_t window, size_t send_buffer, uint64_t streams);
gv_limits limits_of(const gv_settings *settings);
gv_endpoint *end_of(gv_role role, const gv_settings *settings);

struct pair *pair_new(struct load load);
void pair_free(struct pair *pair);
void pair_write(struct pair *pair);
void pair_carry(struct pair *pair);
uint64_t pair_read(struct pair *pair);
void pair_answer(struct pair *pair);

/* Receives a payload that must break no rule. */
void receive(gv_endpoint *end, uint64_t number, const uint8_t *payload, size_t len);

/* Delivers all that one endpoint has pending to the other. */
void hand_on(gv_endpoint *from, gv_endpoint *to);

#endif

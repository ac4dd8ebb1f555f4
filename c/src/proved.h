/* What stands below the calls of C: the exports of crates/qs_c, whose contracts say what each answers, or those of rust/capi, which are the
 * same source with its contracts removed. Made by scripts/exports. */
#ifndef GVP_PROVED_H
#define GVP_PROVED_H

#include <stdbool.h>
#include <stddef.h>
#include <stdint.h>

/* A handle: whether it holds an end, and its address. */
typedef struct gvp_handle {
  bool live;
  void *at;
} gvp_handle;

/* The same of what was heard at an end. */
typedef struct gvp_heard {
  bool live;
  void *at;
} gvp_heard;

typedef struct gvp_closing_info {
  uint64_t code;
  uint64_t frame_type;
  size_t place;
} gvp_closing_info;

typedef struct gvp_fault {
  uint64_t kind;
  uint64_t code;
  uint64_t frame_type;
  size_t place;
} gvp_fault;

typedef struct gvp_filled {
  bool has_last_stream;
  bool more;
  uint64_t token;
  size_t len;
  uint64_t last_stream;
} gvp_filled;

typedef struct gvp_frame {
  uint32_t kind;
  uint32_t dir;
  bool fin;
  bool has_ecn;
  size_t place;
  uint64_t frame_type;
  uint64_t stream;
  uint64_t offset;
  uint64_t code;
  uint64_t final_size;
  uint64_t limit;
  uint64_t largest;
  uint64_t delay;
  uint64_t ect0;
  uint64_t ect1;
  uint64_t ce;
  uint64_t sequence;
  uint64_t retire;
  uint64_t at_fault;
  size_t bytes_at;
  size_t len;
  size_t token_at;
} gvp_frame;

typedef struct gvp_given {
  gvp_frame frame;
  const uint8_t *bytes;
  size_t bytes_len;
} gvp_given;

typedef struct gvp_sending {
  uint32_t state;
  bool has_final_size;
  bool was_reset;
  uint64_t written;
  uint64_t limit;
  uint64_t final_size;
  uint64_t reset_code;
} gvp_sending;

typedef struct gvp_receiving {
  uint32_t state;
  bool has_final_size;
  bool was_reset;
  bool was_stopped;
  uint64_t read_count;
  uint64_t highest;
  uint64_t limit;
  uint64_t final_size;
  uint64_t reset_code;
  uint64_t stop_code;
} gvp_receiving;

typedef struct gvp_lane {
  bool has_sending;
  bool has_receiving;
  gvp_sending sending;
  gvp_receiving receiving;
} gvp_lane;

typedef struct gvp_limits {
  uint64_t max_data;
  uint64_t bidi_local;
  uint64_t bidi_remote;
  uint64_t uni;
  uint64_t streams_bidi;
  uint64_t streams_uni;
} gvp_limits;

typedef struct gvp_made {
  uint64_t number;
  size_t len;
  bool is_ack_eliciting;
} gvp_made;

typedef struct gvp_news {
  uint32_t kind;
  uint32_t dir;
  uint64_t stream;
  uint64_t code;
} gvp_news;

typedef struct gvp_pieces {
  const uint8_t *front;
  size_t front_len;
  const uint8_t *back;
  size_t back_len;
} gvp_pieces;

typedef struct gvp_range {
  uint64_t smallest;
  uint64_t largest;
} gvp_range;

typedef struct gvp_request {
  bool items;
  bool streams;
  bool alone;
  uint64_t first;
  size_t most_bytes;
} gvp_request;

typedef struct gvp_settings {
  uint64_t conn_window;
  uint64_t bidi_local;
  uint64_t bidi_remote;
  uint64_t uni;
  size_t send_buffer;
  uint64_t grant_bidi;
  uint64_t grant_uni;
  uint64_t lifetime_bidi;
  uint64_t lifetime_uni;
} gvp_settings;

typedef struct gvp_token {
  uint64_t epoch;
  uint64_t first;
  uint64_t number;
} gvp_token;

typedef struct gvp_told {
  uint32_t by;
  uint32_t kind;
  uint64_t code;
} gvp_told;

typedef struct gvp_tuning {
  uint32_t credit_step;
  uint32_t count_step;
  bool within_credit;
  bool reads_when_closed;
  uint64_t epoch;
  uint64_t send_window;
  bool answers_stops;
} gvp_tuning;

uint32_t gvp_accept(gvp_handle *end, uint64_t *stream);
uint32_t gvp_accept_of(gvp_handle *end, uint32_t dir, uint64_t *stream);
uint32_t gvp_ack_is_due(gvp_handle *end, bool *answer);
uint32_t gvp_ack_next(const uint8_t *bytes, size_t bytes_len, uint64_t *largest, size_t *used, gvp_range *range);
uint32_t gvp_acked_below(gvp_handle *end, uint64_t stream, uint64_t *offset);
uint32_t gvp_claim_number(gvp_handle *end, uint64_t *number);
uint32_t gvp_close_payload(gvp_handle *end, uint8_t *out, size_t out_len, size_t *len);
uint32_t gvp_closing(gvp_handle *end, gvp_closing_info *closing);
uint32_t gvp_consume(gvp_handle *end, uint64_t stream, size_t most, uint64_t *number, bool *at_end);
uint32_t gvp_credit_left(gvp_handle *end, uint64_t *count);
uint32_t gvp_declare_lost(gvp_handle *end, uint64_t number);
uint32_t gvp_fill(gvp_handle *end, const gvp_request *want, uint8_t *out, size_t out_len, gvp_filled *filled);
uint32_t gvp_finish(gvp_handle *end, uint64_t stream);
uint32_t gvp_frames_next(const uint8_t *payload, size_t payload_len, size_t *place, gvp_frame *frame, gvp_fault *fault);
void gvp_free(gvp_handle *end);
uint32_t gvp_granted(gvp_handle *end, uint64_t *count);
uint32_t gvp_granted_streams(gvp_handle *end, uint32_t dir, uint64_t *count);
void gvp_heard_drop(gvp_heard *heard);
uint32_t gvp_heard_new(gvp_heard *heard);
uint32_t gvp_held(gvp_handle *end, uint64_t *receiving, uint64_t *sending);
uint32_t gvp_is_blocked(gvp_handle *end, uint64_t stream, bool *answer);
uint32_t gvp_is_sendable(gvp_handle *end, bool *answer);
uint32_t gvp_kept_sum(gvp_handle *end, uint64_t *count);
uint32_t gvp_lane_report(gvp_handle *end, uint64_t stream, gvp_lane *lane);
uint32_t gvp_last_stream(const uint8_t *payload, size_t payload_len, uint64_t *stream);
uint32_t gvp_make_ack(gvp_handle *end, uint64_t delay, uint8_t *out, size_t out_len, gvp_made *made);
uint32_t gvp_make_packet_from(gvp_handle *end, uint64_t first, uint64_t delay, uint8_t *out, size_t out_len, gvp_made *made);
uint32_t gvp_new(gvp_handle *end, uint32_t role, const gvp_settings *settings, const gvp_tuning *tuning, const gvp_limits *peer);
uint32_t gvp_next_ended(gvp_handle *end, uint64_t from, uint64_t *stream);
uint32_t gvp_next_news(gvp_heard *heard, gvp_handle *end, gvp_news *news);
uint32_t gvp_next_number(gvp_handle *end, uint64_t *number);
uint32_t gvp_next_outstanding(gvp_handle *end, uint64_t from, uint64_t *number);
uint32_t gvp_next_readable(gvp_handle *end, uint64_t from, uint64_t *stream);
uint32_t gvp_next_sendable(gvp_handle *end, uint64_t from, uint64_t *stream);
uint32_t gvp_next_writable(gvp_handle *end, uint64_t from, uint64_t *stream);
uint32_t gvp_note_closed(gvp_handle *end, uint32_t by, uint32_t kind, uint64_t code);
uint32_t gvp_noted(gvp_handle *end, uint64_t *count);
uint32_t gvp_noted_close(gvp_handle *end, gvp_told *told);
uint32_t gvp_open(gvp_handle *end, uint32_t dir, uint64_t *number);
uint32_t gvp_open_left(gvp_handle *end, uint32_t dir, uint64_t *count);
uint32_t gvp_peek(gvp_handle *end, uint64_t stream, uint64_t *code, gvp_pieces *pieces);
uint32_t gvp_peer_closed(gvp_handle *end, uint64_t *code);
uint32_t gvp_put(const gvp_frame *frame, const uint8_t *bytes, size_t bytes_len, const uint8_t *token, size_t token_len, uint8_t *out,
                 size_t out_len, size_t *len);
uint32_t gvp_put_ack(const gvp_range *ranges, size_t ranges_len, uint64_t delay, uint8_t *out, size_t out_len, size_t *count, size_t *len);
uint32_t gvp_raise_limits(gvp_handle *end, const gvp_limits *limits);
uint32_t gvp_read(gvp_handle *end, uint64_t stream, uint8_t *into, size_t into_len, uint64_t *number);
uint32_t gvp_receive(gvp_handle *end, uint64_t number, const uint8_t *payload, size_t payload_len, gvp_closing_info *closing);
uint32_t gvp_receive_with_acks(gvp_handle *end, uint64_t number, const uint8_t *payload, size_t payload_len, gvp_closing_info *closing,
                               uint64_t *told, size_t told_len, size_t *count);
uint32_t gvp_reserve(gvp_handle *end);
uint32_t gvp_reset(gvp_handle *end, uint64_t stream, uint64_t code);
uint32_t gvp_room(gvp_handle *end, uint64_t stream, uint64_t *count);
uint32_t gvp_set_conn_window(gvp_handle *end, uint64_t window);
uint32_t gvp_set_grant(gvp_handle *end, uint32_t dir, uint64_t streams);
uint32_t gvp_set_send_buffer(gvp_handle *end, uint64_t stream, size_t size);
uint32_t gvp_set_stream_window(gvp_handle *end, uint64_t stream, uint64_t window);
uint32_t gvp_spent(gvp_handle *end, uint64_t *count);
uint32_t gvp_stop(gvp_handle *end, uint64_t stream, uint64_t code);
uint32_t gvp_stop_and_discard(gvp_handle *end, uint64_t stream, uint64_t code);
uint32_t gvp_stopped_with(gvp_handle *end, uint64_t stream, uint64_t *code);
uint32_t gvp_stored(gvp_handle *end, uint64_t *count);
uint32_t gvp_streams_left(gvp_handle *end, uint32_t dir, uint64_t *count);
uint32_t gvp_take_frame(gvp_handle *end, const gvp_frame *frame, const uint8_t *bytes, size_t bytes_len, uint32_t *taken);
uint32_t gvp_take_frames(gvp_handle *end, const gvp_given *frames, size_t frames_len, uint32_t *taken);
uint32_t gvp_taken_on(gvp_handle *end, uint64_t stream, uint64_t *count);
uint32_t gvp_taken_sum(gvp_handle *end, uint64_t *count);
uint32_t gvp_token_acked(gvp_handle *end, const gvp_token *token);
uint32_t gvp_token_and(const gvp_token *token, const gvp_token *next, gvp_token *both);
uint32_t gvp_token_lost(gvp_handle *end, const gvp_token *token);
uint32_t gvp_token_of(gvp_handle *end, uint64_t number, gvp_token *token);
uint32_t gvp_unsent(gvp_handle *end, uint64_t stream, uint64_t *count);
uint32_t gvp_unsent_sum(gvp_handle *end, uint64_t *count);
uint32_t gvp_wants(gvp_heard *heard, uint32_t dir);
uint32_t gvp_was_read(gvp_heard *heard, gvp_handle *end, uint64_t stream);
uint32_t gvp_was_told(gvp_heard *heard, gvp_handle *end, const gvp_frame *frame, const uint8_t *bytes, size_t bytes_len);
uint32_t gvp_will_write(gvp_heard *heard, gvp_handle *end, uint64_t stream, size_t len);
uint32_t gvp_write(gvp_handle *end, uint64_t stream, const uint8_t *bytes, size_t bytes_len, size_t *count);

#endif

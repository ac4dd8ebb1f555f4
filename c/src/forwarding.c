/* The public calls that only forward: each checks its pointers, and asks the export of its name. One that does more
 * stands in another file of this folder. Made by scripts/exports. */
#include "calls.h"

gv_status gv_set_conn_window(gv_endpoint *end, uint64_t window) {
  if (end == NULL) return GV_INVALID;
  return leave(end, gvp_set_conn_window(enter(end), window));
}

gv_status gv_set_grant(gv_endpoint *end, gv_dir dir, uint64_t streams) {
  if (end == NULL) return GV_INVALID;
  return leave(end, gvp_set_grant(enter(end), (uint32_t)dir, streams));
}

gv_status gv_declare_lost(gv_endpoint *end, uint64_t number) {
  if (end == NULL) return GV_INVALID;
  return leave(end, gvp_declare_lost(enter(end), number));
}

gv_status gv_claim_number(gv_endpoint *end, uint64_t *number) {
  uint64_t got_number = 0;
  if (end == NULL || number == NULL) return GV_INVALID;
  gv_status status = leave(end, gvp_claim_number(enter(end), &got_number));
  if (status == GV_OK) *number = got_number;
  return status;
}

gv_status gv_next_number(const gv_endpoint *end, uint64_t *number) {
  uint64_t got_number = 0;
  if (end == NULL || number == NULL) return GV_INVALID;
  gv_status status = leave(end, gvp_next_number(enter(end), &got_number));
  if (status == GV_OK) *number = got_number;
  return status;
}

gv_status gv_is_sendable(const gv_endpoint *end, bool *answer) {
  bool got_answer = false;
  if (end == NULL || answer == NULL) return GV_INVALID;
  gv_status status = leave(end, gvp_is_sendable(enter(end), &got_answer));
  if (status == GV_OK) *answer = got_answer;
  return status;
}

gv_status gv_ack_is_due(const gv_endpoint *end, bool *answer) {
  bool got_answer = false;
  if (end == NULL || answer == NULL) return GV_INVALID;
  gv_status status = leave(end, gvp_ack_is_due(enter(end), &got_answer));
  if (status == GV_OK) *answer = got_answer;
  return status;
}

gv_status gv_next_outstanding(const gv_endpoint *end, uint64_t from, uint64_t *number) {
  uint64_t got_number = 0;
  if (end == NULL || number == NULL) return GV_INVALID;
  gv_status status = leave(end, gvp_next_outstanding(enter(end), from, &got_number));
  if (status == GV_OK) *number = got_number;
  return status;
}

gv_status gv_accept(gv_endpoint *end, uint64_t *stream) {
  uint64_t got_stream = 0;
  if (end == NULL || stream == NULL) return GV_INVALID;
  gv_status status = leave(end, gvp_accept(enter(end), &got_stream));
  if (status == GV_OK) *stream = got_stream;
  return status;
}

gv_status gv_accept_of(gv_endpoint *end, gv_dir dir, uint64_t *stream) {
  uint64_t got_stream = 0;
  if (end == NULL || stream == NULL) return GV_INVALID;
  gv_status status = leave(end, gvp_accept_of(enter(end), (uint32_t)dir, &got_stream));
  if (status == GV_OK) *stream = got_stream;
  return status;
}

gv_status gv_set_send_buffer(gv_endpoint *end, uint64_t stream, size_t size) {
  if (end == NULL) return GV_INVALID;
  return leave(end, gvp_set_send_buffer(enter(end), stream, size));
}

gv_status gv_set_stream_window(gv_endpoint *end, uint64_t stream, uint64_t window) {
  if (end == NULL) return GV_INVALID;
  return leave(end, gvp_set_stream_window(enter(end), stream, window));
}

gv_status gv_finish(gv_endpoint *end, uint64_t stream) {
  if (end == NULL) return GV_INVALID;
  return leave(end, gvp_finish(enter(end), stream));
}

gv_status gv_reset(gv_endpoint *end, uint64_t stream, uint64_t code) {
  if (end == NULL) return GV_INVALID;
  return leave(end, gvp_reset(enter(end), stream, code));
}

gv_status gv_next_readable(const gv_endpoint *end, uint64_t from, uint64_t *stream) {
  uint64_t got_stream = 0;
  if (end == NULL || stream == NULL) return GV_INVALID;
  gv_status status = leave(end, gvp_next_readable(enter(end), from, &got_stream));
  if (status == GV_OK) *stream = got_stream;
  return status;
}

gv_status gv_next_writable(const gv_endpoint *end, uint64_t from, uint64_t *stream) {
  uint64_t got_stream = 0;
  if (end == NULL || stream == NULL) return GV_INVALID;
  gv_status status = leave(end, gvp_next_writable(enter(end), from, &got_stream));
  if (status == GV_OK) *stream = got_stream;
  return status;
}

gv_status gv_next_sendable(const gv_endpoint *end, uint64_t from, uint64_t *stream) {
  uint64_t got_stream = 0;
  if (end == NULL || stream == NULL) return GV_INVALID;
  gv_status status = leave(end, gvp_next_sendable(enter(end), from, &got_stream));
  if (status == GV_OK) *stream = got_stream;
  return status;
}

gv_status gv_next_ended(const gv_endpoint *end, uint64_t from, uint64_t *stream) {
  uint64_t got_stream = 0;
  if (end == NULL || stream == NULL) return GV_INVALID;
  gv_status status = leave(end, gvp_next_ended(enter(end), from, &got_stream));
  if (status == GV_OK) *stream = got_stream;
  return status;
}

gv_status gv_stopped_with(const gv_endpoint *end, uint64_t stream, uint64_t *code) {
  uint64_t got_code = 0;
  if (end == NULL || code == NULL) return GV_INVALID;
  gv_status status = leave(end, gvp_stopped_with(enter(end), stream, &got_code));
  if (status == GV_OK) *code = got_code;
  return status;
}

gv_status gv_is_blocked(const gv_endpoint *end, uint64_t stream, bool *answer) {
  bool got_answer = false;
  if (end == NULL || answer == NULL) return GV_INVALID;
  gv_status status = leave(end, gvp_is_blocked(enter(end), stream, &got_answer));
  if (status == GV_OK) *answer = got_answer;
  return status;
}

gv_status gv_room(const gv_endpoint *end, uint64_t stream, uint64_t *count) {
  uint64_t got_count = 0;
  if (end == NULL || count == NULL) return GV_INVALID;
  gv_status status = leave(end, gvp_room(enter(end), stream, &got_count));
  if (status == GV_OK) *count = got_count;
  return status;
}

gv_status gv_unsent(const gv_endpoint *end, uint64_t stream, uint64_t *count) {
  uint64_t got_count = 0;
  if (end == NULL || count == NULL) return GV_INVALID;
  gv_status status = leave(end, gvp_unsent(enter(end), stream, &got_count));
  if (status == GV_OK) *count = got_count;
  return status;
}

gv_status gv_acked_below(const gv_endpoint *end, uint64_t stream, uint64_t *offset) {
  uint64_t got_offset = 0;
  if (end == NULL || offset == NULL) return GV_INVALID;
  gv_status status = leave(end, gvp_acked_below(enter(end), stream, &got_offset));
  if (status == GV_OK) *offset = got_offset;
  return status;
}

gv_status gv_unsent_sum(const gv_endpoint *end, uint64_t *count) {
  uint64_t got_count = 0;
  if (end == NULL || count == NULL) return GV_INVALID;
  gv_status status = leave(end, gvp_unsent_sum(enter(end), &got_count));
  if (status == GV_OK) *count = got_count;
  return status;
}

gv_status gv_kept_sum(const gv_endpoint *end, uint64_t *count) {
  uint64_t got_count = 0;
  if (end == NULL || count == NULL) return GV_INVALID;
  gv_status status = leave(end, gvp_kept_sum(enter(end), &got_count));
  if (status == GV_OK) *count = got_count;
  return status;
}

gv_status gv_taken_on(const gv_endpoint *end, uint64_t stream, uint64_t *count) {
  uint64_t got_count = 0;
  if (end == NULL || count == NULL) return GV_INVALID;
  gv_status status = leave(end, gvp_taken_on(enter(end), stream, &got_count));
  if (status == GV_OK) *count = got_count;
  return status;
}

gv_status gv_taken_sum(const gv_endpoint *end, uint64_t *count) {
  uint64_t got_count = 0;
  if (end == NULL || count == NULL) return GV_INVALID;
  gv_status status = leave(end, gvp_taken_sum(enter(end), &got_count));
  if (status == GV_OK) *count = got_count;
  return status;
}

gv_status gv_credit_left(const gv_endpoint *end, uint64_t *count) {
  uint64_t got_count = 0;
  if (end == NULL || count == NULL) return GV_INVALID;
  gv_status status = leave(end, gvp_credit_left(enter(end), &got_count));
  if (status == GV_OK) *count = got_count;
  return status;
}

gv_status gv_streams_left(const gv_endpoint *end, gv_dir dir, uint64_t *count) {
  uint64_t got_count = 0;
  if (end == NULL || count == NULL) return GV_INVALID;
  gv_status status = leave(end, gvp_streams_left(enter(end), (uint32_t)dir, &got_count));
  if (status == GV_OK) *count = got_count;
  return status;
}

gv_status gv_open_left(const gv_endpoint *end, gv_dir dir, uint64_t *count) {
  uint64_t got_count = 0;
  if (end == NULL || count == NULL) return GV_INVALID;
  gv_status status = leave(end, gvp_open_left(enter(end), (uint32_t)dir, &got_count));
  if (status == GV_OK) *count = got_count;
  return status;
}

gv_status gv_granted_streams(const gv_endpoint *end, gv_dir dir, uint64_t *count) {
  uint64_t got_count = 0;
  if (end == NULL || count == NULL) return GV_INVALID;
  gv_status status = leave(end, gvp_granted_streams(enter(end), (uint32_t)dir, &got_count));
  if (status == GV_OK) *count = got_count;
  return status;
}

gv_status gv_stored(const gv_endpoint *end, uint64_t *count) {
  uint64_t got_count = 0;
  if (end == NULL || count == NULL) return GV_INVALID;
  gv_status status = leave(end, gvp_stored(enter(end), &got_count));
  if (status == GV_OK) *count = got_count;
  return status;
}

gv_status gv_noted(const gv_endpoint *end, uint64_t *count) {
  uint64_t got_count = 0;
  if (end == NULL || count == NULL) return GV_INVALID;
  gv_status status = leave(end, gvp_noted(enter(end), &got_count));
  if (status == GV_OK) *count = got_count;
  return status;
}

gv_status gv_held(const gv_endpoint *end, uint64_t *receiving, uint64_t *sending) {
  uint64_t got_receiving = 0;
  uint64_t got_sending = 0;
  if (end == NULL || receiving == NULL || sending == NULL) return GV_INVALID;
  gv_status status = leave(end, gvp_held(enter(end), &got_receiving, &got_sending));
  if (status == GV_OK) *receiving = got_receiving;
  if (status == GV_OK) *sending = got_sending;
  return status;
}

gv_status gv_granted(const gv_endpoint *end, uint64_t *count) {
  uint64_t got_count = 0;
  if (end == NULL || count == NULL) return GV_INVALID;
  gv_status status = leave(end, gvp_granted(enter(end), &got_count));
  if (status == GV_OK) *count = got_count;
  return status;
}

gv_status gv_spent(const gv_endpoint *end, uint64_t *count) {
  uint64_t got_count = 0;
  if (end == NULL || count == NULL) return GV_INVALID;
  gv_status status = leave(end, gvp_spent(enter(end), &got_count));
  if (status == GV_OK) *count = got_count;
  return status;
}

gv_status gv_peer_closed(const gv_endpoint *end, uint64_t *code) {
  uint64_t got_code = 0;
  if (end == NULL || code == NULL) return GV_INVALID;
  gv_status status = leave(end, gvp_peer_closed(enter(end), &got_code));
  if (status == GV_OK) *code = got_code;
  return status;
}

gv_status gv_note_closed(gv_endpoint *end, gv_closer by, gv_close_kind kind, uint64_t code) {
  if (end == NULL) return GV_INVALID;
  return leave(end, gvp_note_closed(enter(end), (uint32_t)by, (uint32_t)kind, code));
}

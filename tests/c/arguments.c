/* What a caller may not pass is answered with GV_INVALID, and nothing changes. */
#include <stddef.h>
#include <stdint.h>
#include <stdio.h>
#include <stdlib.h>
#include <string.h>

#include "gotsavena.h"

static int failed;

static void want(gv_status status, gv_status wanted, const char *what) {
  if (status == wanted) return;
  fprintf(stderr, "%s: %s, not %s\n", what, gv_strerror(status), gv_strerror(wanted));
  failed = 1;
}

/* The token of a number. */
static const gv_token *token_at(const gv_endpoint *end, uint64_t number) {
  static gv_token token;
  want(gv_token_of(end, number, &token), GV_OK, "a token");
  return &token;
}

static void *no_memory(void *context, size_t size, size_t align) {
  (void)context;
  (void)size;
  (void)align;
  return NULL;
}

static void no_release(void *context, void *at, size_t size, size_t align) {
  (void)context;
  (void)at;
  (void)size;
  (void)align;
  abort();
}

/* What the owner of an end chooses. */
static void tuned(const gv_settings *settings, const gv_limits *limits) {
  gv_tuning tuning;
  gv_endpoint *end = NULL;
  want(gv_tuning_init(NULL, sizeof tuning), GV_INVALID, "no tuning");
  want(gv_tuning_init(&tuning, offsetof(gv_tuning, epoch) - 1), GV_INVALID, "small tuning");
  want(gv_tuning_init(&tuning, sizeof tuning), GV_OK, "tuning");
  tuning.credit_step = GV_SHARE_NONE;
  want(gv_endpoint_new_tuned(GV_ROLE_CLIENT, settings, &tuning, limits, NULL, &end), GV_INVALID, "no share of a window");
  tuning.credit_step = (gv_share)5;
  want(gv_endpoint_new_tuned(GV_ROLE_CLIENT, settings, &tuning, limits, NULL, &end), GV_INVALID, "another share of a window");
  tuning.credit_step = GV_SHARE_SIXTEENTH;
  tuning.count_step = (gv_share)5;
  want(gv_endpoint_new_tuned(GV_ROLE_CLIENT, settings, &tuning, limits, NULL, &end), GV_INVALID, "another share of a grant");
  tuning.count_step = GV_SHARE_EIGHTH;
  tuning.answers_stops = (gv_switch)2;
  want(gv_endpoint_new_tuned(GV_ROLE_CLIENT, settings, &tuning, limits, NULL, &end), GV_INVALID, "another answer to a stop");
  tuning.answers_stops = GV_ON;
  tuning.spare = GV_ON;
  want(gv_endpoint_new_tuned(GV_ROLE_CLIENT, settings, &tuning, limits, NULL, &end), GV_INVALID, "a choice that there isn't");
  tuning.spare = GV_OFF;
  tuning.size = 8;
  want(gv_endpoint_new_tuned(GV_ROLE_CLIENT, settings, &tuning, limits, NULL, &end), GV_INVALID, "a small tuning");
  tuning.size = sizeof tuning;
  want(gv_endpoint_new_tuned(GV_ROLE_CLIENT, settings, &tuning, limits, NULL, &end), GV_OK, "a tuned end");
  gv_endpoint_free(end);
  want(gv_endpoint_new_tuned(GV_ROLE_CLIENT, settings, NULL, limits, NULL, &end), GV_OK, "an end that isn't tuned");
  gv_endpoint_free(end);
}

/* The library as a whole, structs that are set up, and allocators. */
static void beside_ends(void) {
  gv_settings settings;
  gv_limits limits = {.size = sizeof limits};
  gv_allocator from = {.size = sizeof from, .allocate = no_memory, .release = no_release};
  gv_endpoint *end = NULL;
  want(gv_version() == GV_VERSION ? GV_OK : GV_INVALID, GV_OK, "version");
  want(strcmp(gv_build(), "proved") == 0 || strcmp(gv_build(), "erased") == 0 ? GV_OK : GV_INVALID, GV_OK, "build");
  want(strcmp(gv_strerror((gv_status)999), gv_strerror(GV_OK)) != 0 ? GV_OK : GV_INVALID, GV_OK, "words of no status");
  want(gv_settings_init(NULL, sizeof settings), GV_INVALID, "no settings");
  want(gv_settings_init(&settings, sizeof settings - 1), GV_INVALID, "small settings");
  want(gv_settings_init(&settings, sizeof settings), GV_OK, "settings");
  want(gv_limits_init(NULL, sizeof limits), GV_INVALID, "no limits");
  want(gv_limits_init(&limits, sizeof limits - 1), GV_INVALID, "small limits");
  want(gv_limits_of(NULL, &limits), GV_INVALID, "limits of nothing");
  want(gv_limits_of(&settings, NULL), GV_INVALID, "limits to null");
  limits.size = 0;
  want(gv_limits_of(&settings, &limits), GV_INVALID, "limits without a size");
  limits.size = sizeof limits;
  want(gv_limits_of(&settings, &limits), GV_OK, "limits");
  want(limits.streams_bidi == 100 && limits.bidi_local == 1 << 18 ? GV_OK : GV_INVALID, GV_OK, "which they are");
  tuned(&settings, &limits);
  want(gv_endpoint_new_with(GV_ROLE_CLIENT, &settings, &limits, &from, &end), GV_NO_MEMORY, "no memory");
  from.allocate = NULL;
  want(gv_endpoint_new_with(GV_ROLE_CLIENT, &settings, &limits, &from, &end), GV_INVALID, "no function that gives memory");
  from.allocate = no_memory;
  from.release = NULL;
  want(gv_endpoint_new_with(GV_ROLE_CLIENT, &settings, &limits, &from, &end), GV_INVALID, "no function that takes it back");
  from.release = no_release;
  from.size = 8;
  want(gv_endpoint_new_with(GV_ROLE_CLIENT, &settings, &limits, &from, &end), GV_INVALID, "a small allocator");
  want(end == NULL ? GV_OK : GV_INVALID, GV_OK, "no end was made");
  want(gv_endpoint_new_with(GV_ROLE_SERVER, &settings, &limits, NULL, &end), GV_OK, "memory of the C library");
  gv_endpoint_free(end);
}

static void count_one(void *context, uint64_t number) {
  (void)number;
  (*(int *)context)++;
}

/* Bytes that are passed over are told as a read tells them. */
static void consumed(gv_endpoint *end) {
  static const uint8_t bytes[] = {0x0b, 0x03, 0x03, 0x61, 0x62, 0x63}; /* all of stream 3 */
  static const uint8_t reset[] = {0x04, 0x07, 0x09, 0x00};             /* stream 7 is broken off with the code 9 */
  uint64_t code = 0;
  size_t count = 9;
  bool ends = true;
  want(gv_receive(end, 20, bytes, sizeof bytes), GV_OK, "receive a stream");
  want(gv_consume(end, UINT64_C(1) << 62, 1, &count, &ends, &code), GV_INVALID, "consume");
  want(gv_consume(end, 3, 1, NULL, &ends, &code), GV_INVALID, "consume to null");
  want(gv_consume(end, 3, 1, &count, NULL, &code), GV_INVALID, "consume to no end");
  want(gv_consume(NULL, 3, 1, &count, &ends, &code), GV_INVALID, "consume of no end");
  want(gv_consume(end, 2, 1, &count, &ends, &code), GV_WRONG_DIRECTION, "consume what is sent");
  want(count == 9 && ends ? GV_OK : GV_INVALID, GV_OK, "nothing is written");
  want(gv_consume(end, 3, 1, &count, &ends, NULL), GV_OK, "consume a byte");
  want(count == 1 && !ends ? GV_OK : GV_INVALID, GV_OK, "more bytes follow");
  want(gv_consume(end, 3, SIZE_MAX, &count, &ends, NULL), GV_OK, "consume the others");
  want(count == 2 && ends ? GV_OK : GV_INVALID, GV_OK, "the end follows");
  want(gv_consume(end, 3, 1, &count, &ends, NULL), GV_END_OF_STREAM, "consume at the end");
  want(gv_receive(end, 21, reset, sizeof reset), GV_OK, "receive a reset");
  want(gv_consume(end, 7, 1, &count, &ends, &code), GV_RESET_BY_PEER, "consume what was broken off");
  want(code == 9 && count == 2 ? GV_OK : GV_INVALID, GV_OK, "with its code");
}

/* A window and a grant are set anew: a greater one moves the limit at once, under a smaller one it stands. */
static void set_limits(gv_endpoint *end) {
  const uint64_t first = 1 << 20;
  uint64_t number;
  want(gv_set_conn_window(NULL, first), GV_INVALID, "window of no end");
  want(gv_set_conn_window(end, 0), GV_OUT_OF_RANGE, "no window");
  want(gv_set_conn_window(end, (UINT64_C(1) << 40) + 1), GV_OUT_OF_RANGE, "a window above all");
  want(gv_granted(end, &number), GV_OK, "granted");
  want(number == first ? GV_OK : GV_INVALID, GV_OK, "the first window is granted");
  want(gv_set_conn_window(end, first + 1), GV_OK, "a greater window");
  want(gv_set_conn_window(end, 1), GV_OK, "a small window");
  want(gv_granted(end, &number), GV_OK, "granted");
  want(number == first + 1 ? GV_OK : GV_INVALID, GV_OK, "the greatest window is granted");
  want(gv_set_grant(NULL, GV_DIR_UNI, 1), GV_INVALID, "grant of no end");
  want(gv_set_grant(end, (gv_dir)2, 1), GV_INVALID, "grant of no direction");
  want(gv_set_grant(end, GV_DIR_UNI, (1 << 17) + 1), GV_OUT_OF_RANGE, "a grant above all");
  want(gv_set_grant(end, GV_DIR_UNI, 101), GV_OK, "a greater grant");
  want(gv_set_grant(end, GV_DIR_UNI, 0), GV_OK, "no grant");
  want(gv_granted_streams(end, GV_DIR_UNI, &number), GV_OK, "granted_streams");
  want(number == 101 ? GV_OK : GV_INVALID, GV_OK, "the greatest grant stands");
  want(gv_granted_streams(end, GV_DIR_BIDI, &number), GV_OK, "granted_streams");
  want(number == 100 ? GV_OK : GV_INVALID, GV_OK, "the other direction's stands");
}

/* A sending buffer is set anew, and what is kept of all streams is told. */
static void set_buffer(gv_endpoint *end) {
  static const uint8_t bytes[8], frame[] = {0x0a, 0x03, 0x01, 0x61}; /* stream 3 has a byte */
  uint64_t number = 9;
  size_t count = 9;
  want(gv_open(end, GV_DIR_BIDI, &number, NULL), GV_OK, "open");
  want(gv_receive(end, 0, frame, sizeof frame), GV_OK, "receive a byte");
  want(gv_set_send_buffer(NULL, 0, 1), GV_INVALID, "buffer of no end");
  want(gv_set_send_buffer(end, UINT64_C(1) << 62, 1), GV_INVALID, "buffer of no stream");
  want(gv_set_send_buffer(end, 0, 0), GV_OUT_OF_RANGE, "no buffer");
  want(gv_set_send_buffer(end, 0, ((size_t)1 << 30) + 1), GV_OUT_OF_RANGE, "a buffer above all");
  want(gv_set_send_buffer(end, 4, 1), GV_NO_SUCH_STREAM, "buffer elsewhere");
  want(gv_set_send_buffer(end, 3, 1), GV_WRONG_DIRECTION, "buffer of what is read");
  want(gv_set_stream_window(NULL, 3, 1), GV_INVALID, "window of no end");
  want(gv_set_stream_window(end, UINT64_C(1) << 62, 1), GV_INVALID, "window of no stream");
  want(gv_set_stream_window(end, 3, 0), GV_OUT_OF_RANGE, "no window of a stream");
  want(gv_set_stream_window(end, 3, (UINT64_C(1) << 30) + 1), GV_OUT_OF_RANGE, "a window above all of a stream");
  want(gv_set_stream_window(end, 4, 1), GV_NO_SUCH_STREAM, "window elsewhere");
  want(gv_set_stream_window(end, 3, UINT64_C(1) << 30), GV_OK, "a wide window of a stream");
  want(gv_set_stream_window(end, 3, 1), GV_OK, "a narrow window of a stream");
  want(gv_set_send_buffer(end, 0, 5), GV_OK, "a small buffer");
  want(gv_write(end, 0, bytes, sizeof bytes, &count), GV_OK, "write");
  want(count == 5 ? GV_OK : GV_INVALID, GV_OK, "it takes as many bytes");
  want(gv_set_send_buffer(end, 0, 1), GV_OK, "a smaller buffer");
  want(gv_kept_sum(end, NULL), GV_INVALID, "kept_sum to null");
  want(gv_kept_sum(NULL, &number), GV_INVALID, "kept_sum of no end");
  want(gv_kept_sum(end, &number), GV_OK, "kept_sum");
  want(number == 5 ? GV_OK : GV_INVALID, GV_OK, "they are kept");
}

/* A stream that is forgotten is over without a read. */
static void forgotten(gv_endpoint *end) {
  static const uint8_t last[] = {0x0f, 0x03, 0x01, 0x01, 0x62}; /* its second byte is its last */
  const uint64_t big = UINT64_C(1) << 62;
  uint64_t number = 9;
  want(gv_stop_and_discard(NULL, 3, 7), GV_INVALID, "forget of no end");
  want(gv_stop_and_discard(end, big, 7), GV_INVALID, "forget no stream");
  want(gv_stop_and_discard(end, 3, big), GV_INVALID, "forget with no code");
  want(gv_stop_and_discard(end, 7, 7), GV_NO_SUCH_STREAM, "forget another");
  want(gv_open(end, GV_DIR_UNI, &number, NULL), GV_OK, "open");
  want(gv_stop_and_discard(end, number, 7), GV_WRONG_DIRECTION, "forget what is sent");
  want(gv_stop_and_discard(end, 3, 7), GV_OK, "forget");
  want(gv_next_ended(end, 0, &number), GV_NONE, "it isn't over");
  want(gv_receive(end, 1, last, sizeof last), GV_OK, "receive the end");
  want(gv_next_readable(end, 0, &number), GV_NONE, "nothing is to be read");
  want(gv_next_ended(end, 0, &number), GV_OK, "it is over");
  want(number == 3 ? GV_OK : GV_INVALID, GV_OK, "stream 3");
}

/* What is set anew, and what isn't once the end closed. */
static void set_anew(void) {
  static const uint8_t no_frame[] = {0xff};
  gv_settings settings;
  gv_limits limits = {.size = sizeof limits};
  gv_endpoint *end = NULL;
  uint64_t number = 9;
  want(gv_settings_init(&settings, sizeof settings), GV_OK, "settings");
  want(gv_limits_of(&settings, &limits), GV_OK, "limits");
  want(gv_endpoint_new(GV_ROLE_CLIENT, &settings, &limits, &end), GV_OK, "new");
  set_limits(end);
  set_buffer(end);
  forgotten(end);
  want(gv_receive(end, 2, no_frame, sizeof no_frame), GV_PROTOCOL_ERROR, "no frame");
  want(gv_set_conn_window(end, 0), GV_CONNECTION_CLOSED, "window once closed");
  want(gv_set_grant(end, GV_DIR_BIDI, 1), GV_CONNECTION_CLOSED, "grant once closed");
  want(gv_set_send_buffer(end, 0, 1), GV_CONNECTION_CLOSED, "buffer once closed");
  want(gv_set_stream_window(end, 3, 1), GV_CONNECTION_CLOSED, "window of a stream once closed");
  want(gv_stop_and_discard(end, 3, 7), GV_CONNECTION_CLOSED, "forget once closed");
  want(gv_kept_sum(end, &number), GV_OK, "a closed end is asked");
  gv_endpoint_free(end);
}

int main(void) {
  const uint64_t big = UINT64_C(1) << 62;
  gv_settings settings = {sizeof settings, 4096, 1024, 1024, 1024, 2048, 8, 8, 8, 8};
  gv_limits limits = {sizeof limits, 4096, 1024, 1024, 1024, 8, 8};
  gv_endpoint *end;
  gv_made made = {.size = sizeof made};
  gv_closing_info closing = {.size = sizeof closing};
  uint8_t room[20000], byte = 0x01;
  gv_sending half = {.size = sizeof half};
  gv_receiving other = {.size = sizeof other};
  uint64_t number;
  size_t count;
  int told = 0;
  bool is;
  static const uint8_t stream_frame[] = {0x08, 0x06, 0x61};
  static const uint8_t ack_of_2[] = {0x02, 0x02, 0x00, 0x00, 0x00};
  static const uint8_t stops[] = {0x05, 0x02, 0x07, 0x05, 0x02, 0x08};
  beside_ends();
  set_anew();
  want(gv_endpoint_new((gv_role)2, &settings, &limits, &end), GV_INVALID, "role");
  want(gv_endpoint_new(GV_ROLE_CLIENT, NULL, &limits, &end), GV_INVALID, "no settings");
  settings.conn_window = 0;
  want(gv_endpoint_new(GV_ROLE_CLIENT, &settings, &limits, &end), GV_OUT_OF_RANGE, "window");
  settings.conn_window = 4096;
  settings.uni = (UINT64_C(1) << 30) + 1;
  want(gv_endpoint_new(GV_ROLE_CLIENT, &settings, &limits, &end), GV_OUT_OF_RANGE, "window of a stream");
  settings.uni = UINT64_C(1) << 30;
  want(gv_endpoint_new(GV_ROLE_CLIENT, &settings, &limits, &end), GV_OK, "widest window");
  gv_endpoint_free(end);
  settings.uni = 1024;
  limits.streams_uni = (UINT64_C(1) << 60) + 1;
  want(gv_endpoint_new(GV_ROLE_CLIENT, &settings, &limits, &end), GV_TOO_MANY_STREAMS, "streams");
  limits.streams_uni = 8;
  want(gv_endpoint_new(GV_ROLE_CLIENT, &settings, &limits, &end), GV_OK, "new");
  want(gv_open(end, (gv_dir)2, &number, NULL), GV_INVALID, "direction");
  want(gv_open(end, GV_DIR_UNI, &number, NULL), GV_OK, "open");
  want(number == 2 ? GV_OK : GV_INVALID, GV_OK, "number");
  want(gv_accept(end, &number), GV_NONE, "accept");
  want(gv_write(end, big, &byte, 1, &count), GV_INVALID, "write");
  want(gv_write(end, 2, NULL, 1, &count), GV_INVALID, "write from null");
  want(gv_write(end, 2, NULL, 0, &count), GV_OK, "write nothing");
  want(gv_write(end, 6, &byte, 1, &count), GV_NO_SUCH_STREAM, "write elsewhere");
  want(gv_read(end, 2, room, 1, &count, NULL), GV_WRONG_DIRECTION, "read");
  want(gv_reset(end, 2, big), GV_INVALID, "reset");
  want(gv_stop(end, 2, big), GV_INVALID, "stop");
  want(gv_declare_lost(end, 0), GV_NOT_OUTSTANDING, "lose");
  want(gv_token_acked(end, token_at(end, 0)), GV_NOT_GIVEN, "acked before it was made");
  want(gv_token_lost(end, token_at(end, UINT64_MAX)), GV_NOT_GIVEN, "lost before it was made");
  want(gv_token_acked(NULL, token_at(end, 0)), GV_INVALID, "acked of no end");
  want(gv_token_lost(NULL, token_at(end, 0)), GV_INVALID, "lost of no end");
  want(gv_receive(end, big, &byte, 1), GV_INVALID, "receive");
  want(gv_receive(end, 5, NULL, 1), GV_INVALID, "receive from null");
  want(gv_receive_with_acks(end, big, &byte, 1, count_one, &told), GV_INVALID, "receive and tell");
  want(gv_receive_with_acks(end, 5, NULL, 1, count_one, &told), GV_INVALID, "receive from null and tell");
  want(gv_receive_with_acks(end, 5, &byte, 1, NULL, &told), GV_INVALID, "receive and tell nobody");
  want(gv_receive_with_acks(NULL, 5, &byte, 1, count_one, &told), GV_INVALID, "receive without an end");
  want(gv_receive(end, 5, &byte, 1), GV_OK, "receive a PING");
  want(gv_receive(end, 5, &byte, 1), GV_DUPLICATE, "receive it again");
  want(gv_make_packet(end, room, 127, &made), GV_INVALID, "small room");
  want(gv_make_packet(end, room, 16384, &made), GV_INVALID, "great room");
  want(gv_make_packet_from(end, big, 0, room, 1200, &made), GV_INVALID, "first");
  want(gv_make_packet_from(end, 0, big, room, 1200, &made), GV_INVALID, "delay");
  want(gv_closing(end, &closing), GV_NONE, "closing");
  want(gv_close_payload(end, room, sizeof room, &count), GV_NONE, "nothing to tell");
  want(gv_make_packet(end, room, 128, &made), GV_OK, "make");
  want(made.number == 0 && made.len > 0 && !made.is_ack_eliciting ? GV_OK : GV_INVALID, GV_OK, "an ACK");
  want(gv_finish(end, 2), GV_OK, "finish");
  want(gv_finish(end, 2), GV_SENDING_FINISHED, "finish again");
  want(gv_next_readable(end, big, &number), GV_INVALID, "readable from");
  want(gv_next_writable(end, big, &number), GV_INVALID, "writable from");
  want(gv_next_sendable(end, big, &number), GV_INVALID, "sendable from");
  want(gv_next_ended(end, big, &number), GV_INVALID, "ended from");
  want(gv_next_sendable(end, 0, &number), GV_OK, "sendable");
  want(number == 2 ? GV_OK : GV_INVALID, GV_OK, "the finished stream");
  want(gv_next_readable(end, 0, NULL), GV_INVALID, "readable to null");
  want(gv_is_sendable(end, &is), GV_OK, "is_sendable");
  want(is ? GV_OK : GV_INVALID, GV_OK, "the end is due");
  want(gv_is_sendable(end, NULL), GV_INVALID, "is_sendable to null");
  want(gv_is_blocked(end, big, &is), GV_INVALID, "is_blocked");
  want(gv_is_blocked(end, 2, &is), GV_OK, "is_blocked");
  want(!is ? GV_OK : GV_INVALID, GV_OK, "nothing is held back");
  want(gv_accept_of(end, (gv_dir)2, &number), GV_INVALID, "accept_of");
  want(gv_accept_of(end, GV_DIR_UNI, NULL), GV_INVALID, "accept_of to null");
  want(gv_accept_of(end, GV_DIR_UNI, &number), GV_NONE, "accept_of");
  want(gv_room(end, big, &number), GV_INVALID, "room");
  want(gv_room(end, 2, &number), GV_OK, "room");
  want(number == 0 ? GV_OK : GV_INVALID, GV_OK, "a finished stream takes no more");
  want(gv_unsent(end, big, &number), GV_INVALID, "unsent");
  want(gv_unsent(end, 2, &number), GV_OK, "unsent");
  want(gv_unsent_sum(end, NULL), GV_INVALID, "unsent_sum to null");
  want(gv_unsent_sum(end, &number), GV_OK, "unsent_sum");
  want(gv_taken_on(end, big, &number), GV_INVALID, "taken");
  want(gv_taken_on(end, 1, &number), GV_NONE, "taken of no stream");
  want(gv_taken_sum(end, NULL), GV_INVALID, "taken_sum to null");
  want(gv_taken_sum(end, &number), GV_OK, "taken_sum");
  want(number == 0 ? GV_OK : GV_INVALID, GV_OK, "no byte waits");
  want(gv_acked_below(end, big, &number), GV_INVALID, "acked_below");
  want(gv_acked_below(end, 6, &number), GV_NONE, "acked_below of no half");
  want(gv_acked_below(end, 2, &number), GV_OK, "acked_below");
  want(gv_credit_left(end, NULL), GV_INVALID, "credit_left to null");
  want(gv_credit_left(end, &number), GV_OK, "credit_left");
  want(number == limits.max_data ? GV_OK : GV_INVALID, GV_OK, "all of the credit is left");
  want(gv_streams_left(end, (gv_dir)2, &number), GV_INVALID, "streams_left");
  want(gv_open_left(end, (gv_dir)2, &number), GV_INVALID, "open_left");
  want(gv_granted_streams(end, (gv_dir)2, &number), GV_INVALID, "granted_streams");
  want(gv_open_left(end, GV_DIR_UNI, &number), GV_OK, "open_left");
  want(number == 7 ? GV_OK : GV_INVALID, GV_OK, "seven are left");
  want(gv_granted_streams(end, GV_DIR_UNI, &number), GV_OK, "granted_streams");
  want(number == 8 ? GV_OK : GV_INVALID, GV_OK, "eight are granted");
  want(gv_held(end, &number, NULL), GV_INVALID, "held to null");
  uint64_t sending;
  want(gv_held(end, &number, &sending), GV_OK, "held");
  want(number == 0 ? GV_OK : GV_INVALID, GV_OK, "nothing came");
  want(gv_sending_report(end, big, &half), GV_INVALID, "report");
  want(gv_sending_report(end, 3, &half), GV_NO_SUCH_STREAM, "no report");
  want(gv_receiving_report(end, 3, &other), GV_NO_SUCH_STREAM, "no other report");
  want(gv_receiving_report(end, 2, &other), GV_WRONG_DIRECTION, "no such half");
  want(gv_sending_report(end, 2, &half), GV_OK, "report");
  want(half.limit == 1024 ? GV_OK : GV_INVALID, GV_OK, "one half");
  limits.uni = big;
  want(gv_raise_limits(end, &limits), GV_OUT_OF_RANGE, "limit");
  limits.uni = 2048;
  want(gv_raise_limits(end, &limits), GV_OK, "raise");
  want(gv_sending_report(end, 2, &half), GV_OK, "report");
  want(half.limit == 2048 ? GV_OK : GV_INVALID, GV_OK, "the limit is raised");
  want(gv_make_ack(end, big, room, 1200, &made), GV_INVALID, "delay of an ACK");
  want(gv_make_ack(end, 0, room, 127, &made), GV_INVALID, "room of an ACK");
  want(gv_make_ack(end, 0, room, 1200, &made), GV_NONE, "no ACK");
  want(gv_next_number(end, &number), GV_OK, "next_number");
  want(number == 1 ? GV_OK : GV_INVALID, GV_OK, "one packet was made");
  want(gv_claim_number(end, &number), GV_OK, "claim");
  want(number == 1 ? GV_OK : GV_INVALID, GV_OK, "it has that number");
  want(gv_next_outstanding(end, 0, &number), GV_NONE, "outstanding");
  want(gv_make_packet(end, room, 1200, &made), GV_OK, "make the end");
  want(made.number == 2 && made.is_ack_eliciting ? GV_OK : GV_INVALID, GV_OK, "packet 2");
  want(gv_receive_with_acks(end, 5, ack_of_2, sizeof ack_of_2, count_one, &told), GV_DUPLICATE, "receive the PING's number again");
  want(told == 0 ? GV_OK : GV_INVALID, GV_OK, "nothing is told");
  want(gv_token_acked(end, token_at(end, 3)), GV_NOT_GIVEN, "acked past the last");
  want(gv_token_lost(end, token_at(end, 2)), GV_OK, "lost");
  want(gv_next_outstanding(end, 0, &number), GV_NONE, "nothing is outstanding");
  want(gv_is_sendable(end, &is), GV_OK, "is_sendable");
  want(is ? GV_OK : GV_INVALID, GV_OK, "the end is due again");
  want(gv_token_lost(end, token_at(end, 2)), GV_OK, "lost again");
  want(gv_token_acked(end, token_at(end, 2)), GV_OK, "acked late");
  want(gv_is_sendable(end, &is), GV_OK, "is_sendable");
  want(!is ? GV_OK : GV_INVALID, GV_OK, "the end is acknowledged");
  want(gv_token_acked(end, token_at(end, 2)), GV_OK, "acked again");
  want(gv_stopped_with(end, 2, &number), GV_NONE, "not stopped");
  want(gv_receive(end, 7, stops, sizeof stops), GV_OK, "receive two STOP_SENDING");
  want(gv_stopped_with(end, 2, &number), GV_NONE, "not stopped once all is acknowledged");
  want(gv_stopped_with(end, big, &number), GV_INVALID, "stopped_with");
  want(gv_stopped_with(end, 2, NULL), GV_INVALID, "stopped_with to null");
  want(gv_last_stream(NULL, 0, &number), GV_NONE, "no payload");
  want(gv_last_stream(stream_frame, sizeof stream_frame, &number), GV_OK, "last_stream");
  want(number == 6 ? GV_OK : GV_INVALID, GV_OK, "of stream 6");
  want(gv_peer_closed(end, &number), GV_NONE, "peer_closed");
  consumed(end);
  byte = 0xff;
  want(gv_receive(end, 6, &byte, 1), GV_PROTOCOL_ERROR, "no frame");
  want(gv_closing(end, &closing), GV_OK, "why");
  want(closing.code == 7 && closing.place == 0 ? GV_OK : GV_INVALID, GV_OK, "FRAME_ENCODING_ERROR");
  want(gv_write(end, 2, &byte, 1, &count), GV_CONNECTION_CLOSED, "closed");
  want(gv_close_payload(end, room, sizeof room, &count), GV_OK, "close");
  want(gv_next_writable(end, 0, &number), GV_NONE, "nothing is writable");
  want(gv_token_acked(end, token_at(end, 0)), GV_CONNECTION_CLOSED, "acked once closed");
  want(gv_token_lost(end, token_at(end, 9)), GV_CONNECTION_CLOSED, "lost once closed");
  want(gv_raise_limits(end, &limits), GV_CONNECTION_CLOSED, "raise once closed");
  want(gv_claim_number(end, &number), GV_OK, "a closed end gives numbers");
  want(gv_receive(NULL, 0, &byte, 1), GV_INVALID, "no end");
  gv_endpoint_free(end);
  gv_endpoint_free(NULL);
  return failed;
}

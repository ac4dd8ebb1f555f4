"""The declarations of the header. Made by scripts/cffi."""

__version__ = "0.1.0"
MAX_PAYLOAD = 65535
MIN_FILL = 25

# pylint: disable=too-many-lines
DECLARATIONS = """
typedef enum gv_status {
  GV_OK = 0,
  GV_INVALID = 1,
  GV_NO_MEMORY = 2,
  GV_CONNECTION_CLOSED = 3,
  GV_NO_SUCH_STREAM = 4,
  GV_WRONG_DIRECTION = 5,
  GV_SENDING_FINISHED = 6,
  GV_SENDING_RESET = 7,
  GV_STREAM_LIMIT = 8,
  GV_NUMBERS_EXHAUSTED = 9,
  GV_NOT_OUTSTANDING = 10,
  GV_DUPLICATE = 11,
  GV_TOO_OLD = 12,
  GV_CLOSED_BY_PEER = 13,
  GV_PROTOCOL_ERROR = 14,
  GV_NONE = 15,
  GV_NOTHING_YET = 16,
  GV_END_OF_STREAM = 17,
  GV_RESET_BY_PEER = 18,
  GV_OUT_OF_RANGE = 19,
  GV_TOO_MANY_STREAMS = 20,
  GV_BAD_FRAME = 21,
  GV_NO_ROOM = 22,
  GV_NOT_GIVEN = 23
} gv_status;
typedef enum gv_role { GV_ROLE_CLIENT = 0, GV_ROLE_SERVER = 1 } gv_role;
typedef enum gv_dir { GV_DIR_BIDI = 0, GV_DIR_UNI = 1 } gv_dir;
typedef enum gv_share {
  GV_SHARE_NONE = 0,
  GV_SHARE_HALF = 1,
  GV_SHARE_QUARTER = 2,
  GV_SHARE_EIGHTH = 3,
  GV_SHARE_SIXTEENTH = 4
} gv_share;
typedef enum gv_switch {
  GV_OFF = 0,
  GV_ON = 1
} gv_switch;
typedef enum gv_closer {
  GV_CLOSER_US = 0,
  GV_CLOSER_PEER = 1
} gv_closer;
typedef enum gv_close_kind {
  GV_CLOSE_TRANSPORT = 0,
  GV_CLOSE_APPLICATION = 1
} gv_close_kind;
typedef enum gv_send_state {
  GV_SEND_STATE_READY = 0,
  GV_SEND_STATE_SEND = 1,
  GV_SEND_STATE_DATA_SENT = 2,
  GV_SEND_STATE_DATA_RECVD = 3,
  GV_SEND_STATE_RESET_SENT = 4,
  GV_SEND_STATE_RESET_RECVD = 5
} gv_send_state;
typedef enum gv_recv_state {
  GV_RECV_STATE_RECV = 0,
  GV_RECV_STATE_SIZE_KNOWN = 1,
  GV_RECV_STATE_DATA_RECVD = 2,
  GV_RECV_STATE_DATA_READ = 3,
  GV_RECV_STATE_RESET_RECVD = 4,
  GV_RECV_STATE_RESET_READ = 5
} gv_recv_state;
typedef enum gv_frame_kind {
  GV_FRAME_PADDING = 0,
  GV_FRAME_PING = 1,
  GV_FRAME_ACK = 2,
  GV_FRAME_RESET_STREAM = 3,
  GV_FRAME_STOP_SENDING = 4,
  GV_FRAME_CRYPTO = 5,
  GV_FRAME_NEW_TOKEN = 6,
  GV_FRAME_STREAM = 7,
  GV_FRAME_MAX_DATA = 8,
  GV_FRAME_MAX_STREAM_DATA = 9,
  GV_FRAME_MAX_STREAMS = 10,
  GV_FRAME_DATA_BLOCKED = 11,
  GV_FRAME_STREAM_DATA_BLOCKED = 12,
  GV_FRAME_STREAMS_BLOCKED = 13,
  GV_FRAME_NEW_CONNECTION_ID = 14,
  GV_FRAME_RETIRE_CONNECTION_ID = 15,
  GV_FRAME_PATH_CHALLENGE = 16,
  GV_FRAME_PATH_RESPONSE = 17,
  GV_FRAME_CONNECTION_CLOSE = 18,
  GV_FRAME_APPLICATION_CLOSE = 19,
  GV_FRAME_HANDSHAKE_DONE = 20
} gv_frame_kind;
typedef enum gv_fault_kind {
  GV_FAULT_NO_FAULT = 0,
  GV_FAULT_EMPTY = 1,
  GV_FAULT_LONG_TYPE = 2,
  GV_FAULT_UNKNOWN_TYPE = 3,
  GV_FAULT_TRUNCATED = 4,
  GV_FAULT_OFFSET_TOO_LARGE = 5,
  GV_FAULT_COUNT_TOO_LARGE = 6,
  GV_FAULT_BELOW_ZERO = 7,
  GV_FAULT_IDENTIFIER = 8
} gv_fault_kind;
typedef enum gv_taken {
  GV_TAKEN_TOOK = 0,
  GV_TAKEN_UNCHANGED = 1,
  GV_TAKEN_NOT_OURS = 2
} gv_taken;
typedef enum gv_event_kind {
  GV_EVENT_OPENED = 0,
  GV_EVENT_READABLE = 1,
  GV_EVENT_WRITABLE = 2,
  GV_EVENT_STOPPED = 3,
  GV_EVENT_FINISHED = 4,
  GV_EVENT_RESET_ACKED = 5,
  GV_EVENT_ENDED = 6,
  GV_EVENT_AVAILABLE = 7,
  GV_EVENT_DATA_BLOCKED = 8,
  GV_EVENT_STREAM_DATA_BLOCKED = 9,
  GV_EVENT_STREAMS_BLOCKED = 10
} gv_event_kind;
typedef struct gv_endpoint gv_endpoint;
typedef struct gv_settings {
  size_t size;
  uint64_t conn_window;
  uint64_t bidi_local;
  uint64_t bidi_remote;
  uint64_t uni;
  size_t send_buffer;
  uint64_t grant_bidi;
  uint64_t grant_uni;
  uint64_t lifetime_bidi;
  uint64_t lifetime_uni;
} gv_settings;
typedef struct gv_tuning {
  size_t size;
  gv_share credit_step;
  gv_share count_step;
  gv_switch within_credit;
  gv_switch reads_when_closed;
  uint64_t epoch;
  uint64_t send_window;
  gv_switch answers_stops;
  gv_switch spare;
} gv_tuning;
typedef struct gv_limits {
  size_t size;
  uint64_t max_data;
  uint64_t bidi_local;
  uint64_t bidi_remote;
  uint64_t uni;
  uint64_t streams_bidi;
  uint64_t streams_uni;
} gv_limits;
typedef struct gv_allocator {
  size_t size;
  void *context;
  void *(*allocate)(void *context, size_t size, size_t align);
  void *(*reallocate)(void *context, void *at, size_t old_size, size_t new_size, size_t align);
  void (*release)(void *context, void *at, size_t size, size_t align);
} gv_allocator;
typedef struct gv_made {
  size_t size;
  bool is_ack_eliciting;
  uint64_t number;
  size_t len;
} gv_made;
typedef struct gv_fill_request {
  size_t size;
  bool items;
  bool streams;
  bool alone;
  bool is_capped;
  uint64_t first;
  size_t most_bytes;
} gv_fill_request;
typedef struct gv_token {
  uint64_t epoch;
  uint64_t first;
  uint64_t number;
} gv_token;
typedef struct gv_filled {
  size_t size;
  bool has_last_stream;
  bool more;
  gv_token token;
  size_t len;
  uint64_t last_stream;
} gv_filled;
typedef struct gv_event {
  size_t size;
  gv_event_kind kind;
  gv_dir dir;
  uint64_t stream;
  uint64_t code;
} gv_event;
typedef struct gv_sending {
  size_t size;
  gv_send_state state;
  bool has_final_size;
  bool was_reset;
  uint64_t written;
  uint64_t limit;
  uint64_t final_size;
  uint64_t reset_code;
} gv_sending;
typedef struct gv_receiving {
  size_t size;
  gv_recv_state state;
  bool has_final_size;
  bool was_reset;
  uint64_t read_count;
  uint64_t highest;
  uint64_t limit;
  uint64_t final_size;
  uint64_t reset_code;
  uint64_t was_stopped;
  uint64_t stop_code;
} gv_receiving;
typedef struct gv_peeked {
  size_t size;
  size_t front_len;
  size_t back_len;
  const uint8_t *front;
  const uint8_t *back;
} gv_peeked;
typedef struct gv_closing_info {
  size_t size;
  uint64_t code;
  uint64_t frame_type;
  size_t place;
} gv_closing_info;
typedef struct gv_frame {
  size_t size;
  gv_frame_kind kind;
  gv_dir dir;
  bool fin;
  bool has_ecn;
  size_t place;
  uint64_t type;
  uint64_t stream;
  uint64_t offset;
  uint64_t code;
  uint64_t final_size;
  uint64_t limit;
  uint64_t largest;
  uint64_t delay;
  uint64_t ect0;
  uint64_t ect1;
  uint64_t ce;
  uint64_t sequence;
  uint64_t retire;
  uint64_t at_fault;
  size_t len;
  const uint8_t *bytes;
  const uint8_t *token;
} gv_frame;
typedef struct gv_fault {
  size_t size;
  gv_fault_kind kind;
  uint64_t code;
  uint64_t type;
  size_t place;
} gv_fault;
typedef struct gv_frames {
  const uint8_t *payload;
  size_t len;
  size_t place;
} gv_frames;
typedef struct gv_range {
  uint64_t smallest;
  uint64_t largest;
} gv_range;
typedef struct gv_acked {
  const uint8_t *bytes;
  size_t len;
  uint64_t largest;
} gv_acked;
int gv_version(void);
const char *gv_build(void);
const char *gv_strerror(gv_status status);
gv_status gv_settings_init(gv_settings *settings, size_t size);
gv_status gv_tuning_init(gv_tuning *tuning, size_t size);
gv_status gv_limits_init(gv_limits *limits, size_t size);
gv_status gv_limits_of(const gv_settings *settings, gv_limits *limits);
gv_status gv_endpoint_new(gv_role role, const gv_settings *settings, const gv_limits *peer, gv_endpoint **out);
gv_status gv_endpoint_new_with(gv_role role, const gv_settings *settings, const gv_limits *peer, const gv_allocator *allocator,
                                      gv_endpoint **out);
gv_status gv_endpoint_new_tuned(gv_role role, const gv_settings *settings, const gv_tuning *tuning, const gv_limits *peer,
                                       const gv_allocator *allocator, gv_endpoint **out);
void gv_endpoint_free(gv_endpoint *end);
gv_status gv_raise_limits(gv_endpoint *end, const gv_limits *peer);
gv_status gv_set_conn_window(gv_endpoint *end, uint64_t window);
gv_status gv_set_grant(gv_endpoint *end, gv_dir dir, uint64_t streams);
gv_status gv_receive(gv_endpoint *end, uint64_t number, const uint8_t *payload, size_t len);
gv_status gv_receive_with_acks(gv_endpoint *end, uint64_t number, const uint8_t *payload, size_t len,
                                    void (*told)(void *context, uint64_t number), void *context);
gv_status gv_make_packet(gv_endpoint *end, uint8_t *out, size_t room, gv_made *made);
gv_status gv_make_packet_from(gv_endpoint *end, uint64_t first, uint64_t delay, uint8_t *out, size_t room, gv_made *made);
gv_status gv_make_ack(gv_endpoint *end, uint64_t delay, uint8_t *out, size_t room, gv_made *made);
gv_status gv_declare_lost(gv_endpoint *end, uint64_t number);
gv_status gv_claim_number(gv_endpoint *end, uint64_t *number);
gv_status gv_next_number(const gv_endpoint *end, uint64_t *number);
gv_status gv_is_sendable(const gv_endpoint *end, bool *answer);
gv_status gv_ack_is_due(const gv_endpoint *end, bool *answer);
gv_status gv_next_outstanding(const gv_endpoint *end, uint64_t from, uint64_t *number);
gv_status gv_take_frame(gv_endpoint *end, const gv_frame *frame, gv_taken *taken);
gv_status gv_take_frames(gv_endpoint *end, const gv_frame *frames, size_t count, gv_taken *taken);
gv_status gv_fill(gv_endpoint *end, const gv_fill_request *want, uint8_t *out, size_t room, gv_filled *filled);
gv_status gv_token_of(const gv_endpoint *end, uint64_t number, gv_token *token);
gv_status gv_token_and(gv_token *token, const gv_token *next);
gv_status gv_token_acked(gv_endpoint *end, const gv_token *token);
gv_status gv_token_lost(gv_endpoint *end, const gv_token *token);
gv_status gv_open(gv_endpoint *end, gv_dir dir, uint64_t *stream, uint64_t *limit);
gv_status gv_accept(gv_endpoint *end, uint64_t *stream);
gv_status gv_accept_of(gv_endpoint *end, gv_dir dir, uint64_t *stream);
gv_status gv_write(gv_endpoint *end, uint64_t stream, const uint8_t *bytes, size_t len, size_t *count);
gv_status gv_set_send_buffer(gv_endpoint *end, uint64_t stream, size_t size);
gv_status gv_set_stream_window(gv_endpoint *end, uint64_t stream, uint64_t window);
gv_status gv_finish(gv_endpoint *end, uint64_t stream);
gv_status gv_reset(gv_endpoint *end, uint64_t stream, uint64_t code);
gv_status gv_stop(gv_endpoint *end, uint64_t stream, uint64_t code);
gv_status gv_stop_and_discard(gv_endpoint *end, uint64_t stream, uint64_t code);
gv_status gv_read(gv_endpoint *end, uint64_t stream, uint8_t *into, size_t size, size_t *count, uint64_t *code);
gv_status gv_peek(const gv_endpoint *end, uint64_t stream, gv_peeked *peeked, uint64_t *code);
gv_status gv_consume(gv_endpoint *end, uint64_t stream, size_t most, size_t *count, bool *at_end, uint64_t *code);
gv_status gv_next_readable(const gv_endpoint *end, uint64_t from, uint64_t *stream);
gv_status gv_next_writable(const gv_endpoint *end, uint64_t from, uint64_t *stream);
gv_status gv_next_sendable(const gv_endpoint *end, uint64_t from, uint64_t *stream);
gv_status gv_next_ended(const gv_endpoint *end, uint64_t from, uint64_t *stream);
gv_status gv_sending_report(const gv_endpoint *end, uint64_t stream, gv_sending *sending);
gv_status gv_receiving_report(const gv_endpoint *end, uint64_t stream, gv_receiving *receiving);
gv_status gv_stopped_with(const gv_endpoint *end, uint64_t stream, uint64_t *code);
gv_status gv_is_blocked(const gv_endpoint *end, uint64_t stream, bool *answer);
gv_status gv_room(const gv_endpoint *end, uint64_t stream, uint64_t *count);
gv_status gv_unsent(const gv_endpoint *end, uint64_t stream, uint64_t *count);
gv_status gv_acked_below(const gv_endpoint *end, uint64_t stream, uint64_t *offset);
gv_status gv_next_event(gv_endpoint *end, gv_event *event);
gv_status gv_report_blocked(gv_endpoint *end, bool is_chosen);
gv_status gv_unsent_sum(const gv_endpoint *end, uint64_t *count);
gv_status gv_kept_sum(const gv_endpoint *end, uint64_t *count);
gv_status gv_taken_on(const gv_endpoint *end, uint64_t stream, uint64_t *count);
gv_status gv_taken_sum(const gv_endpoint *end, uint64_t *count);
gv_status gv_credit_left(const gv_endpoint *end, uint64_t *count);
gv_status gv_streams_left(const gv_endpoint *end, gv_dir dir, uint64_t *count);
gv_status gv_open_left(const gv_endpoint *end, gv_dir dir, uint64_t *count);
gv_status gv_granted_streams(const gv_endpoint *end, gv_dir dir, uint64_t *count);
gv_status gv_stored(const gv_endpoint *end, uint64_t *count);
gv_status gv_noted(const gv_endpoint *end, uint64_t *count);
gv_status gv_held(const gv_endpoint *end, uint64_t *receiving, uint64_t *sending);
gv_status gv_granted(const gv_endpoint *end, uint64_t *count);
gv_status gv_spent(const gv_endpoint *end, uint64_t *count);
gv_status gv_closing(const gv_endpoint *end, gv_closing_info *closing);
gv_status gv_close_payload(const gv_endpoint *end, uint8_t *out, size_t room, size_t *len);
gv_status gv_peer_closed(const gv_endpoint *end, uint64_t *code);
gv_status gv_note_closed(gv_endpoint *end, gv_closer by, gv_close_kind kind, uint64_t code);
gv_status gv_noted_close(const gv_endpoint *end, gv_closer *by, gv_close_kind *kind, uint64_t *code);
gv_status gv_last_stream(const uint8_t *payload, size_t len, uint64_t *stream);
gv_status gv_frames_next(gv_frames *frames, gv_frame *frame, gv_fault *fault);
gv_status gv_ack_next(gv_acked *ranges, gv_range *range);
gv_status gv_put(const gv_frame *frame, uint8_t *out, size_t room, size_t *len);
gv_status gv_put_ack(const gv_range *ranges, size_t count, uint64_t delay, uint8_t *out, size_t room, size_t *written, size_t *len);
"""

/** @file
 * Gotsavena: the stream layer of a QUIC version 1 endpoint (RFC 9000), for C.
 *
 * Payloads of packets go in and come out. Handshake, packet protection, loss detection, congestion control and the clock lie
 * outside. Sections are those of RFC 9000.
 *
 * Each group of calls begins with an example. There client and server are the handles of two endpoints, stream is the number of a stream,
 * and payload is an array of 1,200 bytes, of which len are used. A function without gv_ is the application's.
 *
 * What the caller owes. Nothing else that a caller passes can break an endpoint; a null pointer where one is wanted, and a number
 * out of its range, return ::GV_INVALID, and then nothing changes.
 * - Each pointer that isn't null points to what its type says: to a whole struct, or to as many bytes as the length beside it says.
 * - Nothing that one call is handed overlaps with anything else of it that the call writes.
 * - A handle comes from gv_endpoint_new() or gv_endpoint_new_with(), and isn't used once it was freed. What it points to is neither
 *   read nor written.
 * - A handle is in one call at a time. A question, whose handle is `const`, is a call too, and may not run beside another one of the
 *   same endpoint. From one call to the next an endpoint may move to another thread, where that one sees what this one did, as
 *   behind a mutex. Different endpoints are used at the same time as one likes.
 *
 * Structs that may grow begin with their size, and a later version adds fields behind those that are here. Who passes one writes its
 * size first: `gv_made made = {.size = sizeof made};`. No byte behind that size is read or written, so a program runs over a later
 * library and over an earlier one of the same SONAME. Of a struct that a call writes, what the library doesn't know stays as it was.
 * In one that it reads, a field that it doesn't know has to be 0. A size below that of version 0.1, or above 4,096, is answered with
 * ::GV_INVALID.
 */
#ifndef GOTSAVENA_H
#define GOTSAVENA_H
#include <stdbool.h>
#include <stddef.h>
#include <stdint.h>

/** The first number of the version. */
#define GV_VERSION_MAJOR 0
/** The second. */
#define GV_VERSION_MINOR 1
/** The third. */
#define GV_VERSION_PATCH 0
/** The version of this header, as gv_version() is that of the library: 1.2.3 is 10203. */
#define GV_VERSION (GV_VERSION_MAJOR * 10000 + GV_VERSION_MINOR * 100 + GV_VERSION_PATCH)
#ifndef GV_API
#if defined(__GNUC__)
#define GV_API __attribute__((visibility("default")))
#else
#define GV_API
#endif
#endif
#ifdef __cplusplus
extern "C" {
#endif

/** What a call returns. Unless it is ::GV_OK, whatever a call writes through its pointers stays as it was, except as said at the call. A
 * later version may have more. */
typedef enum gv_status {
  GV_OK = 0,                 /**< the call did what it says */
  GV_INVALID = 1,            /**< a null pointer, a number out of its range, or a struct's size; nothing changed */
  GV_NO_MEMORY = 2,          /**< memory was refused; the call may be made again */
  GV_CONNECTION_CLOSED = 3,  /**< the connection is closed (section 10.2) */
  GV_NO_SUCH_STREAM = 4,     /**< the stream isn't open */
  GV_WRONG_DIRECTION = 5,    /**< the stream is unidirectional, and has no such half here (section 2.1) */
  GV_SENDING_FINISHED = 6,   /**< the stream was finished here (section 3.1) */
  GV_SENDING_RESET = 7,      /**< the stream was reset here, or stopped by the peer (sections 3.1 and 3.5) */
  GV_STREAM_LIMIT = 8,       /**< as many streams were opened as the peer permits (section 4.6) */
  GV_NUMBERS_EXHAUSTED = 9,  /**< the last packet number was used, and none may be used twice (section 12.3) */
  GV_NOT_OUTSTANDING = 10,   /**< no such packet is outstanding */
  GV_DUPLICATE = 11,         /**< the packet number was processed before (section 13.2.3) */
  GV_TOO_OLD = 12,           /**< the packet number is below those whose history is kept: it may be a repeat (section 13.2.3) */
  GV_CLOSED_BY_PEER = 13,    /**< the peer closed the connection: gv_peer_closed() has the code (section 10.2.2) */
  GV_PROTOCOL_ERROR = 14,    /**< the peer broke a rule, and this endpoint is closed: gv_closing() says why (section 11.1) */
  GV_NONE = 15,              /**< there is none */
  GV_NOTHING_YET = 16,       /**< nothing to read yet (section 2.2) */
  GV_END_OF_STREAM = 17,     /**< all was read (section 3.2) */
  GV_RESET_BY_PEER = 18,     /**< the peer reset the stream (section 3.2) */
  GV_OUT_OF_RANGE = 19,      /**< a setting or a limit is out of its range */
  GV_TOO_MANY_STREAMS = 20,  /**< the peer permits more streams than there can be (section 4.6) */
  GV_BAD_FRAME = 21,         /**< no frame stands there (section 12.4) */
  GV_NO_ROOM = 22,           /**< there is no room for it; nothing was written */
  GV_NOT_GIVEN = 23          /**< no packet was made yet that has the token, or it is of another epoch */
} gv_status;

/** Which of the two endpoints. */
typedef enum gv_role { GV_ROLE_CLIENT = 0, GV_ROLE_SERVER = 1 } gv_role;

/** Directions of streams (section 2.1). */
typedef enum gv_dir { GV_DIR_BIDI = 0, GV_DIR_UNI = 1 } gv_dir;

/** A part of a window, or of a grant. */
typedef enum gv_share {
  GV_SHARE_NONE = 0,
  GV_SHARE_HALF = 1,
  GV_SHARE_QUARTER = 2,
  GV_SHARE_EIGHTH = 3,
  GV_SHARE_SIXTEENTH = 4
} gv_share;

/** Whether something that an application may choose is on. */
typedef enum gv_switch {
  GV_OFF = 0, /**< no */
  GV_ON = 1   /**< yes */
} gv_switch;

/** A side of the connection, seen from this endpoint. */
typedef enum gv_closer {
  GV_CLOSER_US = 0,  /**< this endpoint */
  GV_CLOSER_PEER = 1 /**< the other one */
} gv_closer;

/** Who closed in the sense of section 20. The codes of the two kinds are numbered apart, so a code alone means nothing. */
typedef enum gv_close_kind {
  GV_CLOSE_TRANSPORT = 0,  /**< the transport: a CONNECTION_CLOSE of type 0x1c, or an idle timeout (sections 10.1 and 19.19) */
  GV_CLOSE_APPLICATION = 1 /**< the application: a CONNECTION_CLOSE of type 0x1d (section 19.19) */
} gv_close_kind;

/** States of sending halves (section 3.1). */
typedef enum gv_send_state {
  GV_SEND_STATE_READY = 0,
  GV_SEND_STATE_SEND = 1,
  GV_SEND_STATE_DATA_SENT = 2,
  GV_SEND_STATE_DATA_RECVD = 3,
  GV_SEND_STATE_RESET_SENT = 4,
  GV_SEND_STATE_RESET_RECVD = 5
} gv_send_state;

/** States of receiving halves (section 3.2). */
typedef enum gv_recv_state {
  GV_RECV_STATE_RECV = 0,
  GV_RECV_STATE_SIZE_KNOWN = 1,
  GV_RECV_STATE_DATA_RECVD = 2,
  GV_RECV_STATE_DATA_READ = 3,
  GV_RECV_STATE_RESET_RECVD = 4,
  GV_RECV_STATE_RESET_READ = 5
} gv_recv_state;

/** Kinds of frames, in the order of section 19. */
typedef enum gv_frame_kind {
  GV_FRAME_PADDING = 0,
  GV_FRAME_PING = 1,
  GV_FRAME_ACK = 2,
  GV_FRAME_RESET_STREAM = 3,
  GV_FRAME_STOP_SENDING = 4,
  GV_FRAME_CRYPTO = 5,
  GV_FRAME_NEW_TOKEN = 6,
  GV_FRAME_STREAM = 7,
  GV_FRAME_MAX_DATA = 8,
  GV_FRAME_MAX_STREAM_DATA = 9,
  GV_FRAME_MAX_STREAMS = 10,
  GV_FRAME_DATA_BLOCKED = 11,
  GV_FRAME_STREAM_DATA_BLOCKED = 12,
  GV_FRAME_STREAMS_BLOCKED = 13,
  GV_FRAME_NEW_CONNECTION_ID = 14,
  GV_FRAME_RETIRE_CONNECTION_ID = 15,
  GV_FRAME_PATH_CHALLENGE = 16,
  GV_FRAME_PATH_RESPONSE = 17,
  GV_FRAME_CONNECTION_CLOSE = 18,  /**< type 0x1c: the transport closes */
  GV_FRAME_APPLICATION_CLOSE = 19, /**< type 0x1d: the application closes */
  GV_FRAME_HANDSHAKE_DONE = 20
} gv_frame_kind;

/** Kinds of faults. */
typedef enum gv_fault_kind {
  GV_FAULT_NO_FAULT = 0,
  GV_FAULT_EMPTY = 1,            /**< the payload has no frame (section 12.4) */
  GV_FAULT_LONG_TYPE = 2,        /**< the type has a shorter spelling (section 12.4) */
  GV_FAULT_UNKNOWN_TYPE = 3,     /**< no frame has this type (section 12.4) */
  GV_FAULT_TRUNCATED = 4,        /**< a field, or the bytes that it counts, end past the payload */
  GV_FAULT_OFFSET_TOO_LARGE = 5, /**< an offset plus a length is above 2^62-1 (sections 19.6 and 19.8) */
  GV_FAULT_COUNT_TOO_LARGE = 6,  /**< a count of streams is above 2^60 (sections 19.11 and 19.14) */
  GV_FAULT_BELOW_ZERO = 7,       /**< an ACK names a number below zero (section 19.3.1) */
  GV_FAULT_IDENTIFIER = 8        /**< a connection ID has no byte or more than 20 (section 19.15) */
} gv_fault_kind;

/** What came of a single frame. A later version may have more. */
typedef enum gv_taken {
  GV_TAKEN_TOOK = 0,      /**< it took effect, and something changed */
  GV_TAKEN_UNCHANGED = 1, /**< it changed nothing: it came before, or raises no limit. Count these against a peer that only makes
                               work, except DATA_BLOCKED, STREAM_DATA_BLOCKED and STREAMS_BLOCKED: an honest peer sends them,
                               and they change nothing, but that a STREAM_DATA_BLOCKED may open its stream */
  GV_TAKEN_NOT_OURS = 2   /**< it is neither of streams nor of flow control, so it is for the stack, and nothing changed */
} gv_taken;

/** What gv_next_event() reports, in this order, and of a kind those of a lower stream first; ::GV_EVENT_FINISHED and ::GV_EVENT_RESET_ACKED
 * are of one kind there. A later version may have more. */
typedef enum gv_event_kind {
  GV_EVENT_OPENED = 0,              /**< the peer opened the stream, be it accepted or not; the first of its events (section 2.1) */
  GV_EVENT_READABLE = 1,            /**< a read of the stream returns something new: bytes, the end or a reset (sections 2.2 and 3.2) */
  GV_EVENT_WRITABLE = 2,            /**< a write to the stream was cut short, and now one of a byte is accepted (sections 2.2 and 2.4) */
  GV_EVENT_STOPPED = 3,             /**< the peer asked for no more of the stream, with this code first, while it could be reset: else there is
                                         nothing to stop (section 3.5) */
  GV_EVENT_FINISHED = 4,            /**< everything written was acknowledged, and the FIN (section 3.1) */
  GV_EVENT_RESET_ACKED = 5,         /**< the reset of the stream was acknowledged (section 3.1) */
  GV_EVENT_ENDED = 6,               /**< each half that the stream has here is over (section 3) */
  GV_EVENT_AVAILABLE = 7,           /**< a stream of the direction may be opened, where gv_open() was refused for the limit (section 4.6) */
  GV_EVENT_DATA_BLOCKED = 8,        /**< the peer said that the connection's limit blocks it (sections 4.1 and 19.12) */
  GV_EVENT_STREAM_DATA_BLOCKED = 9, /**< the peer said that the stream's limit blocks it (sections 4.1 and 19.13) */
  GV_EVENT_STREAMS_BLOCKED = 10     /**< the peer said that the count of the direction blocks it (sections 4.6 and 19.14) */
} gv_event_kind;

/** The longest payload that gv_receive() takes, in bytes: no UDP datagram has more (section 18.2). */
#define GV_MAX_PAYLOAD 65535

/** With so many bytes of room gv_fill() puts something in whenever anything that it was asked for may go: it is the longest control frame. */
#define GV_MIN_FILL 25

/** One endpoint of a connection. */
typedef struct gv_endpoint gv_endpoint;

/** The credit that an endpoint grants, and the size of its sending buffers: windows and sizes in bytes, counts in streams.
 * gv_settings_init() sets what stands in parentheses. Later gv_set_conn_window(), gv_set_grant(), gv_set_send_buffer() and
 * gv_set_stream_window() change them. */
typedef struct gv_settings {
  size_t size;            /**< of this struct */
  uint64_t conn_window;   /**< how many bytes may be received beyond those consumed (section 4.1): 1 to 2^40 (2^20) */
  uint64_t bidi_local;    /**< the same for a bidirectional stream that this endpoint opens: 1 to 2^30 (2^18) */
  uint64_t bidi_remote;   /**< the same for a bidirectional stream that the peer opens (2^18) */
  uint64_t uni;           /**< the same for a unidirectional stream that the peer opens (2^18) */
  size_t send_buffer;     /**< how many unacknowledged bytes a sending half keeps: 1 to 2^30 (2^18) */
  uint64_t grant_bidi;    /**< how many bidirectional streams the peer may open at first: up to 2^17 (section 4.6) (100) */
  uint64_t grant_uni;     /**< the same of unidirectional ones (100) */
  uint64_t lifetime_bidi; /**< the same in all, as its streams end, each of which keeps some bytes: grant_bidi to 2^21 (2^21) */
  uint64_t lifetime_uni;  /**< the same of unidirectional ones (2^21) */
} gv_settings;

/** What an application may choose about an endpoint. gv_tuning_init() sets what stands in parentheses. A window or a grant that
 * gv_set_conn_window(), gv_set_stream_window() or gv_set_grant() makes greater moves its limit without waiting for a step, since whoever
 * asks has a reason. */
typedef struct gv_tuning {
  size_t size;            /**< of this struct */
  gv_share credit_step;   /**< how much of its window, as it is set at the time, has to be consumed until a limit on bytes moves (section
                               4.2): a smaller share keeps a long path fuller, at a frame for each step (GV_SHARE_HALF) */
  gv_share count_step;    /**< how many of the streams permitted at once, as it is set at the time, have to end until a count moves (section
                               4.6), one at least, to send fewer frames. GV_SHARE_NONE: each one moves it (GV_SHARE_NONE) */
  gv_switch within_credit;     /**< whether a write accepts no more bytes than may be sent at once under the stream's limit and the
                                    connection's, so that none waits (GV_OFF) */
  gv_switch reads_when_closed; /**< whether received bytes can be read after a close (GV_OFF) */
  uint64_t epoch;              /**< a number in each of its tokens. Give another one to an endpoint that replaces one, as after a
                                    rejected 0-RTT: it then takes none of the old tokens (0) */
  uint64_t send_window;        /**< how many bytes all streams together keep until they are acknowledged (section 13.3), beside
                                    send_buffer of each: a write accepts what that leaves beside gv_kept_sum(). 0: no bound (0) */
  gv_switch answers_stops;     /**< whether the application answers a STOP_SENDING (::GV_EVENT_STOPPED), by a reset or gv_finish();
                                    else the stream is reset at once, with the peer's code (section 3.5) (GV_OFF) */
  gv_switch spare;             /**< of a later choice: GV_OFF (GV_OFF) */
} gv_tuning;

/** What the peer grants at first, by its transport parameters (section 18.2). local and remote are seen from the peer. */
typedef struct gv_limits {
  size_t size;           /**< of this struct */
  uint64_t max_data;     /**< initial_max_data, below 2^62 */
  uint64_t bidi_local;   /**< initial_max_stream_data_bidi_local, below 2^62 */
  uint64_t bidi_remote;  /**< initial_max_stream_data_bidi_remote, below 2^62 */
  uint64_t uni;          /**< initial_max_stream_data_uni, below 2^62 */
  uint64_t streams_bidi; /**< initial_max_streams_bidi, at most 2^60 */
  uint64_t streams_uni;  /**< initial_max_streams_uni, at most 2^60 */
} gv_limits;

/** Where an endpoint's memory comes from. The functions get the context, sizes above 0, and alignments of at most that of max_align_t. They
 * run on the thread of the call that needs memory, return to it, and may not call the endpoint that they serve, which is half changed then.
 * A null pointer is a refusal. */
typedef struct gv_allocator {
  size_t size;   /**< of this struct */
  void *context; /**< whatever the functions need; it may be null */
  /** Gives memory. */
  void *(*allocate)(void *context, size_t size, size_t align);
  /** Gives memory of another size with the same bytes, as far as both go, and takes the old memory back. If it refuses, the old one stays.
   * It may be null: then memory is allocated, copied and released. */
  void *(*reallocate)(void *context, void *at, size_t old_size, size_t new_size, size_t align);
  /** Takes memory back, with the size and the alignment of the last request, so that it needs no note of them. */
  void (*release)(void *context, void *at, size_t size, size_t align);
} gv_allocator;

/** A packet from gv_make_packet() or gv_make_ack(). */
typedef struct gv_made {
  size_t size;           /**< of this struct */
  bool is_ack_eliciting; /**< whether it asks for an ACK; one that doesn't isn't in flight (section 13.2.1) */
  uint64_t number;       /**< its packet number (section 12.3) */
  size_t len;            /**< how many bytes its payload has */
} gv_made;

/** What gv_fill() is to put in: nothing if all of it is 0. */
typedef struct gv_fill_request {
  size_t size;       /**< of this struct */
  bool items;        /**< control frames: limits, resets, STOP_SENDING and blocked frames (section 13.3) */
  bool streams;      /**< data and FINs of streams */
  bool alone;        /**< of the stream first alone; else from it on, and then those below it (section 2.3) */
  bool is_capped;    /**< most_bytes is a cap; else as many bytes of streams go in as fit */
  uint64_t first;    /**< a stream, below 2^62 */
  size_t most_bytes; /**< if is_capped, so many bytes of streams at most; with 0 FINs alone */
} gv_fill_request;

/** Names a packet that gv_fill() filled, when it is acknowledged or lost. A packet that was filled in parts has several, which
 * gv_token_and() makes one. This struct doesn't grow. */
typedef struct gv_token {
  uint64_t epoch;  /**< of its endpoint (gv_tuning) */
  uint64_t first;  /**< the lowest of its numbers */
  uint64_t number; /**< the highest of them */
} gv_token;

/** What was filled in. */
typedef struct gv_filled {
  size_t size;          /**< of this struct */
  bool has_last_stream; /**< there is a STREAM frame */
  bool more;            /**< more of what was asked for is pending and may go; bytes that the cap holds back aren't counted */
  gv_token token;       /**< names it when it is acknowledged or lost; its numbers are no packet numbers of the stack's */
  size_t len;           /**< how many bytes it has */
  uint64_t last_stream; /**< if has_last_stream, the stream of the last STREAM frame, else 0; round-robin goes on behind it */
} gv_filled;

/** An event. */
typedef struct gv_event {
  size_t size;        /**< of this struct */
  gv_event_kind kind; /**< what happened */
  gv_dir dir;         /**< ::GV_EVENT_AVAILABLE and ::GV_EVENT_STREAMS_BLOCKED: the direction; else 0 */
  uint64_t stream;    /**< the stream; 0 for these two and ::GV_EVENT_DATA_BLOCKED */
  uint64_t code;      /**< ::GV_EVENT_STOPPED: the peer's code; else 0 */
} gv_event;

/** A sending half. */
typedef struct gv_sending {
  size_t size;         /**< of this struct */
  gv_send_state state; /**< its state */
  bool has_final_size; /**< the final size is declared (section 4.5) */
  bool was_reset;      /**< by the application, or by the peer's STOP_SENDING (section 3.5) */
  uint64_t written;    /**< how many bytes were accepted */
  uint64_t limit;      /**< how many the peer permits (section 4.1) */
  uint64_t final_size; /**< where has_final_size, else 0 */
  uint64_t reset_code; /**< where was_reset, else 0 */
} gv_sending;

/** A receiving half. */
typedef struct gv_receiving {
  size_t size;          /**< of this struct */
  gv_recv_state state;  /**< its state */
  bool has_final_size;  /**< the final size is known (section 4.5) */
  bool was_reset;       /**< the peer's reset took effect */
  uint64_t read_count;  /**< how many bytes were read */
  uint64_t highest;     /**< the final size if known, else one more than the largest received offset, or 0 */
  uint64_t limit;       /**< how many the peer may send (section 4.1) */
  uint64_t final_size;  /**< where has_final_size, else 0 */
  uint64_t reset_code;  /**< where was_reset, else 0 */
  uint64_t was_stopped; /**< 1 if it was stopped here, else 0 (section 3.5) */
  uint64_t stop_code;   /**< where was_stopped, the first code, else 0 */
} gv_receiving;

/** The next bytes of a stream, where they are: in one piece of memory, or in two, since the receive buffer is a ring. */
typedef struct gv_peeked {
  size_t size;          /**< of this struct */
  size_t front_len;     /**< how many bytes the first piece has: one at least */
  size_t back_len;      /**< how many the second has: 0 where there is none */
  const uint8_t *front; /**< the first piece */
  const uint8_t *back;  /**< the second, whose bytes follow those of the first */
} gv_peeked;

/** Why this endpoint closed (section 19.19). */
typedef struct gv_closing_info {
  size_t size;         /**< of this struct */
  uint64_t code;       /**< the code (section 20.1) */
  uint64_t frame_type; /**< the type of the frame that offended */
  size_t place;        /**< its place in the payload */
} gv_closing_info;

/** A frame. kind says which fields it has (section 19). After reading the others are 0; for writing and taking they don't matter, except
 * dir, and in gv_take_frame() stream. Offsets and sizes are in bytes. */
typedef struct gv_frame {
  size_t size;         /**< of this struct */
  gv_frame_kind kind;  /**< which frame it is */
  gv_dir dir;          /**< MAX_STREAMS, STREAMS_BLOCKED; of the others one of the two */
  bool fin;            /**< STREAM: the stream ends with its bytes */
  bool has_ecn;        /**< ACK: it counts marks */
  size_t place;        /**< where the frame stands in the payload; not written */
  uint64_t type;       /**< as it was spelled; not written */
  uint64_t stream;     /**< RESET_STREAM, STOP_SENDING, STREAM, MAX_STREAM_DATA, STREAM_DATA_BLOCKED */
  uint64_t offset;     /**< CRYPTO, STREAM: of the first byte (sections 19.6 and 19.8) */
  uint64_t code;       /**< RESET_STREAM, STOP_SENDING, CONNECTION_CLOSE, APPLICATION_CLOSE (section 20) */
  uint64_t final_size; /**< RESET_STREAM (section 19.4) */
  uint64_t limit;      /**< MAX_DATA, MAX_STREAM_DATA, DATA_BLOCKED, STREAM_DATA_BLOCKED: bytes; MAX_STREAMS, STREAMS_BLOCKED: streams,
                            at most 2^60 (sections 19.9 to 19.14) */
  uint64_t largest;    /**< ACK: the largest number that is acknowledged (section 19.3) */
  uint64_t delay;      /**< ACK: as it is spelled, in the unit that its sender named in the handshake (section 18.2) */
  uint64_t ect0;       /**< ACK, where has_ecn: how many packets came with the mark ECT(0) (section 19.3.2) */
  uint64_t ect1;       /**< the same with ECT(1) */
  uint64_t ce;         /**< the same with ECN-CE */
  uint64_t sequence;   /**< NEW_CONNECTION_ID, RETIRE_CONNECTION_ID (sections 19.15 and 19.16) */
  uint64_t retire;     /**< NEW_CONNECTION_ID: identifiers of lower numbers are to be retired */
  uint64_t at_fault;   /**< CONNECTION_CLOSE: the type of the frame that was at fault, 0 where none was (section 19.19) */
  size_t len;          /**< how many bytes there are, 0 where the frame has none */
  /** CRYPTO, NEW_TOKEN, STREAM, CONNECTION_CLOSE, APPLICATION_CLOSE: the bytes that it carries. PATH_CHALLENGE, PATH_RESPONSE: 8 bytes.
   * NEW_CONNECTION_ID: the identifier, 1 to 20 bytes. ACK: its ranges as they are spelled, from First ACK Range on, which gv_ack_next()
   * reads. Of a frame that was read they are a part of the payload. */
  const uint8_t *bytes;
  const uint8_t *token; /**< NEW_CONNECTION_ID: the stateless reset token, 16 bytes; else null (section 19.15) */
} gv_frame;

/** Why no frame can be read at a place in a payload. */
typedef struct gv_fault {
  size_t size;        /**< of this struct */
  gv_fault_kind kind; /**< why it is none */
  uint64_t code;      /**< the code that QUIC closes with (section 20.1) */
  uint64_t type;      /**< the type, 0 where none was read */
  size_t place;       /**< where it stands in the payload */
} gv_fault;

/** A walk over the frames of a payload: it begins at place 0. This struct doesn't grow. */
typedef struct gv_frames {
  const uint8_t *payload; /**< the payload's bytes */
  size_t len;             /**< how many they are */
  size_t place;           /**< where the next frame stands */
} gv_frames;

/** The packet numbers from one to another, both among them. This struct doesn't grow. */
typedef struct gv_range {
  uint64_t smallest; /**< the first of them */
  uint64_t largest;  /**< the last of them */
} gv_range;

/** A walk over the ranges of an ACK frame: it begins with the frame's bytes, len and largest. This struct doesn't grow. */
typedef struct gv_acked {
  const uint8_t *bytes; /**< the ranges that are left, as they are spelled */
  size_t len;           /**< how many bytes that is */
  uint64_t largest;     /**< the largest number of the next range */
} gv_acked;

/** @name The library
 * @code
 * printf("gotsavena %d, %s\n", gv_version(), gv_build());
 * @endcode
 * @{ */

/** The version of the library, as GV_VERSION is that of the header. */
GV_API int gv_version(void);

/** How the library was built: "proved" if the archive is the one that was proved, "erased" if it is the proved source with its contracts
 * removed, compiled by rustc. */
GV_API const char *gv_build(void);

/** What a status means, in a few words of English. */
GV_API const char *gv_strerror(gv_status status);

/** @}
 * @name An endpoint
 * @code
 * gv_settings own;
 * gv_limits peer = {.size = sizeof peer};
 * gv_settings_init(&own, sizeof own);
 * own.conn_window = 1 << 22;
 * gv_limits_of(&own, &peer);    // here the peer has the same settings; else its limits come in the handshake
 * if (gv_endpoint_new(GV_ROLE_CLIENT, &own, &peer, &client) != GV_OK) give_up();
 * if (gv_endpoint_new(GV_ROLE_SERVER, &own, &peer, &server) != GV_OK) give_up();
 * @endcode
 * @{ */

/** Writes the size of the struct, and settings for a start. What a later version has beyond is 0, which means 'as before'. */
GV_API gv_status gv_settings_init(gv_settings *settings, size_t size);

/** Writes the size of the struct, and the choices of an endpoint that was made without any. */
GV_API gv_status gv_tuning_init(gv_tuning *tuning, size_t size);

/** Writes the size of the struct, and the limits of a peer that grants nothing. */
GV_API gv_status gv_limits_init(gv_limits *limits, size_t size);

/** What an endpoint with these settings grants its peer at first: its transport parameters for the handshake (section 18.2). */
GV_API gv_status gv_limits_of(const gv_settings *settings, gv_limits *limits);

/** Makes an endpoint, with memory of the C library, and writes its handle to *out. ::GV_OUT_OF_RANGE, ::GV_TOO_MANY_STREAMS,
 * ::GV_NO_MEMORY: none was made. (Sections 4 and 18.2.) */
GV_API gv_status gv_endpoint_new(gv_role role, const gv_settings *settings, const gv_limits *peer, gv_endpoint **out);

/** The same, with memory of the caller's: all memory of the endpoint comes from there, during its own calls alone, and goes back there. The
 * struct is copied. A null pointer stands for the C library. */
GV_API gv_status gv_endpoint_new_with(gv_role role, const gv_settings *settings, const gv_limits *peer, const gv_allocator *allocator,
                                      gv_endpoint **out);

/** The same, tuned; a null pointer stands for what gv_tuning_init() sets. ::GV_INVALID also for a credit_step or count_step that it can't
 * be. */
GV_API gv_status gv_endpoint_new_tuned(gv_role role, const gv_settings *settings, const gv_tuning *tuning, const gv_limits *peer,
                                       const gv_allocator *allocator, gv_endpoint **out);

/** Frees an endpoint. A null pointer does nothing. */
GV_API void gv_endpoint_free(gv_endpoint *end);

/** Raises the peer's limits to those of the handshake, each that is greater: for a client that began with remembered ones, to send 0-RTT
 * (section 7.4.1). ::GV_OUT_OF_RANGE, ::GV_TOO_MANY_STREAMS, ::GV_CONNECTION_CLOSED: nothing changed. */
GV_API gv_status gv_raise_limits(gv_endpoint *end, const gv_limits *peer);

/** Sets the connection's window, in bytes: how much may be received beyond what was consumed, 1 to 2^40 (section 4.1). A greater one raises
 * the limit at once, even by less than a step; under a smaller one the limit stays until enough is consumed, since no limit may fall.
 * ::GV_OUT_OF_RANGE, ::GV_CONNECTION_CLOSED: nothing changed. */
GV_API gv_status gv_set_conn_window(gv_endpoint *end, uint64_t window);

/** Sets how many streams of a direction the peer may have open: up to 2^17 (section 4.6). A greater number permits more at once, beside
 * those that ended, up to the lifetime's count; under a smaller one, even 0, the count stays until enough ended, since no count may fall.
 * ::GV_OUT_OF_RANGE, ::GV_CONNECTION_CLOSED: nothing changed. */
GV_API gv_status gv_set_grant(gv_endpoint *end, gv_dir dir, uint64_t streams);

/** @}
 * @name Packets
 * @code
 * gv_made made = {.size = sizeof made};
 * while (gv_make_packet(client, payload, sizeof payload, &made) == GV_OK) {
 *   if (is_lost(made.number)) {
 *     gv_declare_lost(client, made.number);    // what it contained goes in the next packet
 *   } else {
 *     gv_receive(server, made.number, payload, made.len);    // the network
 *   }
 * }
 * if (gv_make_packet(server, payload, sizeof payload, &made) == GV_OK) {
 *   gv_receive(client, made.number, payload, made.len);    // an ACK
 * }
 * @endcode
 * @{ */

/** Processes the payload of a packet, all of its frames, under the packet's number (sections 12.4 and 13.1). Only pass what packet
 * protection accepted: a number counts once, so a forged packet would block the true one. ::GV_OK: all frames took effect. ::GV_INVALID
 * also for a number of 2^62 or more, or a payload of more than GV_MAX_PAYLOAD bytes, before a byte of it is read and memory is asked for.
 * ::GV_DUPLICATE, ::GV_TOO_OLD: nothing changed. ::GV_NO_MEMORY: some first frames took effect, or none; the number isn't kept, so it isn't
 * acknowledged, and the same payload may come again. ::GV_CLOSED_BY_PEER: gv_peer_closed() has the peer's code. ::GV_PROTOCOL_ERROR: the
 * payload breaks a rule, and this endpoint is closed. gv_closing() says why, and gv_close_payload() writes the close. */
GV_API gv_status gv_receive(gv_endpoint *end, uint64_t number, const uint8_t *payload, size_t len);

/** As gv_receive(), and told is called for each packet that the payload newly acknowledged, once: one that was outstanding, that an ACK of
 * the payload names, and that isn't outstanding any more (section 13.3). They come in the order of the ACKs, of each ACK the highest number
 * first, as congestion control wants them (RFC 9002, section 7). The payload is read once. told gets the context. It runs once the payload was processed, on the thread of this call, returns to it, and may not call the
 * endpoint. ::GV_NO_MEMORY: there is none for the numbers, and nothing changed; or it is that of gv_receive(), and then the same payload
 * may come again and names the others.
 *
 * The numbers wait in memory of the endpoint until told was called: at most 16 bytes for each number from the lowest outstanding to the
 * highest, or 512 bytes. Up to 4,096 bytes stay for the next call; more is given back as the call ends. */
GV_API gv_status gv_receive_with_acks(gv_endpoint *end, uint64_t number, const uint8_t *payload, size_t len,
                                    void (*told)(void *context, uint64_t number), void *context);

/** Makes the next packet: writes its payload at the front of out, which has room for 128 to 16383 bytes, and its number and length to *made
 * (sections 4, 13.2 and 13.3). Send it, or declare it lost: otherwise what it carries counts as in flight for good. ::GV_NONE: nothing may
 * go. ::GV_CONNECTION_CLOSED, ::GV_NUMBERS_EXHAUSTED, ::GV_NO_MEMORY: nothing changed. */
GV_API gv_status gv_make_packet(gv_endpoint *end, uint8_t *out, size_t room, gv_made *made);

/** The same, but data goes in from the stream first on, below 2^62, and an ACK carries this delay, below 2^62, in the unit that the peer
 * was given (sections 2.3, 18.2 and 19.3). Round-robin and priorities are made by choosing first. */
GV_API gv_status gv_make_packet_from(gv_endpoint *end, uint64_t first, uint64_t delay, uint8_t *out, size_t room, gv_made *made);

/** Makes a packet with an ACK alone, which may go when the congestion window is full. It carries this delay, below 2^62. Room, answers and
 * refusals are those of gv_make_packet() (section 13.2; RFC 9002, section 7). ::GV_NONE: no ACK is pending. */
GV_API gv_status gv_make_ack(gv_endpoint *end, uint64_t delay, uint8_t *out, size_t room, gv_made *made);

/** Declares the packet of a number lost: what it carried is pending again as far as it is still needed (section 13.3). A late ACK still
 * counts, so a wrong guess costs little. ::GV_NOT_OUTSTANDING, ::GV_CONNECTION_CLOSED: nothing changed. ::GV_NO_MEMORY: some of it is
 * pending again; call once more. */
GV_API gv_status gv_declare_lost(gv_endpoint *end, uint64_t number);

/** Uses up the next number for a packet that the transport writes itself, of which the endpoint records nothing. Numbers have one home, so
 * that none is used twice; so a closed endpoint gives them too, for its CONNECTION_CLOSE. ::GV_NUMBERS_EXHAUSTED: the last one was used
 * (section 12.3). */
GV_API gv_status gv_claim_number(gv_endpoint *end, uint64_t *number);

/** The number of the next packet; 2^62 if the last one was used (section 12.3). */
GV_API gv_status gv_next_number(const gv_endpoint *end, uint64_t *number);

/** Whether a packet would carry more than an ACK (sections 4.1 and 13.3). */
GV_API gv_status gv_is_sendable(const gv_endpoint *end, bool *answer);

/** Whether an ACK is pending (section 13.2). When to send it is for the transport, which has the clock. */
GV_API gv_status gv_ack_is_due(const gv_endpoint *end, bool *answer);

/** The lowest number from one on of an outstanding packet: it was made, asks for an ACK, and is neither acknowledged nor declared lost.
 * ::GV_NONE: there is none (section 13.3). */
GV_API gv_status gv_next_outstanding(const gv_endpoint *end, uint64_t from, uint64_t *number);

/** @}
 * @name Frames and tokens
 * For a stack with packet numbers and ACKs of its own, instead of gv_receive() and gv_make_packet(): it passes frames in, and has
 * pending frames written.
 * @code
 * gv_fill_request all = {.size = sizeof all, .items = true, .streams = true};
 * gv_filled filled = {.size = sizeof filled};
 * if (gv_fill(client, &all, payload, sizeof payload, &filled) == GV_OK) {    // behind frames of the stack's own
 *   gv_frames frames = {payload, filled.len, 0};
 *   gv_frame frame = {.size = sizeof frame};
 *   gv_fault fault = {.size = sizeof fault};
 *   gv_taken taken;
 *   while (gv_frames_next(&frames, &frame, &fault) == GV_OK) {    // at the peer
 *     if (gv_take_frame(server, &frame, &taken) != GV_OK) give_up();
 *     if (taken == GV_TAKEN_NOT_OURS) take_own(&frame);    // ACK, CRYPTO, PING ..
 *   }
 *   gv_token_acked(client, &filled.token);    // once the peer acknowledged the packet; gv_token_lost() if it is lost
 * }
 * @endcode
 * @{ */

/** Processes one frame without its packet, as gv_frames_next() gave it, or a reader of the stack's own. One of streams or flow control
 * takes effect as in a payload, and then limits move; any other changes nothing, and *taken says which it was. Acknowledge a packet only
 * once each of its frames was taken: what is acknowledged is never sent again (sections 13.1 and 19). ::GV_PROTOCOL_ERROR: the frame breaks
 * a rule, or has numbers that can't be spelled, as an offset plus a length above 2^62-1. This endpoint is closed, gv_closing() says why, at
 * place 0, and gv_close_payload() writes the close. ::GV_NO_MEMORY: nothing changed, and the frame may come again. An endpoint that was
 * closed before says so before it asks for memory: ::GV_PROTOCOL_ERROR, or ::GV_CLOSED_BY_PEER. ::GV_INVALID also for an unknown kind or
 * dir, or a stream that isn't below 2^62. */
GV_API gv_status gv_take_frame(gv_endpoint *end, const gv_frame *frame, gv_taken *taken);

/** Processes the frames of one packet, each as gv_take_frame() does, but limits move once, as the call ends: so it is what gv_receive()
 * does with them (sections 4.1 and 12.4). The count frames lie behind one another, and have the size that the first one names. *taken is
 * ::GV_TAKEN_TOOK if one of them changed something, else ::GV_TAKEN_UNCHANGED if one was taken, else ::GV_TAKEN_NOT_OURS, as for no frame.
 * ::GV_NO_MEMORY: some first ones took effect, or none, and the same frames may come again. Refused as gv_take_frame() is by the first
 * frame that is refused, and those before it took effect; but ::GV_INVALID if any of them is invalid: nothing changed. */
GV_API gv_status gv_take_frames(gv_endpoint *end, const gv_frame *frames, size_t count, gv_taken *taken);

/** Writes pending frames that are asked for at the front of out, which has any room, and describes them in *filled: never an ACK, which the
 * stack writes; control frames first, since the peer may wait for credit, then data of streams in turn (sections 2.3, 4, 12.4 and 13.3).
 * What is written is a whole payload: under its token's number gv_receive() of a peer accepts it too. ::GV_NONE: nothing that is asked for
 * may go within the cap, or the room is too small; with GV_MIN_FILL bytes it is never too small. ::GV_CONNECTION_CLOSED,
 * ::GV_NUMBERS_EXHAUSTED, ::GV_NO_MEMORY: nothing changed. */
GV_API gv_status gv_fill(gv_endpoint *end, const gv_fill_request *want, uint8_t *out, size_t room, gv_filled *filled);

/** The token of the packet that gv_make_packet() made under this number, for a stack that reports all packets by token. ::GV_INVALID:
 * nothing was written. */
GV_API gv_status gv_token_of(const gv_endpoint *end, uint64_t number, gv_token *token);

/** Joins *next, which was filled in next, to *token, so that a packet that is filled in parts has one token. ::GV_NONE: its numbers don't
 * follow those of *token, or their epochs differ; *token stays as it was. */
GV_API gv_status gv_token_and(gv_token *token, const gv_token *next);

/** The peer acknowledged the packets of a token, in time or late: what an ACK of these packets alone does. Call it only if the peer did,
 * since the bytes are freed. ::GV_OK also if they are done: then nothing changed. ::GV_NOT_GIVEN: not all of them were made yet, the token
 * is of another epoch, or its first number is above its last; nothing changed, as with ::GV_CONNECTION_CLOSED. ::GV_NO_MEMORY: some of what
 * they carried may be acknowledged; call once more (sections 13.2.1 and 13.3). */
GV_API gv_status gv_token_acked(gv_endpoint *end, const gv_token *token);

/** Declares the packets of a token lost, each as gv_declare_lost() does. ::GV_OK also if they are done, so that a stack needn't remember
 * which are: then nothing changed. ::GV_NOT_GIVEN, ::GV_CONNECTION_CLOSED: nothing changed. ::GV_NO_MEMORY: some of it is pending again;
 * call once more (section 13.3). */
GV_API gv_status gv_token_lost(gv_endpoint *end, const gv_token *token);

/** @}
 * @name Streams
 * @code
 * size_t count;
 * if (gv_open(client, GV_DIR_BIDI, &stream, NULL) != GV_OK) give_up();
 * gv_write(client, stream, (const uint8_t *)"hello", 5, &count);    // count is how many bytes were accepted
 * gv_finish(client, stream);
 * @endcode
 * @{ */

/** Opens the next stream of a direction, and writes its number to *stream (section 2.1). Nothing is sent for it: the peer learns of it by
 * its first byte, FIN or reset. ::GV_STREAM_LIMIT: the peer permits no more, and *limit, if limit isn't null, is how many it permits;
 * gv_next_event() reports when one may be opened. ::GV_CONNECTION_CLOSED, ::GV_NO_MEMORY: nothing changed. */
GV_API gv_status gv_open(gv_endpoint *end, gv_dir dir, uint64_t *stream, uint64_t *limit);

/** Returns each stream that the peer opened, once (section 2.1). A stream may be used before it is accepted. ::GV_NONE: there is none. */
GV_API gv_status gv_accept(gv_endpoint *end, uint64_t *stream);

/** As gv_accept(), of one direction, for an application that handles the two apart: what this returned gv_accept() doesn't, and the other way
 * round (section 2.1). ::GV_NONE: there is none. */
GV_API gv_status gv_accept_of(gv_endpoint *end, gv_dir dir, uint64_t *stream);

/** Accepts the front of the bytes for sending, and writes to *count how many (section 2.2). Bytes beyond the peer's limits are accepted
 * too, and wait. If fewer are accepted than offered, gv_next_event() reports when more may be written. ::GV_CONNECTION_CLOSED,
 * ::GV_NO_SUCH_STREAM, ::GV_WRONG_DIRECTION, ::GV_SENDING_RESET, ::GV_SENDING_FINISHED, ::GV_NO_MEMORY: no byte was accepted. The last may
 * also come if there still is none to note that an earlier write was cut short. */
GV_API gv_status gv_write(gv_endpoint *end, uint64_t stream, const uint8_t *bytes, size_t len, size_t *count);

/** Sets how many unacknowledged bytes the stream's sending half keeps at most: 1 to 2^30 (sections 2.2 and 13.3). Nothing that was accepted
 * is given up, since it is promised to the reader: if more is kept, gv_write() accepts none until enough is acknowledged. A stream that
 * opens later begins with the setting of the endpoint (gv_settings). ::GV_CONNECTION_CLOSED, ::GV_OUT_OF_RANGE, ::GV_NO_SUCH_STREAM,
 * ::GV_WRONG_DIRECTION: nothing changed. */
GV_API gv_status gv_set_send_buffer(gv_endpoint *end, uint64_t stream, size_t size);

/** Sets the window of the stream's receiving half: 1 to 2^30 bytes (section 4.1). A greater one raises the stream's limit at once, even by
 * less than a step. Under a smaller one the limit stays until enough is consumed, since no limit may fall; and none moves once the stream's
 * length is known. A stream that opens later begins with the window of the endpoint (gv_settings), which is what the peer counts with.
 * ::GV_CONNECTION_CLOSED, ::GV_OUT_OF_RANGE, ::GV_NO_SUCH_STREAM, ::GV_WRONG_DIRECTION: nothing changed. */
GV_API gv_status gv_set_stream_window(gv_endpoint *end, uint64_t stream, uint64_t window);

/** Ends the stream after the bytes written so far (section 3.1). Refused as gv_write(), but never for memory. */
GV_API gv_status gv_finish(gv_endpoint *end, uint64_t stream);

/** Resets the sending half with the application's code, below 2^62; unsent bytes are given up (sections 3.1 and 20.2). Refused as
 * gv_write() is; ::GV_SENDING_FINISHED only once everything was acknowledged, since until then a reset still means something. */
GV_API gv_status gv_reset(gv_endpoint *end, uint64_t stream, uint64_t code);

/** Discards the stream's bytes, those stored and those to come, and asks the peer to send no more, with the application's code, below 2^62
 * (section 3.5). Read on until the end or the reset, so that the stream is over. ::GV_CONNECTION_CLOSED, ::GV_NO_SUCH_STREAM,
 * ::GV_WRONG_DIRECTION: nothing changed. */
GV_API gv_status gv_stop(gv_endpoint *end, uint64_t stream, uint64_t code);

/** As gv_stop(), for an application that never wants to hear of the stream again: it counts as read to its end as soon as its last byte or
 * a reset arrives. So the peer gets another stream without another read here (sections 3.2, 3.5 and 4.6). The first code stays. Refused as
 * gv_stop() is. */
GV_API gv_status gv_stop_and_discard(gv_endpoint *end, uint64_t stream, uint64_t code);

/** Reads the next bytes (section 2.2). ::GV_OK: *count bytes were written to into. ::GV_NOTHING_YET: none arrived yet. ::GV_END_OF_STREAM:
 * all was read. ::GV_RESET_BY_PEER: the peer reset the stream, and *code, if code isn't null, is its code. Refused as gv_stop() is. */
GV_API gv_status gv_read(gv_endpoint *end, uint64_t stream, uint8_t *into, size_t size, size_t *count, uint64_t *code);

/** Lends the next bytes where they are, and consumes none: gv_consume() does that (section 2.2). So a parser can look without a copy.
 * ::GV_OK: *peeked has all up to the next gap, one at least. They may be read until the next call of this endpoint that isn't a question,
 * and may not be written. Its other answers, and its refusals, are those of gv_read(). It takes no memory. */
GV_API gv_status gv_peek(const gv_endpoint *end, uint64_t stream, gv_peeked *peeked, uint64_t *code);

/** Consumes the next bytes, at most so many, as gv_read() into a slice of that size, but copies none: after gv_peek(), or to skip (sections
 * 2.2 and 3.2). ::GV_OK: *count bytes were consumed, and *at_end is whether the stream ends there. Then the end counts as read, and no
 * further call is needed. Its other answers, and its refusals, are those of gv_read(). */
GV_API gv_status gv_consume(gv_endpoint *end, uint64_t stream, size_t most, size_t *count, bool *at_end, uint64_t *code);

/** At which stream a read returns something new: bytes, the end or a reset (sections 2.2 and 3.2).
 *
 * This question and the next three write to *stream the lowest one at or above from, which is below 2^62; ::GV_NONE: there is none. To go
 * through all, call again from *stream + 1. At a closed endpoint the first three find none, except that the first does if reads_when_closed
 * was chosen (section 10.2). */
GV_API gv_status gv_next_readable(const gv_endpoint *end, uint64_t from, uint64_t *stream);

/** Which stream wasn't finished, reset or stopped by the peer, and has room in its own buffer: a write of one byte is accepted, if there is
 * memory for it (sections 2.2 and 2.4). What holds all streams alike isn't looked at, since that would cost a look at each: with
 * within_credit or send_window ask gv_room() whether it takes a byte. ::GV_NONE: there is none. */
GV_API gv_status gv_next_writable(const gv_endpoint *end, uint64_t from, uint64_t *stream);

/** Which stream has data or a FIN pending that its own limit permits, whatever the connection's limit says (sections 4.1 and 13.3). ::GV_NONE:
 * there is none. */
GV_API gv_status gv_next_sendable(const gv_endpoint *end, uint64_t from, uint64_t *stream);

/** Which stream is over: its end or reset was read, and all that was sent is acknowledged, or the reset (section 3). ::GV_NONE: there is
 * none. */
GV_API gv_status gv_next_ended(const gv_endpoint *end, uint64_t from, uint64_t *stream);

/** The state of a stream's sending half. ::GV_NO_SUCH_STREAM: the stream isn't open. ::GV_WRONG_DIRECTION: it has no such half here
 * (section 3.1). */
GV_API gv_status gv_sending_report(const gv_endpoint *end, uint64_t stream, gv_sending *sending);

/** The state of a stream's receiving half. Refused as gv_sending_report() is (section 3.2). */
GV_API gv_status gv_receiving_report(const gv_endpoint *end, uint64_t stream, gv_receiving *receiving);

/** The code of the stream's first STOP_SENDING that came while its sending half could be reset. It stays, so that an application that comes
 * late still learns why. ::GV_NONE: none came (section 3.5). */
GV_API gv_status gv_stopped_with(const gv_endpoint *end, uint64_t stream, uint64_t *code);

/** Whether unsent bytes of the stream wait for credit alone; at a closed endpoint nothing waits (section 4.1). */
GV_API gv_status gv_is_blocked(const gv_endpoint *end, uint64_t stream, bool *answer);

/** How many bytes gv_write() accepts of a stream now, however many are offered: 0 if it would be refused (sections 2.2 and 2.4). The peer's
 * limits don't count, since bytes beyond them wait, unless within_credit was chosen (gv_tuning); nor does what other streams keep, unless
 * all are bounded together (send_window). */
GV_API gv_status gv_room(const gv_endpoint *end, uint64_t stream, uint64_t *count);

/** How many bytes of a stream weren't sent yet: 0 after a reset, since none will be, and if the stream has no sending half here (section
 * 2.2). */
GV_API gv_status gv_unsent(const gv_endpoint *end, uint64_t stream, uint64_t *count);

/** The lowest offset of a stream that isn't acknowledged, in bytes from its start: all below it are (section 13.3). Late ACKs move it even
 * after a reset. ::GV_NONE: the stream has no sending half here. */
GV_API gv_status gv_acked_below(const gv_endpoint *end, uint64_t stream, uint64_t *offset);

/** @}
 * @name Events
 * What happened, so that an application needn't ask each stream. It may ask the questions above instead, or as well.
 * @code
 * gv_event event = {.size = sizeof event};
 * uint8_t bytes[256];
 * size_t count;
 * while (gv_next_event(server, &event) == GV_OK) {
 *   if (event.kind != GV_EVENT_READABLE) continue;
 *   while (gv_read(server, event.stream, bytes, sizeof bytes, &count, NULL) == GV_OK) use(bytes, count);
 * }
 * @endcode
 * @{ */

/** Writes the next event to *event, each once. ::GV_NONE: there is none; later calls may bring one. ::GV_NO_MEMORY: there is none for the
 * note that it was reported, or for an earlier note; nothing changed, and it comes again. There is no queue, which a peer could fill: an
 * event is a condition that holds now. One that no longer holds, as ::GV_EVENT_READABLE of a stream that was read since, isn't reported.
 * The endpoint keeps notes, in memory of its own, from the first call that finds something, or the first write that is cut short.
 *
 * ::GV_EVENT_READABLE comes again once a stream was read until nothing was left and more arrived; until then not, not even for its end or a
 * reset. ::GV_EVENT_WRITABLE comes for each stream to which gv_write() accepted fewer bytes than were offered, ::GV_EVENT_AVAILABLE for
 * each direction of which gv_open() returned ::GV_STREAM_LIMIT, each once until that happens again.
 *
 * The last three kinds come each time that the peer said so of a limit that hadn't risen by the end of the packet, once for all that it
 * said since the last one, even if the limit rose later. They come from gv_take_frame() and gv_take_frames() once this was called. From
 * gv_receive() they come only if gv_report_blocked() chose so, since that reads payloads twice; it turns the other two on as well. Frames
 * that are passed in twice report twice. A stream has none if its length was known by the end of the packet, since no limit moves then; one
 * that was stopped does. A greater window helps: gv_set_conn_window(), gv_set_stream_window() or gv_set_grant().
 *
 * The others come at most once for a stream (sections 2 to 4). A closed endpoint reports no ::GV_EVENT_WRITABLE, no ::GV_EVENT_AVAILABLE
 * and none of the last three kinds, since none could be acted on, and ::GV_EVENT_READABLE only if reads_when_closed was chosen. */
GV_API gv_status gv_next_event(gv_endpoint *end, gv_event *event);

/** Chooses whether gv_receive() and gv_receive_with_acks() look through each payload for blocked frames of the peer (sections 19.12 to
 * 19.14). Not by default: it costs a second reading of each payload, and a third if there is such a frame. If it is chosen, gv_take_frame()
 * and gv_take_frames() note such frames before an event was asked for, too. Memory for the notes is taken before the payload takes effect,
 * 8 bytes for each such frame, and more than 4,096 bytes go back as the call ends. If it is refused, ::GV_NO_MEMORY, nothing changed, and
 * the same payload may come again. */
GV_API gv_status gv_report_blocked(gv_endpoint *end, bool is_chosen);

/** @}
 * @name Credit
 * @code
 * uint64_t left, taken;
 * if (gv_credit_left(client, &left) == GV_OK && left == 0) wait_for_max_data();
 * if (gv_taken_sum(server, &taken) == GV_OK && taken > 1 << 22) gv_set_conn_window(server, 1 << 23);    // read fast: widen it
 * @endcode
 * @{ */

/** How many bytes of all streams weren't sent yet (section 2.2). */
GV_API gv_status gv_unsent_sum(const gv_endpoint *end, uint64_t *count);

/** How many bytes of all streams are kept until they are acknowledged: of each all from its lowest unacknowledged offset on, since the
 * buffer frees only at its front, and none after a reset (section 13.3). Constant time. */
GV_API gv_status gv_kept_sum(const gv_endpoint *end, uint64_t *count);

/** How many bytes of a stream count as consumed, which its limit follows: those that were read; after a stop all up to the highest offset,
 * gaps too; after a reset its final size (section 4.2). ::GV_NONE: the stream has no receiving half here. */
GV_API gv_status gv_taken_on(const gv_endpoint *end, uint64_t stream, uint64_t *count);

/** How many bytes of all streams count as consumed, which the connection's limit follows (section 4.2). */
GV_API gv_status gv_taken_sum(const gv_endpoint *end, uint64_t *count);

/** How many new bytes the peer's limit on the connection permits (section 4.1). Lost bytes need none, since they were counted when first
 * sent. */
GV_API gv_status gv_credit_left(const gv_endpoint *end, uint64_t *count);

/** How many streams of a direction the peer may still open in the life of this connection (section 4.6). At 0 a new connection is needed. */
GV_API gv_status gv_streams_left(const gv_endpoint *end, gv_dir dir, uint64_t *count);

/** How many streams of a direction gv_open() may open by the peer's latest count (section 4.6). */
GV_API gv_status gv_open_left(const gv_endpoint *end, gv_dir dir, uint64_t *count);

/** How many streams of a direction the peer may open so far: the first count, and one more for each of its streams that ended, in whole
 * steps if count_step was chosen, up to the lifetime's count (section 4.6). It never falls, not even after gv_set_grant() with less. */
GV_API gv_status gv_granted_streams(const gv_endpoint *end, gv_dir dir, uint64_t *count);

/** How many bytes wait to be read: never more than was granted beyond what was consumed (section 4.1). */
GV_API gv_status gv_stored(const gv_endpoint *end, uint64_t *count);

/** Into how many runs the received offsets fall, on all streams whose end wasn't read and that weren't reset: one for each with some, and
 * one more for each gap. A run takes at most 33 bytes, also on a stream that was stopped, where no window bounds them. So watch it, and
 * close a connection whose number gets too great (section 2.2). Constant time. */
GV_API gv_status gv_noted(const gv_endpoint *end, uint64_t *count);

/** How many bytes of memory the buffers take in which bytes wait to be read, and those in which bytes wait to be acknowledged. It walks
 * over all streams that were opened, so ask from time to time. A peer can't make the receive buffers take more than four times the widest
 * window that the connection had, and 4,096 bytes for each receiving half that wasn't read to its end, reset or stopped. A sending buffer
 * takes at most twice the most that it was set to, or 4,096 bytes if nothing is kept. */
GV_API gv_status gv_held(const gv_endpoint *end, uint64_t *receiving, uint64_t *sending);

/** The limit that the peer was granted on the sum of all streams' highest offsets (section 4.1). */
GV_API gv_status gv_granted(const gv_endpoint *end, uint64_t *count);

/** How much of its credit on the connection the peer used: the sum of all streams' highest offsets (section 4.1). Gaps count, so that a peer
 * gains nothing by leaving some. */
GV_API gv_status gv_spent(const gv_endpoint *end, uint64_t *count);

/** @}
 * @name Closing
 * @code
 * gv_closing_info why = {.size = sizeof why};
 * if (gv_closing(server, &why) == GV_OK) {    // the peer broke a rule, as gv_receive() returned GV_PROTOCOL_ERROR
 *   if (gv_close_payload(server, payload, sizeof payload, &len) == GV_OK) send_packet(payload, len);
 * }
 * @endcode
 * @{ */

/** Why this endpoint closed. ::GV_NONE: it is open, or the peer closed (section 10.2). */
GV_API gv_status gv_closing(const gv_endpoint *end, gv_closing_info *closing);

/** Writes the payload for this endpoint's own close, and its length to *len (section 10.2). ::GV_NONE: it didn't close, or there is no room
 * for it. */
GV_API gv_status gv_close_payload(const gv_endpoint *end, uint8_t *out, size_t room, size_t *len);

/** The code with which the peer closed by a frame that was received here. ::GV_NONE: it didn't (section 10.2). */
GV_API gv_status gv_peer_closed(const gv_endpoint *end, uint64_t *code);

/** Notes a close that this endpoint didn't see: the stack's own, the application's, or the peer's if the stack reads CONNECTION_CLOSE
 * itself (sections 10.2 and 19.19). Without it streams would go on as if the connection were open. The endpoint is then closed as after any
 * close, but gv_closing(), gv_close_payload() and gv_peer_closed() know nothing of it. gv_receive() and gv_take_frame() return
 * ::GV_CLOSED_BY_PEER, or ::GV_PROTOCOL_ERROR if this side closed. One that closed before stays as it is. */
GV_API gv_status gv_note_closed(gv_endpoint *end, gv_closer by, gv_close_kind kind, uint64_t code);

/** The close that gv_note_closed() noted: whose it was, its kind and its code. ::GV_NONE: it is open, or closed in another way. */
GV_API gv_status gv_noted_close(const gv_endpoint *end, gv_closer *by, gv_close_kind *kind, uint64_t *code);

/** @}
 * @name Frames
 * Frames without an endpoint: of the handshake's packets, say, or for a transport that reads a payload before the endpoint does.
 * @code
 * gv_frames frames = {payload, len, 0};
 * gv_frame frame = {.size = sizeof frame};
 * gv_fault fault = {.size = sizeof fault};
 * gv_status status;
 * while ((status = gv_frames_next(&frames, &frame, &fault)) == GV_OK) {
 *   if (frame.kind == GV_FRAME_CONNECTION_CLOSE) was_closed(frame.code);
 * }
 * if (status == GV_BAD_FRAME) close_with(fault.code, fault.type);
 * @endcode
 * @{ */

/** The stream of the last STREAM frame in a payload, up to its end or its first fault. For round-robin, the next packet is
 * gv_make_packet_from() that one + 1 (section 2.3). ::GV_NONE: there is none. The payload may have any length: this call takes time in
 * proportion to it, and no memory. */
GV_API gv_status gv_last_stream(const uint8_t *payload, size_t len, uint64_t *stream);

/** Gives the frame at frames->place, and moves the place behind it (sections 12.4 and 19). ::GV_NONE: the payload is at its end.
 * ::GV_BAD_FRAME: no frame stands there, and *fault says why; a payload without a frame is one, too. Then the place stays, and the next
 * call returns the same. ::GV_INVALID also if the place lies past the payload's end. The payload may have any length: each call takes time
 * in proportion to the frame that it gives, and no memory. */
GV_API gv_status gv_frames_next(gv_frames *frames, gv_frame *frame, gv_fault *fault);

/** Gives the next range of an ACK, the highest first, and moves behind it (section 19.3.1). ::GV_NONE: there is none. An ACK may have any
 * number of ranges: each call takes constant time, and no memory. */
GV_API gv_status gv_ack_next(gv_acked *ranges, gv_range *range);

/** Writes the frame at the front of out, and its length to *len: each number in its shortest spelling; a STREAM always with its length, so
 * that another frame may follow, and with its offset if that isn't 0 (sections 16 and 19). What gv_frames_next() gave may be written as it
 * is. ::GV_INVALID: no frame has these fields, as a number that isn't below 2^62, an ACK whose ranges end inside a number, or a
 * PATH_CHALLENGE that hasn't 8 bytes. ::GV_NO_ROOM: there is no room. */
GV_API gv_status gv_put(const gv_frame *frame, uint8_t *out, size_t room, size_t *len);

/** Writes an ACK without ECN counts at the front of out, of as many of the ranges as fit, from the first on; *written is how many these
 * are, and *len the frame's length (section 19.3). There are 1 to 32 ranges, the highest first, so that those left out are the oldest; of
 * numbers below 2^62, and between two a number that is in neither. delay is below 2^62. ::GV_NO_ROOM: not even the first fits. */
GV_API gv_status gv_put_ack(const gv_range *ranges, size_t count, uint64_t delay, uint8_t *out, size_t room, size_t *written, size_t *len);

/** @} */

#ifdef __cplusplus
}
#endif

/* The structs have enums, so these must have the size that the library has for them: an option like -fshort-enums would shift every field
 * behind. */
#if defined(__cplusplus) && __cplusplus >= 201103L
static_assert(sizeof(gv_dir) == 4 && sizeof(void *) == 8, "gotsavena wants enums of 4 bytes, and pointers of 8");
#elif defined(__STDC_VERSION__) && __STDC_VERSION__ >= 201112L
_Static_assert(sizeof(gv_dir) == 4 && sizeof(void *) == 8, "gotsavena wants enums of 4 bytes, and pointers of 8");
#endif

#endif

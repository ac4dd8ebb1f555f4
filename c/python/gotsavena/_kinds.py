"""What the header names by numbers, its structs, and its faults. Made by scripts/cffi."""

from __future__ import annotations

from enum import IntEnum
from typing import Any, NamedTuple, Optional

__all__ = [
    "BadFrameError",
    "CloseKind",
    "ClosedByPeerError",
    "Closer",
    "ClosingInfo",
    "ConnectionClosedError",
    "Dir",
    "Error",
    "Event",
    "EventKind",
    "Fault",
    "FaultKind",
    "FrameKind",
    "InvalidError",
    "Limits",
    "NoMemoryError",
    "NoRoomError",
    "NoSuchStreamError",
    "NotGivenError",
    "NotOutstandingError",
    "NumbersExhaustedError",
    "OutOfRangeError",
    "ProtocolError",
    "Range",
    "Receiving",
    "RecvState",
    "ResetByPeerError",
    "Role",
    "SendState",
    "Sending",
    "SendingFinishedError",
    "SendingResetError",
    "Settings",
    "Share",
    "Status",
    "StreamLimitError",
    "Taken",
    "Token",
    "TooManyStreamsError",
    "Tuning",
    "WrongDirectionError",
]


class Kind(IntEnum):
    """A number with a name. One that a later version of the library may return is UNKNOWN_ with the number."""

    @classmethod
    def _missing_(cls, value: object) -> Optional[Kind]:
        if not isinstance(value, int):
            return None
        member = int.__new__(cls, value)
        member._name_, member._value_ = f"UNKNOWN_{value}", value
        return member


class Status(Kind):
    """What a call returns. Unless it is Status.OK, whatever a call writes through its pointers stays as it was, except as said at the call.
    A later version may have more.
    """

    #: the call did what it says
    OK = 0
    #: a null pointer, a number out of its range, or a struct's size; nothing changed
    INVALID = 1
    #: memory was refused; the call may be made again
    NO_MEMORY = 2
    #: the connection is closed (section 10.2)
    CONNECTION_CLOSED = 3
    #: the stream isn't open
    NO_SUCH_STREAM = 4
    #: the stream is unidirectional, and has no such half here (section 2.1)
    WRONG_DIRECTION = 5
    #: the stream was finished here (section 3.1)
    SENDING_FINISHED = 6
    #: the stream was reset here, or stopped by the peer (sections 3.1 and 3.5)
    SENDING_RESET = 7
    #: as many streams were opened as the peer permits (section 4.6)
    STREAM_LIMIT = 8
    #: the last packet number was used, and none may be used twice (section 12.3)
    NUMBERS_EXHAUSTED = 9
    #: no such packet is outstanding
    NOT_OUTSTANDING = 10
    #: the packet number was processed before (section 13.2.3)
    DUPLICATE = 11
    #: the packet number is below those whose history is kept: it may be a repeat (section 13.2.3)
    TOO_OLD = 12
    #: the peer closed the connection: peer_closed() has the code (section 10.2.2)
    CLOSED_BY_PEER = 13
    #: the peer broke a rule, and this endpoint is closed: closing() says why (section 11.1)
    PROTOCOL_ERROR = 14
    #: there is none
    NONE = 15
    #: nothing to read yet (section 2.2)
    NOTHING_YET = 16
    #: all was read (section 3.2)
    END_OF_STREAM = 17
    #: the peer reset the stream (section 3.2)
    RESET_BY_PEER = 18
    #: a setting or a limit is out of its range
    OUT_OF_RANGE = 19
    #: the peer permits more streams than there can be (section 4.6)
    TOO_MANY_STREAMS = 20
    #: no frame stands there (section 12.4)
    BAD_FRAME = 21
    #: there is no room for it; nothing was written
    NO_ROOM = 22
    #: no packet was made yet that has the token, or it is of another epoch
    NOT_GIVEN = 23


class Role(Kind):
    """Which of the two endpoints."""

    CLIENT = 0
    SERVER = 1


class Dir(Kind):
    """Directions of streams (section 2.1)."""

    BIDI = 0
    UNI = 1


class Share(Kind):
    """A part of a window, or of a grant."""

    NONE = 0
    HALF = 1
    QUARTER = 2
    EIGHTH = 3
    SIXTEENTH = 4


class Closer(Kind):
    """A side of the connection, seen from this endpoint."""

    #: this endpoint
    US = 0
    #: the other one
    PEER = 1


class CloseKind(Kind):
    """Who closed in the sense of section 20. The codes of the two kinds are numbered apart, so a code alone means nothing."""

    #: the transport: a CONNECTION_CLOSE of type 0x1c, or an idle timeout (sections 10.1 and 19.19)
    TRANSPORT = 0
    #: the application: a CONNECTION_CLOSE of type 0x1d (section 19.19)
    APPLICATION = 1


class SendState(Kind):
    """States of sending halves (section 3.1)."""

    READY = 0
    SEND = 1
    DATA_SENT = 2
    DATA_RECVD = 3
    RESET_SENT = 4
    RESET_RECVD = 5


class RecvState(Kind):
    """States of receiving halves (section 3.2)."""

    RECV = 0
    SIZE_KNOWN = 1
    DATA_RECVD = 2
    DATA_READ = 3
    RESET_RECVD = 4
    RESET_READ = 5


class FrameKind(Kind):
    """Kinds of frames, in the order of section 19."""

    PADDING = 0
    PING = 1
    ACK = 2
    RESET_STREAM = 3
    STOP_SENDING = 4
    CRYPTO = 5
    NEW_TOKEN = 6
    STREAM = 7
    MAX_DATA = 8
    MAX_STREAM_DATA = 9
    MAX_STREAMS = 10
    DATA_BLOCKED = 11
    STREAM_DATA_BLOCKED = 12
    STREAMS_BLOCKED = 13
    NEW_CONNECTION_ID = 14
    RETIRE_CONNECTION_ID = 15
    PATH_CHALLENGE = 16
    PATH_RESPONSE = 17
    #: type 0x1c: the transport closes
    CONNECTION_CLOSE = 18
    #: type 0x1d: the application closes
    APPLICATION_CLOSE = 19
    HANDSHAKE_DONE = 20


class FaultKind(Kind):
    """Kinds of faults."""

    NO_FAULT = 0
    #: the payload has no frame (section 12.4)
    EMPTY = 1
    #: the type has a shorter spelling (section 12.4)
    LONG_TYPE = 2
    #: no frame has this type (section 12.4)
    UNKNOWN_TYPE = 3
    #: a field, or the bytes that it counts, end past the payload
    TRUNCATED = 4
    #: an offset plus a length is above 2^62-1 (sections 19.6 and 19.8)
    OFFSET_TOO_LARGE = 5
    #: a count of streams is above 2^60 (sections 19.11 and 19.14)
    COUNT_TOO_LARGE = 6
    #: an ACK names a number below zero (section 19.3.1)
    BELOW_ZERO = 7
    #: a connection ID has no byte or more than 20 (section 19.15)
    IDENTIFIER = 8


class Taken(Kind):
    """What came of a single frame. A later version may have more."""

    #: it took effect, and something changed
    TOOK = 0
    #: it changed nothing: it came before, or raises no limit. Count these against a peer that only makes work, except DATA_BLOCKED,
    #: STREAM_DATA_BLOCKED and STREAMS_BLOCKED: an honest peer sends them, and they change nothing, but that a STREAM_DATA_BLOCKED may open its
    #: stream
    UNCHANGED = 1
    #: it is neither of streams nor of flow control, so it is for the stack, and nothing changed
    NOT_OURS = 2


class EventKind(Kind):
    """What next_event() reports, in this order, and of a kind those of a lower stream first; EventKind.FINISHED and EventKind.RESET_ACKED
    are of one kind there. A later version may have more.
    """

    #: the peer opened the stream, be it accepted or not; the first of its events (section 2.1)
    OPENED = 0
    #: a read of the stream returns something new: bytes, the end or a reset (sections 2.2 and 3.2)
    READABLE = 1
    #: a write to the stream was cut short, and now one of a byte is accepted (sections 2.2 and 2.4)
    WRITABLE = 2
    #: the peer asked for no more of the stream, with this code first, while it could be reset: else there is nothing to stop (section 3.5)
    STOPPED = 3
    #: everything written was acknowledged, and the FIN (section 3.1)
    FINISHED = 4
    #: the reset of the stream was acknowledged (section 3.1)
    RESET_ACKED = 5
    #: each half that the stream has here is over (section 3)
    ENDED = 6
    #: a stream of the direction may be opened, where open() was refused for the limit (section 4.6)
    AVAILABLE = 7
    #: the peer said that the connection's limit blocks it (sections 4.1 and 19.12)
    DATA_BLOCKED = 8
    #: the peer said that the stream's limit blocks it (sections 4.1 and 19.13)
    STREAM_DATA_BLOCKED = 9
    #: the peer said that the count of the direction blocks it (sections 4.6 and 19.14)
    STREAMS_BLOCKED = 10


class Settings(NamedTuple):
    """The credit that an endpoint grants, and the size of its sending buffers: windows and sizes in bytes, counts in streams. Settings()
    sets what stands in parentheses. Later set_conn_window(), set_grant(), set_send_buffer() and set_stream_window() change them.

    >>> Endpoint(Role.SERVER, Settings(conn_window=1 << 22)).granted()
    4194304
    """

    #: how many bytes may be received beyond those consumed (section 4.1): 1 to 2^40 (2^20)
    conn_window: int = 1 << 20
    #: the same for a bidirectional stream that this endpoint opens: 1 to 2^30 (2^18)
    bidi_local: int = 1 << 18
    #: the same for a bidirectional stream that the peer opens (2^18)
    bidi_remote: int = 1 << 18
    #: the same for a unidirectional stream that the peer opens (2^18)
    uni: int = 1 << 18
    #: how many unacknowledged bytes a sending half keeps: 1 to 2^30 (2^18)
    send_buffer: int = 1 << 18
    #: how many bidirectional streams the peer may open at first: up to 2^17 (section 4.6) (100)
    grant_bidi: int = 100
    #: the same of unidirectional ones (100)
    grant_uni: int = 100
    #: the same in all, as its streams end, each of which keeps some bytes: grant_bidi to 2^21 (2^21)
    lifetime_bidi: int = 1 << 21
    #: the same of unidirectional ones (2^21)
    lifetime_uni: int = 1 << 21

    @classmethod
    def of(cls, raw: Any) -> Settings:
        """Of the struct of C."""
        return cls(
            raw.conn_window,
            raw.bidi_local,
            raw.bidi_remote,
            raw.uni,
            raw.send_buffer,
            raw.grant_bidi,
            raw.grant_uni,
            raw.lifetime_bidi,
            raw.lifetime_uni,
        )


class Tuning(NamedTuple):
    """What an application may choose about an endpoint. Tuning() sets what stands in parentheses. A window or a grant that
    set_conn_window(), set_stream_window() or set_grant() makes greater moves its limit without waiting for a step, since whoever asks has a
    reason.

    >>> Endpoint(Role.SERVER, tuning=Tuning(epoch=7)).token_of(0)
    Token(epoch=7, first=0, number=0)
    """

    #: how much of its window, as it is set at the time, has to be consumed until a limit on bytes moves (section 4.2): a smaller share
    #: keeps a long path fuller, at a frame for each step (Share.HALF)
    credit_step: Share = Share.HALF
    #: how many of the streams permitted at once, as it is set at the time, have to end until a count moves (section 4.6), one at least, to
    #: send fewer frames. Share.NONE: each one moves it (Share.NONE)
    count_step: Share = Share.NONE
    #: whether a write accepts no more bytes than may be sent at once under the stream's limit and the connection's, so that none waits
    #: (False)
    within_credit: bool = False
    #: whether received bytes can be read after a close (False)
    reads_when_closed: bool = False
    #: a number in each of its tokens. Give another one to an endpoint that replaces one, as after a rejected 0-RTT: it then takes none of
    #: the old tokens (0)
    epoch: int = 0
    #: how many bytes all streams together keep until they are acknowledged (section 13.3), beside send_buffer of each: a write accepts what
    #: that leaves beside kept_sum(). 0: no bound (0)
    send_window: int = 0
    #: whether the application answers a STOP_SENDING (EventKind.STOPPED), by a reset or finish(); else the stream is reset at once, with
    #: the peer's code (section 3.5) (False)
    answers_stops: bool = False

    @classmethod
    def of(cls, raw: Any) -> Tuning:
        """Of the struct of C."""
        return cls(
            Share(raw.credit_step),
            Share(raw.count_step),
            bool(raw.within_credit),
            bool(raw.reads_when_closed),
            raw.epoch,
            raw.send_window,
            bool(raw.answers_stops),
        )


class Limits(NamedTuple):
    """What the peer grants at first, by its transport parameters (section 18.2). local and remote are seen from the peer.

    >>> Endpoint(Role.CLIENT, limits=Limits(max_data=4096)).credit_left()
    4096
    """

    #: initial_max_data, below 2^62
    max_data: int = 0
    #: initial_max_stream_data_bidi_local, below 2^62
    bidi_local: int = 0
    #: initial_max_stream_data_bidi_remote, below 2^62
    bidi_remote: int = 0
    #: initial_max_stream_data_uni, below 2^62
    uni: int = 0
    #: initial_max_streams_bidi, at most 2^60
    streams_bidi: int = 0
    #: initial_max_streams_uni, at most 2^60
    streams_uni: int = 0

    @classmethod
    def of(cls, raw: Any) -> Limits:
        """Of the struct of C."""
        return cls(raw.max_data, raw.bidi_local, raw.bidi_remote, raw.uni, raw.streams_bidi, raw.streams_uni)


class Token(NamedTuple):
    """Names a packet that fill() filled, when it is acknowledged or lost. A packet that was filled in parts has several, which token_and()
    makes one. This struct doesn't grow.
    """

    #: of its endpoint (Tuning)
    epoch: int
    #: the lowest of its numbers
    first: int
    #: the highest of them
    number: int

    @classmethod
    def of(cls, raw: Any) -> Token:
        """Of the struct of C."""
        return cls(raw.epoch, raw.first, raw.number)


class Event(NamedTuple):
    """An event."""

    #: what happened
    kind: EventKind
    #: EventKind.AVAILABLE and EventKind.STREAMS_BLOCKED: the direction; else 0
    dir: Dir
    #: the stream; 0 for these two and EventKind.DATA_BLOCKED
    stream: int
    #: EventKind.STOPPED: the peer's code; else 0
    code: int

    @classmethod
    def of(cls, raw: Any) -> Event:
        """Of the struct of C."""
        return cls(EventKind(raw.kind), Dir(raw.dir), raw.stream, raw.code)


class Sending(NamedTuple):
    """A sending half."""

    #: its state
    state: SendState
    #: the final size is declared (section 4.5)
    has_final_size: bool
    #: by the application, or by the peer's STOP_SENDING (section 3.5)
    was_reset: bool
    #: how many bytes were accepted
    written: int
    #: how many the peer permits (section 4.1)
    limit: int
    #: where has_final_size, else 0
    final_size: int
    #: where was_reset, else 0
    reset_code: int

    @classmethod
    def of(cls, raw: Any) -> Sending:
        """Of the struct of C."""
        return cls(
            SendState(raw.state),
            bool(raw.has_final_size),
            bool(raw.was_reset),
            raw.written,
            raw.limit,
            raw.final_size,
            raw.reset_code,
        )


class Receiving(NamedTuple):
    """A receiving half."""

    #: its state
    state: RecvState
    #: the final size is known (section 4.5)
    has_final_size: bool
    #: the peer's reset took effect
    was_reset: bool
    #: how many bytes were read
    read_count: int
    #: the final size if known, else one more than the largest received offset, or 0
    highest: int
    #: how many the peer may send (section 4.1)
    limit: int
    #: where has_final_size, else 0
    final_size: int
    #: where was_reset, else 0
    reset_code: int
    #: 1 if it was stopped here, else 0 (section 3.5)
    was_stopped: bool
    #: where was_stopped, the first code, else 0
    stop_code: int

    @classmethod
    def of(cls, raw: Any) -> Receiving:
        """Of the struct of C."""
        return cls(
            RecvState(raw.state),
            bool(raw.has_final_size),
            bool(raw.was_reset),
            raw.read_count,
            raw.highest,
            raw.limit,
            raw.final_size,
            raw.reset_code,
            bool(raw.was_stopped),
            raw.stop_code,
        )


class ClosingInfo(NamedTuple):
    """Why this endpoint closed (section 19.19)."""

    #: the code (section 20.1)
    code: int
    #: the type of the frame that offended
    frame_type: int
    #: its place in the payload
    place: int

    @classmethod
    def of(cls, raw: Any) -> ClosingInfo:
        """Of the struct of C."""
        return cls(raw.code, raw.frame_type, raw.place)


class Fault(NamedTuple):
    """Why no frame can be read at a place in a payload."""

    #: why it is none
    kind: FaultKind
    #: the code that QUIC closes with (section 20.1)
    code: int
    #: the type, 0 where none was read
    type: int
    #: where it stands in the payload
    place: int

    @classmethod
    def of(cls, raw: Any) -> Fault:
        """Of the struct of C."""
        return cls(FaultKind(raw.kind), raw.code, raw.type, raw.place)


class Range(NamedTuple):
    """The packet numbers from one to another, both among them. This struct doesn't grow."""

    #: the first of them
    smallest: int
    #: the last of them
    largest: int

    @classmethod
    def of(cls, raw: Any) -> Range:
        """Of the struct of C."""
        return cls(raw.smallest, raw.largest)


class FrameFields(NamedTuple):
    """A frame. kind says which fields it has (section 19). After reading the others are 0; for writing and taking they don't matter, except
    dir, and in take_frame() stream. Offsets and sizes are in bytes.
    """

    #: which frame it is
    kind: FrameKind
    #: MAX_STREAMS, STREAMS_BLOCKED; of the others one of the two
    dir: Dir = Dir(0)
    #: STREAM: the stream ends with its bytes
    fin: bool = False
    #: ACK: it counts marks
    has_ecn: bool = False
    #: where the frame stands in the payload; not written
    place: int = 0
    #: as it was spelled; not written
    type: int = 0
    #: RESET_STREAM, STOP_SENDING, STREAM, MAX_STREAM_DATA, STREAM_DATA_BLOCKED
    stream: int = 0
    #: CRYPTO, STREAM: of the first byte (sections 19.6 and 19.8)
    offset: int = 0
    #: RESET_STREAM, STOP_SENDING, CONNECTION_CLOSE, APPLICATION_CLOSE (section 20)
    code: int = 0
    #: RESET_STREAM (section 19.4)
    final_size: int = 0
    #: MAX_DATA, MAX_STREAM_DATA, DATA_BLOCKED, STREAM_DATA_BLOCKED: bytes; MAX_STREAMS, STREAMS_BLOCKED: streams, at most 2^60 (sections
    #: 19.9 to 19.14)
    limit: int = 0
    #: ACK: the largest number that is acknowledged (section 19.3)
    largest: int = 0
    #: ACK: as it is spelled, in the unit that its sender named in the handshake (section 18.2)
    delay: int = 0
    #: ACK, where has_ecn: how many packets came with the mark ECT(0) (section 19.3.2)
    ect0: int = 0
    #: the same with ECT(1)
    ect1: int = 0
    #: the same with ECN-CE
    ce: int = 0
    #: NEW_CONNECTION_ID, RETIRE_CONNECTION_ID (sections 19.15 and 19.16)
    sequence: int = 0
    #: NEW_CONNECTION_ID: identifiers of lower numbers are to be retired
    retire: int = 0
    #: CONNECTION_CLOSE: the type of the frame that was at fault, 0 where none was (section 19.19)
    at_fault: int = 0
    #: CRYPTO, NEW_TOKEN, STREAM, CONNECTION_CLOSE, APPLICATION_CLOSE: the bytes that it carries. PATH_CHALLENGE, PATH_RESPONSE: 8 bytes.
    #: NEW_CONNECTION_ID: the identifier, 1 to 20 bytes. ACK: its ranges as they are spelled, from First ACK Range on, which Frame.ranges()
    #: reads. Of a frame that was read they are a part of the payload.
    data: bytes = b""
    #: NEW_CONNECTION_ID: the stateless reset token, 16 bytes; else empty (section 19.15)
    token: bytes = b""


class Error(Exception):
    """A call was refused, or the connection closed. Each kind has a class of its own."""

    status: Status

    def __init__(self, words: str, **told: Any) -> None:
        super().__init__(words)
        self.__dict__.update(told)


class InvalidError(Error, ValueError):
    """A null pointer, a number out of its range, or a struct's size; nothing changed."""

    status = Status.INVALID


class NoMemoryError(Error, MemoryError):
    """Memory was refused; the call may be made again."""

    status = Status.NO_MEMORY


class ConnectionClosedError(Error):
    """The connection is closed (section 10.2)."""

    status = Status.CONNECTION_CLOSED


class NoSuchStreamError(Error):
    """The stream isn't open."""

    status = Status.NO_SUCH_STREAM


class WrongDirectionError(Error):
    """The stream is unidirectional, and has no such half here (section 2.1)."""

    status = Status.WRONG_DIRECTION


class SendingFinishedError(Error):
    """The stream was finished here (section 3.1)."""

    status = Status.SENDING_FINISHED


class SendingResetError(Error):
    """The stream was reset here, or stopped by the peer (sections 3.1 and 3.5)."""

    status = Status.SENDING_RESET


class StreamLimitError(Error):
    """As many streams were opened as the peer permits (section 4.6)."""

    status = Status.STREAM_LIMIT
    #: how many streams the peer permits
    limit: int


class NumbersExhaustedError(Error):
    """The last packet number was used, and none may be used twice (section 12.3)."""

    status = Status.NUMBERS_EXHAUSTED


class NotOutstandingError(Error):
    """No such packet is outstanding."""

    status = Status.NOT_OUTSTANDING


class ClosedByPeerError(Error):
    """The peer closed the connection: peer_closed() has the code (section 10.2.2)."""

    status = Status.CLOSED_BY_PEER
    #: the peer's code; None if it was noted by note_closed()
    code: Optional[int]


class ProtocolError(Error):
    """The peer broke a rule, and this endpoint is closed: closing() says why (section 11.1)."""

    status = Status.PROTOCOL_ERROR
    #: why this endpoint closed; None if it was noted by note_closed()
    why: Optional[ClosingInfo]


class ResetByPeerError(Error):
    """The peer reset the stream (section 3.2)."""

    status = Status.RESET_BY_PEER
    #: the peer's code
    code: int


class OutOfRangeError(Error, ValueError):
    """A setting or a limit is out of its range."""

    status = Status.OUT_OF_RANGE


class TooManyStreamsError(Error, ValueError):
    """The peer permits more streams than there can be (section 4.6)."""

    status = Status.TOO_MANY_STREAMS


class BadFrameError(Error):
    """No frame stands there (section 12.4)."""

    status = Status.BAD_FRAME
    #: why no frame stands there
    fault: Fault


class NoRoomError(Error):
    """There is no room for it; nothing was written."""

    status = Status.NO_ROOM


class NotGivenError(Error):
    """No packet was made yet that has the token, or it is of another epoch."""

    status = Status.NOT_GIVEN


ERRORS = {
    Status.INVALID: InvalidError,
    Status.NO_MEMORY: NoMemoryError,
    Status.CONNECTION_CLOSED: ConnectionClosedError,
    Status.NO_SUCH_STREAM: NoSuchStreamError,
    Status.WRONG_DIRECTION: WrongDirectionError,
    Status.SENDING_FINISHED: SendingFinishedError,
    Status.SENDING_RESET: SendingResetError,
    Status.STREAM_LIMIT: StreamLimitError,
    Status.NUMBERS_EXHAUSTED: NumbersExhaustedError,
    Status.NOT_OUTSTANDING: NotOutstandingError,
    Status.CLOSED_BY_PEER: ClosedByPeerError,
    Status.PROTOCOL_ERROR: ProtocolError,
    Status.RESET_BY_PEER: ResetByPeerError,
    Status.OUT_OF_RANGE: OutOfRangeError,
    Status.TOO_MANY_STREAMS: TooManyStreamsError,
    Status.BAD_FRAME: BadFrameError,
    Status.NO_ROOM: NoRoomError,
    Status.NOT_GIVEN: NotGivenError,
}

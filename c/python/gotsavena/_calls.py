"""Calls of the header, with its words. Made by scripts/cffi."""

from __future__ import annotations

from typing import Any, Optional

from ._kinds import (
    CloseKind,
    Closer,
    ClosingInfo,
    Dir,
    Event,
    Limits,
    Receiving,
    Sending,
    Settings,
    Token,
)
from ._library import Bytes, check, ffi, found, given, lib, sized, struct

__all__ = [
    "limits_of",
    "last_stream",
]


class Calls:
    """The calls of an endpoint whose answers are numbers and structs."""

    _end: Any

    def raise_limits(self, peer: Limits) -> None:
        """Raises the peer's limits to those of the handshake, each that is greater: for a client that began with remembered ones, to send
        0-RTT (section 7.4.1). OutOfRangeError, TooManyStreamsError, ConnectionClosedError: nothing changed.

        >>> early = Endpoint(Role.CLIENT, limits=Limits(streams_bidi=1))
        >>> early.raise_limits(limits_of(Settings()))
        >>> early.open_left(Dir.BIDI)
        100
        """
        check(lib.gv_raise_limits(self._end, struct("gv_limits", peer)))

    def set_conn_window(self, window: int) -> None:
        """Sets the connection's window, in bytes: how much may be received beyond what was consumed, 1 to 2^40 (section 4.1). A greater one
        raises the limit at once, even by less than a step; under a smaller one the limit stays until enough is consumed, since no limit may
        fall. OutOfRangeError, ConnectionClosedError: nothing changed.

        >>> server.set_conn_window(1 << 22)
        >>> server.granted()
        4194304
        """
        check(lib.gv_set_conn_window(self._end, window))

    def set_grant(self, dir: Dir, streams: int) -> None:
        """Sets how many streams of a direction the peer may have open: up to 2^17 (section 4.6). A greater number permits more at once,
        beside those that ended, up to the lifetime's count; under a smaller one, even 0, the count stays until enough ended, since no count
        may fall. OutOfRangeError, ConnectionClosedError: nothing changed.

        >>> server.set_grant(Dir.BIDI, 200)
        >>> server.granted_streams(Dir.BIDI)
        200
        """
        check(lib.gv_set_grant(self._end, dir, streams))

    def declare_lost(self, number: int) -> None:
        """Declares the packet of a number lost: what it carried is pending again as far as it is still needed (section 13.3). A late ACK
        still counts, so a wrong guess costs little. NotOutstandingError, ConnectionClosedError: nothing changed. NoMemoryError: some of it
        is pending again; call once more.

        >>> client.write(client.open(), b"hello")
        5
        >>> lost = client.make_packet()
        >>> client.declare_lost(lost.number)
        >>> client.make_packet().payload == lost.payload
        True
        >>> client.declare_lost(7)
        Traceback (most recent call last):
        gotsavena.NotOutstandingError: no such packet is outstanding
        """
        check(lib.gv_declare_lost(self._end, number))

    def claim_number(self) -> int:
        """Uses up the next number for a packet that the transport writes itself, of which the endpoint records nothing. Numbers have one
        home, so that none is used twice; so a closed endpoint gives them too, for its CONNECTION_CLOSE. NumbersExhaustedError: the last one
        was used (section 12.3).

        >>> client.claim_number(), client.claim_number()
        (0, 1)
        """
        number = ffi.new("uint64_t *")
        check(lib.gv_claim_number(self._end, number))
        return number[0]

    def next_number(self) -> int:
        """The number of the next packet; 2^62 if the last one was used (section 12.3).

        >>> client.next_number(), client.claim_number(), client.next_number()
        (0, 0, 1)
        """
        number = ffi.new("uint64_t *")
        check(lib.gv_next_number(self._end, number))
        return number[0]

    def is_sendable(self) -> bool:
        """Whether a packet would carry more than an ACK (sections 4.1 and 13.3).

        >>> stream = client.open()
        >>> client.is_sendable(), client.write(stream, b"hello"), client.is_sendable()
        (False, 5, True)
        """
        answer = ffi.new("bool *")
        check(lib.gv_is_sendable(self._end, answer))
        return answer[0]

    def ack_is_due(self) -> bool:
        """Whether an ACK is pending (section 13.2). When to send it is for the transport, which has the clock.

        >>> client.write(client.open(), b"hello")
        5
        >>> carry(client, server)
        >>> server.ack_is_due()
        True
        """
        answer = ffi.new("bool *")
        check(lib.gv_ack_is_due(self._end, answer))
        return answer[0]

    def next_outstanding(self, start: int) -> Optional[int]:
        """The lowest number from one on of an outstanding packet: it was made, asks for an ACK, and is neither acknowledged nor declared
        lost. None: there is none (section 13.3).

        >>> client.write(client.open(), b"hello")
        5
        >>> made = client.make_packet()
        >>> client.next_outstanding(0), client.next_outstanding(1)
        (0, None)
        """
        number = ffi.new("uint64_t *")
        return number[0] if found(lib.gv_next_outstanding(self._end, start, number)) else None

    def token_of(self, number: int) -> Token:
        """The token of the packet that make_packet() made under this number, for a stack that reports all packets by token. InvalidError:
        nothing was written.

        >>> client.write(client.open(), b"hello")
        5
        >>> client.token_of(client.make_packet().number)
        Token(epoch=0, first=0, number=0)
        """
        token = ffi.new("gv_token *")
        check(lib.gv_token_of(self._end, number, token))
        return Token.of(token)

    def token_acked(self, token: Token) -> None:
        """The peer acknowledged the packets of a token, in time or late: what an ACK of these packets alone does. Call it only if the peer
        did, since the bytes are freed. No error either if they are done: then nothing changed. NotGivenError: not all of them were made
        yet, the token is of another epoch, or its first number is above its last; nothing changed, as with ConnectionClosedError.
        NoMemoryError: some of what they carried may be acknowledged; call once more (sections 13.2.1 and 13.3).

        >>> client.write(client.open(), b"hello")
        5
        >>> token = client.fill().token
        >>> client.kept_sum(), client.token_acked(token), client.kept_sum()
        (5, None, 0)
        >>> client.token_acked(token._replace(epoch=7))
        Traceback (most recent call last):
        gotsavena.NotGivenError: no packet was made yet that has the token, or it is of another epoch
        """
        check(lib.gv_token_acked(self._end, struct("gv_token", token)))

    def token_lost(self, token: Token) -> None:
        """Declares the packets of a token lost, each as declare_lost() does. No error either if they are done, so that a stack needn't
        remember which are: then nothing changed. NotGivenError, ConnectionClosedError: nothing changed. NoMemoryError: some of it is
        pending again; call once more (section 13.3).

        >>> client.write(client.open(), b"hello")
        5
        >>> lost = client.fill()
        >>> client.token_lost(lost.token)
        >>> client.fill().payload == lost.payload
        True
        """
        check(lib.gv_token_lost(self._end, struct("gv_token", token)))

    def accept(self) -> Optional[int]:
        """Returns each stream that the peer opened, once (section 2.1). A stream may be used before it is accepted. None: there is none.

        >>> client.write(client.open(), b"hello")
        5
        >>> carry(client, server)
        >>> server.accept(), server.accept()
        (0, None)
        """
        stream = ffi.new("uint64_t *")
        return stream[0] if found(lib.gv_accept(self._end, stream)) else None

    def accept_of(self, dir: Dir) -> Optional[int]:
        """As accept(), of one direction, for an application that handles the two apart: what this returned accept() doesn't, and the other
        way round (section 2.1). None: there is none.

        >>> [client.write(client.open(dir), b"hello") for dir in Dir]
        [5, 5]
        >>> carry(client, server)
        >>> server.accept_of(Dir.UNI), server.accept_of(Dir.UNI), server.accept_of(Dir.BIDI)
        (2, None, 0)
        """
        stream = ffi.new("uint64_t *")
        return stream[0] if found(lib.gv_accept_of(self._end, dir, stream)) else None

    def write(self, stream: int, data: Bytes) -> int:
        """Accepts the front of the bytes for sending, and returns how many (section 2.2). Bytes beyond the peer's limits are accepted too,
        and wait. If fewer are accepted than offered, next_event() reports when more may be written. ConnectionClosedError,
        NoSuchStreamError, WrongDirectionError, SendingResetError, SendingFinishedError, NoMemoryError: no byte was accepted. The last may
        also come if there still is none to note that an earlier write was cut short.

        >>> client.write(client.open(), b"hello")
        5
        >>> client.write(4, b"hello")
        Traceback (most recent call last):
        gotsavena.NoSuchStreamError: the stream isn't open
        """
        count = ffi.new("size_t *")
        check(lib.gv_write(self._end, stream, *given(data), count))
        return count[0]

    def set_send_buffer(self, stream: int, size: int) -> None:
        """Sets how many unacknowledged bytes the stream's sending half keeps at most: 1 to 2^30 (sections 2.2 and 13.3). Nothing that was
        accepted is given up, since it is promised to the reader: if more is kept, write() accepts none until enough is acknowledged. A
        stream that opens later begins with the setting of the endpoint (Settings). ConnectionClosedError, OutOfRangeError,
        NoSuchStreamError, WrongDirectionError: nothing changed.

        >>> stream = client.open()
        >>> client.set_send_buffer(stream, 4)
        >>> client.write(stream, b"hello")
        4
        """
        check(lib.gv_set_send_buffer(self._end, stream, size))

    def set_stream_window(self, stream: int, window: int) -> None:
        """Sets the window of the stream's receiving half: 1 to 2^30 bytes (section 4.1). A greater one raises the stream's limit at once,
        even by less than a step. Under a smaller one the limit stays until enough is consumed, since no limit may fall; and none moves once
        the stream's length is known. A stream that opens later begins with the window of the endpoint (Settings), which is what the peer
        counts with. ConnectionClosedError, OutOfRangeError, NoSuchStreamError, WrongDirectionError: nothing changed.

        >>> stream = client.open()
        >>> client.set_stream_window(stream, 1 << 20)
        >>> client.receiving_report(stream).limit
        1048576
        """
        check(lib.gv_set_stream_window(self._end, stream, window))

    def finish(self, stream: int) -> None:
        """Ends the stream after the bytes written so far (section 3.1). Refused as write(), but never for memory.

        >>> stream = client.open()
        >>> client.finish(stream)
        >>> client.write(stream, b"hello")
        Traceback (most recent call last):
        gotsavena.SendingFinishedError: the stream was finished here
        """
        check(lib.gv_finish(self._end, stream))

    def reset(self, stream: int, code: int) -> None:
        """Resets the sending half with the application's code, below 2^62; unsent bytes are given up (sections 3.1 and 20.2). Refused as
        write() is; SendingFinishedError only once everything was acknowledged, since until then a reset still means something.

        >>> stream = client.open()
        >>> client.reset(stream, 7)
        >>> carry(client, server)
        >>> try:
        ...     server.read(stream)
        ... except ResetByPeerError as fault:
        ...     print(fault, fault.code)
        the peer reset the stream 7
        """
        check(lib.gv_reset(self._end, stream, code))

    def stop(self, stream: int, code: int) -> None:
        """Discards the stream's bytes, those stored and those to come, and asks the peer to send no more, with the application's code,
        below 2^62 (section 3.5). Read on until the end or the reset, so that the stream is over. ConnectionClosedError, NoSuchStreamError,
        WrongDirectionError: nothing changed.

        >>> stream = client.open()
        >>> client.write(stream, b"hello")
        5
        >>> carry(client, server)
        >>> server.stop(stream, 7)
        >>> carry(server, client)
        >>> client.write(stream, b"more")
        Traceback (most recent call last):
        gotsavena.SendingResetError: the stream was reset here, or stopped by the peer
        """
        check(lib.gv_stop(self._end, stream, code))

    def stop_and_discard(self, stream: int, code: int) -> None:
        """As stop(), for an application that never wants to hear of the stream again: it counts as read to its end as soon as its last byte
        or a reset arrives. So the peer gets another stream without another read here (sections 3.2, 3.5 and 4.6). The first code stays.
        Refused as stop() is.

        >>> stream = client.open(Dir.UNI)
        >>> client.write(stream, b"hello")
        5
        >>> carry(client, server)
        >>> server.stop_and_discard(stream, 7)
        >>> carry(server, client)
        >>> carry(client, server)
        >>> server.next_ended(0)
        2
        """
        check(lib.gv_stop_and_discard(self._end, stream, code))

    def next_readable(self, start: int) -> Optional[int]:
        """At which stream a read returns something new: bytes, the end or a reset (sections 2.2 and 3.2).

        This question and the next three return the lowest one at or above start, which is below 2^62; None: there is none. To go through
        all, call again from stream + 1. At a closed endpoint the first three find none, except that the first does if reads_when_closed was
        chosen (section 10.2).

        >>> [client.write(client.open(), b"hello") for _ in range(2)]
        [5, 5]
        >>> carry(client, server)
        >>> server.next_readable(0), server.next_readable(1), server.next_readable(5)
        (0, 4, None)
        """
        stream = ffi.new("uint64_t *")
        return stream[0] if found(lib.gv_next_readable(self._end, start, stream)) else None

    def next_writable(self, start: int) -> Optional[int]:
        """Which stream wasn't finished, reset or stopped by the peer, and has room in its own buffer: a write of one byte is accepted, if
        there is memory for it (sections 2.2 and 2.4). What holds all streams alike isn't looked at, since that would cost a look at each:
        with within_credit or send_window ask room() whether it takes a byte. None: there is none.

        >>> client.open(Dir.UNI)
        2
        >>> client.next_writable(0), client.next_writable(3)
        (2, None)
        """
        stream = ffi.new("uint64_t *")
        return stream[0] if found(lib.gv_next_writable(self._end, start, stream)) else None

    def next_sendable(self, start: int) -> Optional[int]:
        """Which stream has data or a FIN pending that its own limit permits, whatever the connection's limit says (sections 4.1 and 13.3).
        None: there is none.

        >>> client.write(client.open(Dir.UNI), b"hello")
        5
        >>> client.next_sendable(0), client.next_sendable(3)
        (2, None)
        """
        stream = ffi.new("uint64_t *")
        return stream[0] if found(lib.gv_next_sendable(self._end, start, stream)) else None

    def next_ended(self, start: int) -> Optional[int]:
        """Which stream is over: its end or reset was read, and all that was sent is acknowledged, or the reset (section 3). None: there is
        none.

        >>> stream = client.open(Dir.UNI)
        >>> client.finish(stream)
        >>> client.next_ended(0) is None
        True
        >>> carry(client, server)
        >>> carry(server, client)
        >>> client.next_ended(0)
        2
        """
        stream = ffi.new("uint64_t *")
        return stream[0] if found(lib.gv_next_ended(self._end, start, stream)) else None

    def sending_report(self, stream: int) -> Sending:
        """The state of a stream's sending half. NoSuchStreamError: the stream isn't open. WrongDirectionError: it has no such half here
        (section 3.1).

        >>> stream = client.open(Dir.UNI)
        >>> client.write(stream, b"hello")
        5
        >>> report = client.sending_report(stream)
        >>> report.state.name, report.written, report.limit
        ('READY', 5, 262144)
        >>> server.sending_report(stream)
        Traceback (most recent call last):
        gotsavena.NoSuchStreamError: the stream isn't open
        """
        sending = sized("gv_sending")
        check(lib.gv_sending_report(self._end, stream, sending))
        return Sending.of(sending)

    def receiving_report(self, stream: int) -> Receiving:
        """The state of a stream's receiving half. Refused as sending_report() is (section 3.2).

        >>> stream = client.open()
        >>> report = client.receiving_report(stream)
        >>> report.state.name, report.highest, report.was_stopped
        ('RECV', 0, False)
        >>> client.receiving_report(client.open(Dir.UNI))
        Traceback (most recent call last):
        gotsavena.WrongDirectionError: the stream is unidirectional, and has no such half here
        """
        receiving = sized("gv_receiving")
        check(lib.gv_receiving_report(self._end, stream, receiving))
        return Receiving.of(receiving)

    def stopped_with(self, stream: int) -> Optional[int]:
        """The code of the stream's first STOP_SENDING that came while its sending half could be reset. It stays, so that an application
        that comes late still learns why. None: none came (section 3.5).

        >>> stream = client.open()
        >>> client.write(stream, b"hello")
        5
        >>> carry(client, server)
        >>> server.stop(stream, 7)
        >>> carry(server, client)
        >>> client.stopped_with(stream), server.stopped_with(stream)
        (7, None)
        """
        code = ffi.new("uint64_t *")
        return code[0] if found(lib.gv_stopped_with(self._end, stream, code)) else None

    def is_blocked(self, stream: int) -> bool:
        """Whether unsent bytes of the stream wait for credit alone; at a closed endpoint nothing waits (section 4.1).

        >>> narrow = Endpoint(Role.CLIENT, limits=Limits(max_data=3, uni=3, streams_uni=1))
        >>> stream = narrow.open(Dir.UNI)
        >>> narrow.write(stream, b"hello")
        5
        >>> made = narrow.make_packet()
        >>> narrow.is_blocked(stream)
        True
        """
        answer = ffi.new("bool *")
        check(lib.gv_is_blocked(self._end, stream, answer))
        return answer[0]

    def room(self, stream: int) -> int:
        """How many bytes write() accepts of a stream now, however many are offered: 0 if it would be refused (sections 2.2 and 2.4). The
        peer's limits don't count, since bytes beyond them wait, unless within_credit was chosen (Tuning); nor does what other streams keep,
        unless all are bounded together (send_window).

        >>> stream = client.open()
        >>> client.room(stream), client.write(stream, b"hello"), client.room(stream)
        (262144, 5, 262139)
        """
        count = ffi.new("uint64_t *")
        check(lib.gv_room(self._end, stream, count))
        return count[0]

    def unsent(self, stream: int) -> int:
        """How many bytes of a stream weren't sent yet: 0 after a reset, since none will be, and if the stream has no sending half here
        (section 2.2).

        >>> stream = client.open()
        >>> client.write(stream, b"hello")
        5
        >>> client.unsent(stream), client.make_packet().number, client.unsent(stream)
        (5, 0, 0)
        """
        count = ffi.new("uint64_t *")
        check(lib.gv_unsent(self._end, stream, count))
        return count[0]

    def acked_below(self, stream: int) -> Optional[int]:
        """The lowest offset of a stream that isn't acknowledged, in bytes from its start: all below it are (section 13.3). Late ACKs move
        it even after a reset. None: the stream has no sending half here.

        >>> stream = client.open(Dir.UNI)
        >>> client.write(stream, b"hello")
        5
        >>> carry(client, server)
        >>> carry(server, client)
        >>> client.acked_below(stream), server.acked_below(stream)
        (5, None)
        """
        offset = ffi.new("uint64_t *")
        return offset[0] if found(lib.gv_acked_below(self._end, stream, offset)) else None

    def next_event(self) -> Optional[Event]:
        """Returns the next event, each once. None: there is none; later calls may bring one. NoMemoryError: there is none for the note that
        it was reported, or for an earlier note; nothing changed, and it comes again. There is no queue, which a peer could fill: an event
        is a condition that holds now. One that no longer holds, as EventKind.READABLE of a stream that was read since, isn't reported. The
        endpoint keeps notes, in memory of its own, from the first call that finds something, or the first write that is cut short.

        EventKind.READABLE comes again once a stream was read until nothing was left and more arrived; until then not, not even for its end
        or a reset. EventKind.WRITABLE comes for each stream to which write() accepted fewer bytes than were offered, EventKind.AVAILABLE
        for each direction of which open() raised StreamLimitError, each once until that happens again.

        The last three kinds come each time that the peer said so of a limit that hadn't risen by the end of the packet, once for all that
        it said since the last one, even if the limit rose later. They come from take_frame() and take_frames() once this was called. From
        receive() they come only if report_blocked() chose so, since that reads payloads twice; it turns the other two on as well. Frames
        that are passed in twice report twice. A stream has none if its length was known by the end of the packet, since no limit moves
        then; one that was stopped does. A greater window helps: set_conn_window(), set_stream_window() or set_grant().

        The others come at most once for a stream (sections 2 to 4). A closed endpoint reports no EventKind.WRITABLE, no EventKind.AVAILABLE
        and none of the last three kinds, since none could be acted on, and EventKind.READABLE only if reads_when_closed was chosen.

        >>> client.write(client.open(), b"hello")
        5
        >>> carry(client, server)
        >>> server.next_event()
        Event(kind=<EventKind.OPENED: 0>, dir=<Dir.BIDI: 0>, stream=0, code=0)
        >>> server.next_event().kind.name
        'READABLE'
        >>> server.next_event() is None
        True
        """
        event = sized("gv_event")
        return Event.of(event) if found(lib.gv_next_event(self._end, event)) else None

    def report_blocked(self, is_chosen: bool) -> None:
        """Chooses whether receive() and receive_with_acks() look through each payload for blocked frames of the peer (sections 19.12 to
        19.14). Not by default: it costs a second reading of each payload, and a third if there is such a frame. If it is chosen,
        take_frame() and take_frames() note such frames before an event was asked for, too. Memory for the notes is taken before the payload
        takes effect, 8 bytes for each such frame, and more than 4,096 bytes go back as the call ends. If it is refused, NoMemoryError,
        nothing changed, and the same payload may come again.

        >>> server.report_blocked(True)
        >>> server.receive(0, Frame(FrameKind.STREAMS_BLOCKED, dir=Dir.UNI, limit=100).put())
        True
        >>> event = server.next_event()
        >>> event.kind.name, event.dir.name
        ('STREAMS_BLOCKED', 'UNI')
        """
        check(lib.gv_report_blocked(self._end, is_chosen))

    def unsent_sum(self) -> int:
        """How many bytes of all streams weren't sent yet (section 2.2).

        >>> [client.write(client.open(), b"hello") for _ in range(2)]
        [5, 5]
        >>> client.unsent_sum()
        10
        """
        count = ffi.new("uint64_t *")
        check(lib.gv_unsent_sum(self._end, count))
        return count[0]

    def kept_sum(self) -> int:
        """How many bytes of all streams are kept until they are acknowledged: of each all from its lowest unacknowledged offset on, since
        the buffer frees only at its front, and none after a reset (section 13.3). Constant time.

        >>> client.write(client.open(), b"hello")
        5
        >>> carry(client, server)
        >>> client.kept_sum(), carry(server, client), client.kept_sum()
        (5, None, 0)
        """
        count = ffi.new("uint64_t *")
        check(lib.gv_kept_sum(self._end, count))
        return count[0]

    def taken_on(self, stream: int) -> Optional[int]:
        """How many bytes of a stream count as consumed, which its limit follows: those that were read; after a stop all up to the highest
        offset, gaps too; after a reset its final size (section 4.2). None: the stream has no receiving half here.

        >>> stream = client.open(Dir.UNI)
        >>> client.write(stream, b"hello")
        5
        >>> carry(client, server)
        >>> server.read(stream, 4), server.taken_on(stream), client.taken_on(stream)
        (b'hell', 4, None)
        """
        count = ffi.new("uint64_t *")
        return count[0] if found(lib.gv_taken_on(self._end, stream, count)) else None

    def taken_sum(self) -> int:
        """How many bytes of all streams count as consumed, which the connection's limit follows (section 4.2).

        >>> stream = client.open()
        >>> client.write(stream, b"hello")
        5
        >>> carry(client, server)
        >>> server.read(stream), server.taken_sum()
        (b'hello', 5)
        """
        count = ffi.new("uint64_t *")
        check(lib.gv_taken_sum(self._end, count))
        return count[0]

    def credit_left(self) -> int:
        """How many new bytes the peer's limit on the connection permits (section 4.1). Lost bytes need none, since they were counted when
        first sent.

        >>> client.write(client.open(), b"hello")
        5
        >>> client.credit_left(), client.make_packet().number, client.credit_left()
        (1048576, 0, 1048571)
        """
        count = ffi.new("uint64_t *")
        check(lib.gv_credit_left(self._end, count))
        return count[0]

    def streams_left(self, dir: Dir) -> int:
        """How many streams of a direction the peer may still open in the life of this connection (section 4.6). At 0 a new connection is
        needed.

        >>> server.streams_left(Dir.UNI)
        2097152
        """
        count = ffi.new("uint64_t *")
        check(lib.gv_streams_left(self._end, dir, count))
        return count[0]

    def open_left(self, dir: Dir) -> int:
        """How many streams of a direction open() may open by the peer's latest count (section 4.6).

        >>> client.open(Dir.UNI), client.open_left(Dir.UNI)
        (2, 99)
        >>> only = Endpoint(Role.CLIENT, limits=Limits(streams_bidi=1))
        >>> try:
        ...     only.open(), only.open()
        ... except StreamLimitError as fault:
        ...     print(fault, fault.limit)
        as many streams were opened as the peer permits 1
        """
        count = ffi.new("uint64_t *")
        check(lib.gv_open_left(self._end, dir, count))
        return count[0]

    def granted_streams(self, dir: Dir) -> int:
        """How many streams of a direction the peer may open so far: the first count, and one more for each of its streams that ended, in
        whole steps if count_step was chosen, up to the lifetime's count (section 4.6). It never falls, not even after set_grant() with
        less.

        >>> server.granted_streams(Dir.BIDI)
        100
        """
        count = ffi.new("uint64_t *")
        check(lib.gv_granted_streams(self._end, dir, count))
        return count[0]

    def stored(self) -> int:
        """How many bytes wait to be read: never more than was granted beyond what was consumed (section 4.1).

        >>> client.write(client.open(), b"hello")
        5
        >>> carry(client, server)
        >>> server.stored()
        5
        """
        count = ffi.new("uint64_t *")
        check(lib.gv_stored(self._end, count))
        return count[0]

    def noted(self) -> int:
        """Into how many runs the received offsets fall, on all streams whose end wasn't read and that weren't reset: one for each with
        some, and one more for each gap. A run takes at most 33 bytes, also on a stream that was stopped, where no window bounds them. So
        watch it, and close a connection whose number gets too great (section 2.2). Constant time.

        >>> frames_of_bytes = [Frame(FrameKind.STREAM, stream=0, offset=at, data=b"x") for at in (0, 2)]
        >>> server.take_frames(frames_of_bytes).name, server.noted()
        ('TOOK', 2)
        """
        count = ffi.new("uint64_t *")
        check(lib.gv_noted(self._end, count))
        return count[0]

    def held(self) -> tuple[int, int]:
        """How many bytes of memory the buffers take in which bytes wait to be read, and those in which bytes wait to be acknowledged. It
        walks over all streams that were opened, so ask from time to time. A peer can't make the receive buffers take more than four times
        the widest window that the connection had, and 4,096 bytes for each receiving half that wasn't read to its end, reset or stopped. A
        sending buffer takes at most twice the most that it was set to, or 4,096 bytes if nothing is kept.

        >>> client.held()
        (0, 0)
        >>> client.write(client.open(), b"hello")
        5
        >>> receiving, sending = client.held()
        >>> receiving, 5 <= sending <= 4096
        (0, True)
        """
        receiving = ffi.new("uint64_t *")
        sending = ffi.new("uint64_t *")
        check(lib.gv_held(self._end, receiving, sending))
        return receiving[0], sending[0]

    def granted(self) -> int:
        """The limit that the peer was granted on the sum of all streams' highest offsets (section 4.1).

        >>> server.granted()
        1048576
        """
        count = ffi.new("uint64_t *")
        check(lib.gv_granted(self._end, count))
        return count[0]

    def spent(self) -> int:
        """How much of its credit on the connection the peer used: the sum of all streams' highest offsets (section 4.1). Gaps count, so
        that a peer gains nothing by leaving some.

        >>> server.take_frame(Frame(FrameKind.STREAM, stream=0, offset=10, data=b"x")).name
        'TOOK'
        >>> server.spent()
        11
        """
        count = ffi.new("uint64_t *")
        check(lib.gv_spent(self._end, count))
        return count[0]

    def closing(self) -> Optional[ClosingInfo]:
        """Why this endpoint closed. None: it is open, or the peer closed (section 10.2).

        >>> server.closing() is None
        True
        >>> try:
        ...     server.receive(0, Frame(FrameKind.STREAM, stream=1, data=b"x").put())
        ... except ProtocolError as fault:
        ...     print(fault, fault.why.code)
        the peer broke a rule, and this endpoint is closed 5
        >>> server.closing()
        ClosingInfo(code=5, frame_type=10, place=0)
        """
        closing = sized("gv_closing_info")
        return ClosingInfo.of(closing) if found(lib.gv_closing(self._end, closing)) else None

    def peer_closed(self) -> Optional[int]:
        """The code with which the peer closed by a frame that was received here. None: it didn't (section 10.2).

        >>> try:
        ...     server.receive(0, Frame(FrameKind.APPLICATION_CLOSE, code=7).put())
        ... except ClosedByPeerError as fault:
        ...     print(fault, fault.code)
        the peer closed the connection 7
        >>> server.peer_closed(), client.peer_closed()
        (7, None)
        """
        code = ffi.new("uint64_t *")
        return code[0] if found(lib.gv_peer_closed(self._end, code)) else None

    def note_closed(self, by: Closer, kind: CloseKind, code: int) -> None:
        """Notes a close that this endpoint didn't see: the stack's own, the application's, or the peer's if the stack reads
        CONNECTION_CLOSE itself (sections 10.2 and 19.19). Without it streams would go on as if the connection were open. The endpoint is
        then closed as after any close, but closing(), close_payload() and peer_closed() know nothing of it. receive() and take_frame()
        raise ClosedByPeerError, or ProtocolError if this side closed. One that closed before stays as it is.

        >>> client.note_closed(Closer.US, CloseKind.APPLICATION, 7)
        >>> client.open()
        Traceback (most recent call last):
        gotsavena.ConnectionClosedError: the connection is closed
        """
        check(lib.gv_note_closed(self._end, by, kind, code))

    def noted_close(self) -> Optional[tuple[Closer, CloseKind, int]]:
        """The close that note_closed() noted: whose it was, its kind and its code. None: it is open, or closed in another way.

        >>> client.noted_close() is None
        True
        >>> client.note_closed(Closer.PEER, CloseKind.TRANSPORT, 7)
        >>> client.noted_close()
        (<Closer.PEER: 1>, <CloseKind.TRANSPORT: 0>, 7)
        """
        by = ffi.new("gv_closer *")
        kind = ffi.new("gv_close_kind *")
        code = ffi.new("uint64_t *")
        if not found(lib.gv_noted_close(self._end, by, kind, code)):
            return None
        return Closer(by[0]), CloseKind(kind[0]), code[0]


def limits_of(settings: Settings) -> Limits:
    """What an endpoint with these settings grants its peer at first: its transport parameters for the handshake (section 18.2).

    >>> limits_of(Settings(conn_window=4096, grant_uni=3))
    Limits(max_data=4096, bidi_local=262144, bidi_remote=262144, uni=262144, streams_bidi=100, streams_uni=3)
    """
    limits = sized("gv_limits")
    check(lib.gv_limits_of(struct("gv_settings", settings), limits))
    return Limits.of(limits)


def last_stream(payload: Bytes) -> Optional[int]:
    """The stream of the last STREAM frame in a payload, up to its end or its first fault. For round-robin, the next packet is
    make_packet_from() that one + 1 (section 2.3). None: there is none. The payload may have any length: this call takes time in proportion
    to it, and no memory.

    >>> client.write(client.open(Dir.UNI), b"hello")
    5
    >>> last_stream(client.make_packet().payload), last_stream(b"")
    (2, None)
    """
    stream = ffi.new("uint64_t *")
    return stream[0] if found(lib.gv_last_stream(*given(payload), stream)) else None

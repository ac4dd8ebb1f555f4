"""An endpoint of a connection."""

from __future__ import annotations

from types import TracebackType
from typing import Any, Callable, Iterable, Iterator, List, NamedTuple, Optional, Type

from ._calls import Calls, limits_of
from ._kinds import Dir, Event, Limits, Role, Settings, Status, Taken, Token, Tuning
from ._frames import Frame, struct_of
from ._library import Bytes, check, copied, ffi, found, given, lib, refusal, sized, struct


class Packet(NamedTuple):
    """A packet that was made."""

    #: its packet number (section 12.3)
    number: int
    #: its payload, all of its frames
    payload: bytes
    #: whether it asks for an ACK; one that doesn't isn't in flight (section 13.2.1)
    is_ack_eliciting: bool


class Filled(NamedTuple):
    """Frames that fill() wrote."""

    #: the frames
    payload: bytes
    #: names them when the packet is acknowledged or lost
    token: Token
    #: the stream of the last STREAM frame; None if there is none
    last_stream: Optional[int]
    #: whether more of what was asked for is pending and may go
    more: bool


class Consumed(NamedTuple):
    """Bytes that consume() took."""

    #: how many bytes
    length: int
    #: whether the stream ends there; then the end counts as read
    at_end: bool


class Endpoint(Calls):
    """An endpoint: the client's or the server's. limits are those of its peer, as the handshake brings them: without
    them the peer has the same settings. allocator is a gv_allocator of cffi, from which all memory of the endpoint
    comes; keep its functions as long. OutOfRangeError, TooManyStreamsError, NoMemoryError: none was made.

    It is freed at the end of a `with`, by free(), or once nothing refers to it. It is in one call at a time, in
    whichever thread.

    >>> with Endpoint(Role.CLIENT, Settings(conn_window=1 << 22), tuning=Tuning(reads_when_closed=True)) as end:
    ...     end.granted()
    4194304
    >>> Endpoint(Role.CLIENT, Settings(conn_window=0))
    Traceback (most recent call last):
    gotsavena.OutOfRangeError: a setting or a limit is out of its range

    This one has memory of its own:

    >>> blocks = {}
    >>> @ffi.callback("void *(void *, size_t, size_t)")
    ... def allocate(context, size, align):
    ...     block = ffi.new("char[]", size + align)
    ...     at = ffi.cast("void *", -(-int(ffi.cast("uintptr_t", block)) // align) * align)
    ...     blocks[at] = block
    ...     return at
    >>> @ffi.callback("void (void *, void *, size_t, size_t)")
    ... def release(context, at, size, align):
    ...     del blocks[at]
    >>> fields = {"size": ffi.sizeof("gv_allocator"), "allocate": allocate, "release": release}
    >>> memory = ffi.new("gv_allocator *", fields)
    >>> with Endpoint(Role.SERVER, allocator=memory) as end:
    ...     len(blocks) > 0
    True
    >>> len(blocks)
    0
    """

    def __init__(
        self,
        role: Role,
        settings: Settings = Settings(),
        limits: Optional[Limits] = None,
        *,
        tuning: Optional[Tuning] = None,
        allocator: Any = None,
    ) -> None:
        own, out = struct("gv_settings", settings), ffi.new("gv_endpoint **")
        peer = struct("gv_limits", limits_of(settings) if limits is None else limits)
        if tuning is not None:
            memory = ffi.NULL if allocator is None else allocator
            check(lib.gv_endpoint_new_tuned(role, own, struct("gv_tuning", tuning), peer, memory, out))
        elif allocator is not None:
            check(lib.gv_endpoint_new_with(role, own, peer, allocator, out))
        else:
            check(lib.gv_endpoint_new(role, own, peer, out))
        self._allocator = allocator
        self._end = ffi.gc(out[0], lib.gv_endpoint_free)

    def __enter__(self) -> Endpoint:
        return self

    def __exit__(
        self, kind: Optional[Type[BaseException]], fault: Optional[BaseException], trace: Optional[TracebackType]
    ) -> None:
        self.free()

    def free(self) -> None:
        """Frees the endpoint, whose calls raise InvalidError from then on.

        >>> client.free()
        >>> client.open(Dir.UNI)
        Traceback (most recent call last):
        gotsavena.InvalidError: a null pointer, a number out of its range, or a struct's size
        """
        if self._end != ffi.NULL:
            ffi.release(self._end)
            self._end = ffi.NULL

    # Packets

    def receive(self, number: int, payload: Bytes) -> bool:
        """Processes the payload of a packet, all of its frames, under the packet's number (sections 12.4 and 13.1).
        Only pass what packet protection accepted: a number counts once, so a forged packet would block the true one.
        True: all frames took effect. False: the number was processed before, or may have been, since its history isn't
        kept: nothing changed.

        ClosedByPeerError has the peer's code. ProtocolError: the payload breaks a rule, this endpoint is closed, and
        close_payload() has the payload for the peer. NoMemoryError: the same payload may come again. InvalidError: a
        number of 2^62 or more, or more than MAX_PAYLOAD bytes.

        >>> made = client.make_packet() if client.write(client.open(Dir.UNI), b"hello") else None
        >>> server.receive(made.number, made.payload), server.receive(made.number, made.payload)
        (True, False)
        """
        return self._was_received(lib.gv_receive(self._end, number, *given(payload)))

    def receive_with_acks(self, number: int, payload: Bytes, told: Callable[[int], object]) -> bool:
        """As receive(), and told is called for the number of each packet that the payload newly acknowledged, once, in
        the order of the ACKs, of each ACK the highest first, as congestion control wants them (section 13.3; RFC 9002,
        section 7). It is called before an error is raised, too, since the packets that it names are acknowledged even
        so.

        >>> client.write(client.open(Dir.UNI), b"hello")
        5
        >>> carry(client, server)
        >>> ack = server.make_packet()
        >>> client.receive_with_acks(ack.number, ack.payload, print)
        0
        True
        """
        numbers: List[int] = []
        note = ffi.callback("void (void *, uint64_t)", lambda _context, acked: numbers.append(acked))
        status = lib.gv_receive_with_acks(self._end, number, *given(payload), note, ffi.NULL)
        for acked in numbers:
            told(acked)
        return self._was_received(status)

    def _was_received(self, status: int) -> bool:
        if status in (Status.DUPLICATE, Status.TOO_OLD):
            return False
        self._check_taken(status)
        return True

    def _check_taken(self, status: int) -> None:
        if status == Status.CLOSED_BY_PEER:
            raise refusal(status, code=self.peer_closed())
        if status == Status.PROTOCOL_ERROR:
            raise refusal(status, why=self.closing())
        check(status)

    def make_packet(self, room: int = 1200) -> Optional[Packet]:
        """The next packet, with a payload of at most so many bytes: 128 to 16383 (sections 4, 13.2 and 13.3). Send it,
        or declare it lost: otherwise what it carries counts as in flight for good. None: nothing may go.
        ConnectionClosedError, NumbersExhaustedError, NoMemoryError: nothing changed.

        >>> client.make_packet() is None
        True
        >>> client.write(client.open(Dir.UNI), b"hello")
        5
        >>> client.make_packet()
        Packet(number=0, payload=b'\\n\\x02\\x05hello', is_ack_eliciting=True)
        """
        out, made = ffi.new("uint8_t[]", room), sized("gv_made")
        return _packet(lib.gv_make_packet(self._end, out, room, made), out, made)

    def make_packet_from(self, first: int, delay: int = 0, room: int = 1200) -> Optional[Packet]:
        """As make_packet(), but data goes in from the stream first on, and an ACK carries this delay, in the unit that
        the peer was given (sections 2.3, 18.2 and 19.3). Round-robin and priorities are made by choosing first.

        >>> low, high = client.open(Dir.UNI), client.open(Dir.UNI)
        >>> [client.write(stream, b"hello") for stream in (low, high)]
        [5, 5]
        >>> [frame.stream for frame in frames(client.make_packet_from(high).payload)]
        [6, 2]
        """
        out, made = ffi.new("uint8_t[]", room), sized("gv_made")
        return _packet(lib.gv_make_packet_from(self._end, first, delay, out, room, made), out, made)

    def make_ack(self, delay: int = 0, room: int = 1200) -> Optional[Packet]:
        """A packet with an ACK alone, which may go when the congestion window is full (section 13.2; RFC 9002, section
        7). None: no ACK is pending.

        >>> client.write(client.open(Dir.UNI), b"hello")
        5
        >>> carry(client, server)
        >>> [frame.kind.name for frame in frames(server.make_ack().payload)]
        ['ACK']
        >>> server.make_ack() is None
        True
        """
        out, made = ffi.new("uint8_t[]", room), sized("gv_made")
        return _packet(lib.gv_make_ack(self._end, delay, out, room, made), out, made)

    # Streams

    def open(self, dir: Dir = Dir.BIDI) -> int:  # pylint: disable=redefined-builtin
        """Opens the next stream of a direction (section 2.1). Nothing is sent for it: the peer learns of it by its
        first byte, FIN or reset. StreamLimitError: the peer permits no more than its limit; next_event() reports when
        one may be opened.

        >>> client.open(Dir.BIDI), client.open(Dir.UNI), server.open(Dir.UNI)
        (0, 2, 3)
        """
        stream, limit = ffi.new("uint64_t *"), ffi.new("uint64_t *")
        status = lib.gv_open(self._end, dir, stream, limit)
        if status == Status.STREAM_LIMIT:
            raise refusal(status, limit=limit[0])
        check(status)
        return stream[0]

    def read(self, stream: int, size: int = 65536) -> Optional[bytes]:
        """The next bytes, at most so many (section 2.2). None: none arrived yet. b"": all was read. ResetByPeerError
        has the peer's code.

        >>> stream = client.open()
        >>> client.write(stream, b"hello")
        5
        >>> client.finish(stream)
        >>> carry(client, server)
        >>> server.read(stream, 4), server.read(stream), server.read(stream)
        (b'hell', b'o', b'')
        """
        into, count, code = ffi.new("uint8_t[]", size), ffi.new("size_t *"), ffi.new("uint64_t *")
        status = lib.gv_read(self._end, stream, into, size, count, code)
        return _read(status, code, lambda: copied(into, count[0]))

    def peek(self, stream: int) -> Optional[bytes]:
        """A copy of the next bytes, all up to the next gap; consume() takes them (section 2.2). Its other answers are
        those of read().

        >>> stream = client.open()
        >>> client.write(stream, b"hello")
        5
        >>> carry(client, server)
        >>> server.peek(stream), server.peek(stream)
        (b'hello', b'hello')
        """
        peeked, code = sized("gv_peeked"), ffi.new("uint64_t *")
        status = lib.gv_peek(self._end, stream, peeked, code)
        both = (peeked.front, peeked.front_len), (peeked.back, peeked.back_len)
        return _read(status, code, lambda: b"".join(copied(*piece) for piece in both))

    def consume(self, stream: int, most: int) -> Optional[Consumed]:
        """Consumes the next bytes, at most so many, as read(), but copies none: after peek(), or to skip (sections 2.2
        and 3.2). None: none arrived yet. ResetByPeerError has the peer's code.

        >>> stream = client.open()
        >>> client.write(stream, b"hello")
        5
        >>> client.finish(stream)
        >>> carry(client, server)
        >>> server.consume(stream, 4)
        Consumed(length=4, at_end=False)
        >>> server.consume(stream, 4)
        Consumed(length=1, at_end=True)
        """
        count, at_end, code = ffi.new("size_t *"), ffi.new("bool *"), ffi.new("uint64_t *")
        status = lib.gv_consume(self._end, stream, most, count, at_end, code)
        if status in (Status.NOTHING_YET, Status.END_OF_STREAM):
            return None if status == Status.NOTHING_YET else Consumed(0, True)
        _check_read(status, code)
        return Consumed(count[0], at_end[0])

    # Frames and tokens: for a stack that owns its packet numbers and its ACKs

    def take_frame(self, frame: Frame) -> Taken:
        """Processes one frame without its packet (sections 13.1 and 19). One of streams or flow control takes effect,
        and then limits move; any other is NOT_OURS and changes nothing. Acknowledge a packet only once each of its
        frames was taken. Refused as receive() is.

        >>> server.take_frame(Frame(FrameKind.STREAM, stream=0, data=b"hello"))
        <Taken.TOOK: 0>
        >>> server.take_frame(Frame(FrameKind.PING))
        <Taken.NOT_OURS: 2>
        """
        raw, _kept = struct_of(frame)
        taken = ffi.new("gv_taken *")
        self._check_taken(lib.gv_take_frame(self._end, raw, taken))
        return Taken(taken[0])

    def take_frames(self, many: Iterable[Frame]) -> Taken:
        """Processes the frames of one packet, each as take_frame() does, but limits move once, as the call ends: so it
        is what receive() does with them (sections 4.1 and 12.4). TOOK if one of them changed something, else UNCHANGED
        if one was taken, else NOT_OURS.

        >>> client.write(client.open(), b"hello")
        5
        >>> payload = client.fill().payload
        >>> server.take_frames(frames(payload)), server.take_frames(frames(payload))
        (<Taken.TOOK: 0>, <Taken.UNCHANGED: 1>)
        """
        kept = [struct_of(frame) for frame in many]
        raws, taken = ffi.new("gv_frame[]", [raw[0] for raw, _ in kept]), ffi.new("gv_taken *")
        self._check_taken(lib.gv_take_frames(self._end, raws, len(kept), taken))
        return Taken(taken[0])

    def fill(
        self,
        room: int = 1200,
        *,
        items: bool = True,
        streams: bool = True,
        first: int = 0,
        alone: bool = False,
        most_bytes: Optional[int] = None,
    ) -> Optional[Filled]:
        """Pending frames, of at most so many bytes (sections 2.3, 4, 12.4 and 13.3): never an ACK, which the stack
        writes; control frames first, if items are asked for, then data of streams in turn: from the stream first on and
        then those below it, or of that one alone, and at most most_bytes of them. None: nothing that is asked for may
        go, or there is no room; with MIN_FILL bytes there always is.

        >>> client.write(client.open(Dir.UNI), b"hello")
        5
        >>> client.fill(most_bytes=4)
        Filled(payload=b'\\n\\x02\\x04hell', token=Token(epoch=0, first=0, number=0), last_stream=2, more=False)
        """
        want, out, filled = sized("gv_fill_request"), ffi.new("uint8_t[]", room), sized("gv_filled")
        want.items, want.streams, want.first, want.alone = items, streams, first, alone
        want.is_capped, want.most_bytes = most_bytes is not None, most_bytes or 0
        if not found(lib.gv_fill(self._end, want, out, room, filled)):
            return None
        last = filled.last_stream if filled.has_last_stream else None
        return Filled(copied(out, filled.len), Token.of(filled.token), last, filled.more)

    # Events and closing

    def events(self) -> Iterator[Event]:
        """Each event that is pending: next_event() until there is none.

        >>> client.write(client.open(), b"hello")
        5
        >>> carry(client, server)
        >>> [(event.kind.name, event.stream) for event in server.events()]
        [('OPENED', 0), ('READABLE', 0)]
        """
        while (event := self.next_event()) is not None:
            yield event

    def close_payload(self, room: int = 1200) -> Optional[bytes]:
        """The payload that tells the peer of this endpoint's own close (section 10.2). None: it didn't close, or there
        is no room for it.

        >>> server.close_payload() is None
        True
        >>> server.receive(0, b"\\x40")
        Traceback (most recent call last):
        gotsavena.ProtocolError: the peer broke a rule, and this endpoint is closed
        >>> [frame.kind.name for frame in frames(server.close_payload())]
        ['CONNECTION_CLOSE']
        """
        out, count = ffi.new("uint8_t[]", room), ffi.new("size_t *")
        return copied(out, count[0]) if found(lib.gv_close_payload(self._end, out, room, count)) else None


def _packet(status: int, out: Any, made: Any) -> Optional[Packet]:
    return Packet(made.number, copied(out, made.len), made.is_ack_eliciting) if found(status) else None


def _check_read(status: int, code: Any) -> None:
    if status == Status.RESET_BY_PEER:
        raise refusal(status, code=code[0])
    check(status)


def _read(status: int, code: Any, bytes_of: Callable[[], bytes]) -> Optional[bytes]:
    if status in (Status.NOTHING_YET, Status.END_OF_STREAM):
        return None if status == Status.NOTHING_YET else b""
    _check_read(status, code)
    return bytes_of()

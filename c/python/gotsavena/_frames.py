"""Frames without an endpoint, as a stack reads and writes them (RFC 9000, section 19), and tokens."""

from __future__ import annotations

from typing import Any, Iterator, NamedTuple, Optional, Sequence, Tuple

from ._kinds import Dir, Fault, FrameFields, FrameKind, Range, Status, Token
from ._library import Bytes, check, copied, ffi, found, given, lib, refusal, sized, struct

_TOKEN_LEN = 16


class Frame(FrameFields):
    """A frame. Its kind says which fields it has; the others are 0. data are the bytes that it carries.

    >>> Frame(FrameKind.STREAM, stream=4, data=b"hello", fin=True)
    Frame(kind=STREAM, fin=True, stream=4, data=b'hello')
    """

    __slots__ = ()

    def __repr__(self) -> str:
        usual = self._field_defaults
        told = [f"{name}={value!r}" for name, value in self._asdict().items() if name in usual and value != usual[name]]
        return f"Frame({', '.join([f'kind={self.kind.name}', *told])})"

    @classmethod
    def of(cls, raw: Any) -> Frame:
        """Of the struct of C, with a copy of its bytes."""
        fields = {name: getattr(raw, name) for name in cls._fields if name not in ("kind", "dir", "data", "token")}
        token = copied(raw.token, _TOKEN_LEN) if raw.token else b""
        return cls(FrameKind(raw.kind), dir=Dir(raw.dir), data=copied(raw.bytes, raw.len), token=token, **fields)

    def put(self) -> bytes:
        """The frame's bytes, each number in its shortest spelling; a STREAM always with its length, so that another
        frame may follow (sections 16 and 19). InvalidError: no frame has these fields.

        >>> Frame(FrameKind.MAX_DATA, limit=1 << 20).put().hex()
        '1080100000'
        """
        raw, _kept = struct_of(self)
        out, count = ffi.new("uint8_t[]", 100 + len(self.data)), ffi.new("size_t *")
        check(lib.gv_put(raw, out, len(out), count))
        return copied(out, count[0])

    def ranges(self) -> Iterator[Range]:
        """The ranges of packet numbers that an ACK names, the highest first (section 19.3.1).

        >>> ack, _written = put_ack([(7, 9), (2, 3)])
        >>> [tuple(pair) for pair in next(frames(ack)).ranges()]
        [(7, 9), (2, 3)]
        """
        kept = given(self.data)
        left, pair = ffi.new("gv_acked *", (*kept, self.largest)), ffi.new("gv_range *")
        while found(lib.gv_ack_next(left, pair)):
            yield Range.of(pair)


def struct_of(frame: Frame) -> Tuple[Any, Any]:
    """The struct of C, and what has to be kept as long as that is used."""
    if len(frame.token) not in (0, _TOKEN_LEN):
        raise refusal(Status.INVALID)
    fields, raw = frame._asdict(), sized("gv_frame")
    kept = given(fields.pop("data")), given(fields.pop("token"))
    for name, value in fields.items():
        setattr(raw, name, value)
    raw.bytes, raw.len = kept[0]
    raw.token = kept[1][0] if frame.token else ffi.NULL
    return raw, kept


def frames(payload: Bytes) -> Iterator[Frame]:
    """Each frame of a payload, which may have any length (sections 12.4 and 19). BadFrameError: no frame stands there;
    a payload without a frame is one, too.

    >>> [frame.kind.name for frame in frames(bytes([0x01, 0x1E]))]
    ['PING', 'HANDSHAKE_DONE']
    >>> list(frames(b"\\x40"))
    Traceback (most recent call last):
    gotsavena.BadFrameError: no frame stands there
    """
    kept = given(payload)
    walk, raw, fault = ffi.new("gv_frames *", (*kept, 0)), sized("gv_frame"), sized("gv_fault")
    while True:
        status = lib.gv_frames_next(walk, raw, fault)
        if status == Status.BAD_FRAME:
            raise refusal(status, fault=Fault.of(fault))
        if not found(status):
            return
        yield Frame.of(raw)


class PutAck(NamedTuple):
    """An ACK that was written."""

    #: the frame's bytes
    payload: bytes
    #: how many of the ranges it has, from the first on
    written: int


def put_ack(ranges: Sequence[Tuple[int, int]], delay: int = 0, room: int = 1200) -> PutAck:
    """An ACK without ECN counts, of as many of the ranges as fit, from the first on (section 19.3). There are 1 to 32,
    each of its smallest and its largest number, the highest first; between two lies a number that is in neither. delay
    is in the unit that the peer was given. NoRoomError: not even the first fits.

    >>> put_ack([(7, 9), (2, 3)], delay=5).payload.hex()
    '02090501020201'
    """
    out, written, count = ffi.new("uint8_t[]", room), ffi.new("size_t *"), ffi.new("size_t *")
    pairs = ffi.new("gv_range[]", [tuple(pair) for pair in ranges])
    check(lib.gv_put_ack(pairs, len(ranges), delay, out, room, written, count))
    return PutAck(copied(out, count[0]), written[0])


def token_and(token: Token, following: Token) -> Optional[Token]:
    """One token for two that were filled in one after the other, so that a packet that is filled in parts has one; None
    where their numbers don't follow each other, or their epochs differ.

    >>> client.write(client.open(Dir.UNI), b"hello")
    5
    >>> first, second = client.fill(most_bytes=2), client.fill()
    >>> token_and(first.token, second.token)
    Token(epoch=0, first=0, number=1)
    >>> token_and(second.token, first.token) is None
    True
    """
    out = struct("gv_token", token)
    return Token.of(out) if found(lib.gv_token_and(out, struct("gv_token", following))) else None

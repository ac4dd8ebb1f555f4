"""c/examples/stack.c in Python: two stacks that own their packets, over a link that drops every fifth one of each.

Packet numbers, ACKs, PINGs and a HANDSHAKE_DONE are theirs; their endpoints see frames and tokens alone, and tell by events when there is
something to read or to write.
"""

from collections import namedtuple

from gotsavena import BadFrameError, Dir, Endpoint, EventKind, FaultKind, Frame, FrameKind, InvalidError, NotGivenError, ProtocolError
from gotsavena import Role, Settings, Taken, frames, put_ack, token_and

ROOM = 1200
MOST = 32  # how many packets may be under way, and how many ranges an ACK has
REORDERED = 3  # how many later packets are acknowledged before one counts as lost (RFC 9002, section 6.1.1)
DATA = bytes((offset * 31 + (offset >> 8)) % 256 for offset in range(1 << 20))

# What is to be known of a packet until it is acknowledged or lost: the token of what the endpoint filled in, and whether it has the
# stack's own HANDSHAKE_DONE.
Record = namedtuple("Record", "token has_done")


class Stack:
    """An endpoint, and what is below it."""

    def __init__(self, role):
        self.end = Endpoint(role)
        self.next = 0
        self.sent = {}  # records by number
        self.came = []  # the ranges of packets that came, the highest first
        self.owes_ack, self.owes_done, self.is_done = False, role == Role.SERVER, False

    def make(self):
        """The next packet: an ACK where one is pending, what is new, and a PING where all of that is under way."""
        payload = b""
        if self.owes_ack:
            payload = put_ack(self.came).payload
            self.owes_ack = False
        number, new = self.next, b""
        if not any((other - number) % MOST == 0 for other in self.sent):
            new = self._put_new(number, ROOM - len(payload))
        if not new and self.sent:
            new = Frame(FrameKind.PING).put()
        if not payload + new:
            return None
        self.next += 1
        return number, payload + new

    def _put_new(self, number, room):
        own = Frame(FrameKind.HANDSHAKE_DONE).put() if self.owes_done else b""
        filled = self.end.fill(room - len(own))
        if own or filled:
            self.sent[number] = Record(filled and filled.token, self.owes_done)
        self.owes_done = False
        return own + (filled.payload if filled else b"")

    def _take_ack(self, ack):
        """The peer acknowledged packets. Those that lie well below the largest one are lost."""
        for smallest, largest in ack.ranges():
            for number in [number for number in self.sent if smallest <= number <= largest]:
                record = self.sent.pop(number)
                if record.token:
                    self.end.token_acked(record.token)
        for number in sorted((number for number in self.sent if number + REORDERED <= ack.largest), key=lambda number: number % MOST):
            record = self.sent.pop(number)
            if record.token:
                self.end.token_lost(record.token)
            self.owes_done |= record.has_done

    def take(self, number, payload):
        """Takes a packet in. It counts as one that came only once the endpoint took each of its frames."""
        given = []
        for frame in frames(payload):
            if frame.kind == FrameKind.ACK:
                self._take_ack(frame)
                continue
            self.owes_ack = True
            if frame.kind == FrameKind.HANDSHAKE_DONE:
                self.is_done = True
            elif frame.kind != FrameKind.PING:
                given.append(frame)
        if given:
            assert self.end.take_frames(given) != Taken.NOT_OURS, "a frame that this stack has no use for"
        if self.came and self.came[0][1] + 1 == number:
            self.came[0] = (self.came[0][0], number)
        else:
            self.came = [(number, number), *self.came][:MOST]


class Transfer:
    """The bytes that go from the one end to the other."""

    def __init__(self):
        self.written, self.got, self.is_received = 0, 0, False

    def write_some(self, end, stream):
        """Writes until a write is cut short, or all is written."""
        while self.written < len(DATA):
            piece = DATA[self.written : self.written + 4096]
            count = end.write(stream, piece)
            self.written += count
            if count < len(piece):
                return
        end.finish(stream)

    def read_some(self, end, stream):
        """Checks the bytes that came, and takes them."""
        while piece := end.peek(stream):
            assert piece == DATA[self.got : self.got + len(piece)], "byte"
            self.got += end.consume(stream, len(piece)).length

    def hear(self, end):
        """Does what an endpoint tells that there is to do."""
        for event in end.events():
            if event.kind == EventKind.READABLE:
                self.read_some(end, event.stream)
            elif event.kind == EventKind.WRITABLE:
                self.write_some(end, event.stream)
            elif event.kind == EventKind.FINISHED:
                self.is_received = True


def transfer_all():
    """Carries DATA over the link, and says in how many packets."""
    client, server, transfer = Stack(Role.CLIENT), Stack(Role.SERVER), Transfer()
    sent = dropped = 0
    transfer.write_some(client.end, client.end.open(Dir.UNI))
    while not (transfer.is_received and client.is_done):
        for source, sink in [(client, server)] * 4 + [(server, client)]:
            if not (packet := source.make()):
                continue
            sent += 1
            if packet[0] % 5 == 4:
                dropped += 1
            else:
                sink.take(*packet)
        transfer.hear(client.end)
        transfer.hear(server.end)
    assert transfer.got == len(DATA)
    print(f"{transfer.got} bytes came, each right, in {sent} packets, of which {dropped} were dropped")


def refuse(call, kind):
    """A call is refused so."""
    try:
        call()
    except kind as refused:
        return refused
    raise AssertionError("it isn't refused")


def ask_the_rest():
    """What the transfer doesn't call. Values are those of RFC 9000, section 19, and of the header."""
    end, peer = Endpoint(Role.CLIENT), Endpoint(Role.SERVER)
    first, second = end.open(Dir.UNI), end.open(Dir.UNI)
    end.write(first, b"one")
    end.write(second, b"two")
    low = end.fill(most_bytes=3, first=first, alone=True)
    assert low.payload == bytes([0x0A, first, 3]) + b"one" and low.last_stream == first and not low.more, low
    high = end.fill()
    both = token_and(low.token, high.token)
    assert both and token_and(both, low.token) is None and end.fill() is None
    end.token_lost(both)
    made = end.make_packet()
    assert [frame.data for frame in frames(made.payload)] == [b"one", b"two"]
    assert peer.take_frames(frames(made.payload)) == Taken.TOOK and peer.take_frames(frames(made.payload)) == Taken.UNCHANGED
    assert peer.take_frame(Frame(FrameKind.PING)) == Taken.NOT_OURS
    assert peer.read(first, 2) == b"on" and peer.peek(first) == b"e" == peer.read(first) and peer.read(first) is None
    end.token_acked(end.token_of(made.number))
    refuse(lambda: end.token_acked(end.token_of(made.number + 1)), NotGivenError)
    ack = next(frames(put_ack([(7, 9), (2, 3)], delay=5).payload))
    assert list(ack.ranges()) == [(7, 9), (2, 3)] and (ack.largest, ack.delay) == (9, 5)
    issued = Frame(FrameKind.NEW_CONNECTION_ID, data=b"id", token=bytes(range(16)), sequence=3, retire=1).put()
    assert issued == bytes([0x18, 3, 1, 2]) + b"id" + bytes(range(16)), issued
    read = next(frames(issued))
    assert (read.data, read.token, read.sequence, read.put()) == (b"id", bytes(range(16)), 3, issued)
    refuse(Frame(FrameKind.NEW_CONNECTION_ID, data=b"id", token=bytes(15)).put, InvalidError)
    fault = refuse(lambda: list(frames(b"\x01\x40")), BadFrameError).fault
    assert (fault.kind, fault.code, fault.place) == (FaultKind.TRUNCATED, 7, 1), fault
    assert EventKind(99).name == "UNKNOWN_99"  # of a later library
    # DATA_BLOCKED of 5 at a limit that didn't rise: an event, from take_frames at once, from receive where that is chosen.
    owner = Endpoint(Role.SERVER, Settings(conn_window=5))
    owner.report_blocked(True)
    assert owner.receive(0, Frame(FrameKind.DATA_BLOCKED, limit=5).put())
    assert [event.kind for event in owner.events()] == [EventKind.DATA_BLOCKED]
    # A stream of the server's own that was never opened: STREAM_STATE_ERROR (section 19.8).
    assert owner.closing() is None and owner.close_payload() is None
    assert refuse(lambda: owner.take_frame(Frame(FrameKind.STREAM, data=b"x", stream=1)), ProtocolError).why.code == 5
    assert owner.closing().code == 5 and next(frames(owner.close_payload())).code == 5


if __name__ == "__main__":
    ask_the_rest()
    transfer_all()

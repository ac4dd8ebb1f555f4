#!/usr/bin/env python3
"""Judges an endpoint as a sender, by what tshark reads of the datagrams at its side, in PDML on standard input.

senders.py PORT here|there: PORT is that of the endpoint (here) or of the one that it speaks with (there). No STREAM may go after
RESET_STREAM (RFC 9000, section 3.3) or past an end (4.5), no byte may change (2.2), nor RESET_STREAM (13.3), no limit may fall, and
nothing may go past what was granted (4.1, 4.6). Limits are those that came by then. Status 1 and a line for each fault.
senders.py --try: whether each fault is told, of packets made by hand.
"""
import sys
from collections import defaultdict
from xml.etree import ElementTree

RESET_STREAM, STREAM, MAX_DATA, MAX_STREAM_DATA, MAX_STREAMS = 4, 8, 16, 17, 18
NUMBERS = {RESET_STREAM: ('rsts.stream_id', 'rsts.application_error_code', 'rsts.final_size'), MAX_DATA: ('md.maximum_data',),
           MAX_STREAM_DATA: ('msd.stream_id', 'msd.maximum_stream_data'), MAX_STREAMS: ('ms.max_streams',), MAX_STREAMS + 1: ('ms.max_streams',)}
PARAMETERS = ('max_data', 'max_stream_data_bidi_local', 'max_stream_data_bidi_remote', 'max_stream_data_uni', 'max_streams_bidi', 'max_streams_uni')


class Sender:
    """What an endpoint of a connection sent so far, and what its peer granted."""

    def __init__(self):
        self.parameters, self.grants, self.told = {}, {}, {}
        self.bytes, self.known = defaultdict(bytearray), defaultdict(bytearray)
        self.ends, self.resets, self.role = {}, {}, None
        self.faults, self.packets, self.again, self.unread = [], 0, 0, 0

    def limit(self, stream):
        own = stream & 1 == self.role
        name = 'max_stream_data_uni' if stream & 2 else 'max_stream_data_bidi_remote' if own else 'max_stream_data_bidi_local'
        return self.grants.get(('stream', stream), self.parameters.get(name, 0))

    def came(self, kind, numbers):
        """A frame of the peer's: it may raise a limit."""
        for key, value in limits(kind, numbers):
            self.grants[key] = max(self.grants.get(key, 0), value)

    def went(self, number, kind, numbers, data=b'', fin=False):
        for key, value in limits(kind, numbers):
            if value < max((old for at, old in self.told.get(key, []) if at < number), default=0):
                self.faults.append(f'packet {number}: the limit {key} falls to {value}')
            self.told.setdefault(key, []).append((number, value))
        if kind == RESET_STREAM:
            stream, code, size = numbers
            first = self.resets.setdefault(stream, (number, code, size))
            if first[1:] != (code, size):
                self.faults.append(f'packet {number}: RESET_STREAM of {stream} changes')
            self.resets[stream] = (min(number, first[0]), *first[1:])
            self.ended(number, stream, size)
            self.used(number, stream, size)
        elif kind == STREAM:
            self.streamed(number, *numbers, data, fin)

    def ended(self, number, stream, size):
        if self.ends.setdefault(stream, size) != size or len(self.bytes[stream]) > size:
            self.faults.append(f'packet {number}: the final size of {stream} is {size} of {self.ends[stream]}')

    def used(self, number, stream, end):
        """So many offsets of a stream are in use (4.1), and the stream itself is (4.6)."""
        have = self.bytes[stream]
        missing = max(0, end - len(have))
        have.extend(bytes(missing))
        self.known[stream].extend(bytes(missing))
        if end > self.limit(stream):
            self.faults.append(f'packet {number}: {end} bytes of {stream}, where {self.limit(stream)} are granted')
        total, most = sum(map(len, self.bytes.values())), self.grants.get('data', self.parameters.get('max_data', 0))
        if missing and total > most:
            self.faults.append(f'packet {number}: {total} bytes of all streams, where {most} are granted')
        kind = 'uni' if stream & 2 else 'bidi'
        if stream & 1 == self.role and stream >> 2 >= self.grants.get(f'streams_{kind}', self.parameters.get(f'max_streams_{kind}', 0)):
            self.faults.append(f'packet {number}: stream {stream} is past the count')

    def streamed(self, number, stream, offset, data, fin):
        end = offset + len(data)
        if stream in self.resets and self.resets[stream][0] < number:
            self.faults.append(f'packet {number}: STREAM of {stream} after its RESET_STREAM')
        if end > self.ends.get(stream, end):
            self.faults.append(f'packet {number}: {end} bytes of {stream}, which ends at {self.ends[stream]}')
        self.used(number, stream, end)
        have, known = self.bytes[stream], self.known[stream]
        self.again += sum(known[offset:end])
        if any(was and old != new for was, old, new in zip(known[offset:end], have[offset:end], data)):
            self.faults.append(f'packet {number}: bytes {offset} to {end} of {stream} change')
        have[offset:end], known[offset:end] = data, b'\1' * len(data)
        if fin:
            self.ended(number, stream, end)


def limits(kind, numbers):
    if kind == MAX_DATA:
        yield 'data', numbers[0]
    elif kind == MAX_STREAM_DATA:
        yield ('stream', numbers[0]), numbers[1]
    elif kind in (MAX_STREAMS, MAX_STREAMS + 1):
        yield ('streams_bidi', 'streams_uni')[kind - MAX_STREAMS], numbers[0]


def shown(element, name):
    """The numbers of this name in an element, in order."""
    return [int(field.get('show'), 0) for field in element.iter('field') if field.get('name') == name]


def frame(element):
    kind = shown(element, 'quic.frame_type')[0]
    if kind & ~7 != STREAM:
        return kind, tuple(shown(element, 'quic.' + name)[0] for name in NUMBERS.get(kind, ())), b'', False
    data = b''.join(bytes.fromhex(field.get('value') or '') for field in element.iter('field') if field.get('name') == 'quic.stream_data')
    offset = (shown(element, 'quic.stream.offset') or [0])[0]
    return STREAM, (shown(element, 'quic.stream.stream_id')[0], offset), data, bool(kind & 1)


def take(sender, packet, is_sent):
    """A datagram: the peer's parameters, and the frames of its 1-RTT packets."""
    for name in PARAMETERS if not is_sent else ():
        for value in shown(packet, 'tls.quic.parameter.initial_' + name):
            sender.parameters[name] = value
    for quic in packet.iter('proto'):
        names = {field.get('name') for field in quic.iter('field')}
        if 'quic.short' not in names:
            continue
        number = shown(quic, 'quic.packet_number')
        if 'quic.decryption_failed' in names or not number:
            sender.unread += is_sent
            continue
        sender.packets += is_sent
        for kind, numbers, data, fin in [frame(field) for field in quic.iter('field') if field.get('name') == 'quic.frame']:
            if is_sent:
                sender.went(number[0], kind, numbers, data, fin)
            else:
                sender.came(kind, numbers)


def judged(port, place):
    """A sender for each address of the other side: each has a connection."""
    senders = defaultdict(Sender)
    for _, packet in ElementTree.iterparse(sys.stdin.buffer):
        if packet.tag != 'packet':
            continue
        source, other = shown(packet, 'udp.srcport')[0], shown(packet, 'udp.dstport')[0]
        sender = senders[source if other == port else other]
        is_sent = (source == port) == (place == 'here')
        # The client's datagram comes first (section 7).
        sender.role = sender.role if sender.role is not None else int(not is_sent)
        take(sender, packet, is_sent)
        packet.clear()
    return senders.values()


def tried():
    """Each fault by hand: the frames that go are (number, kind, numbers, bytes, FIN)."""
    stream = (STREAM, (0, 0), b'abc', False)
    plays = [[(1, RESET_STREAM, (0, 7, 3)), (2, *stream)], [(1, *stream), (2, STREAM, (0, 1), b'xc', False)], [(1, *stream[:3], True), (2, STREAM, (0, 3), b'd', False)],
             [(1, RESET_STREAM, (0, 7, 3)), (2, RESET_STREAM, (0, 8, 3))], [(1, RESET_STREAM, (0, 7, 3)), (2, RESET_STREAM, (0, 7, 4))],
             [(1, MAX_DATA, (9,)), (2, MAX_DATA, (8,))], [(1, STREAM, (0, 10), b'a', False)], [(1, STREAM, (number, 0), bytes(10), False) for number in (0, 4)],
             [(1, STREAM, (8, 0), b'a', False)]]
    for play in plays + [[(1, *stream), (2, *stream), (3, RESET_STREAM, (0, 7, 3)), (4, MAX_DATA, (9,))]]:
        sender = Sender()
        sender.role, sender.parameters = 0, {name: 2 if 'streams' in name else 10 for name in PARAMETERS} | {'max_data': 15}
        for packet in play:
            sender.went(*packet)
        if bool(sender.faults) != (play in plays):
            sys.exit(f'{play}: {sender.faults}')
    print(f'{len(plays)} faults are told')


def main():
    if sys.argv[1:] == ['--try']:
        return tried()
    senders = judged(int(sys.argv[1]), sys.argv[2])
    faults = [fault for sender in senders for fault in sender.faults]
    count = {name: sum(map(of, senders)) for name, of in (('packets', lambda it: it.packets), ('streams', lambda it: len(it.bytes)),
                                                          ('resets', lambda it: len(it.resets)), ('bytes again', lambda it: it.again), ('unread', lambda it: it.unread))}
    print(', '.join(f'{value} {name}' for name, value in count.items()), *faults, sep='\n')
    # (tshark may not read what comes before a packet of the handshake that goes again)
    return bool(faults) or count['unread'] * 100 >= count['packets']


sys.exit(main())

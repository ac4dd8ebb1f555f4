#!/usr/bin/env python3
"""Holds the trace of one end of a connection against what tshark reads of the datagrams at that end.

agrees.py TRACE FIELDS PORT here|there: FIELDS has a line for each datagram, its fields parted by |: the port from which it came, the
types of the packets with long headers, the numbers of all packets, the types of frames, and of an ACK the largest number, the first
range, the gaps and the ranges. PORT is that of this end (here) or of the one that it speaks with (there). Status 1 and a line where they
differ.
"""
import json
import sys
from collections import Counter

# PADDING, ACK, and the closes ask for no ACK (RFC 9002, section 2).
ASK_NOT = {0x00, 0x02, 0x03, 0x1c, 0x1d}
TYPES = {0: 'initial', 2: 'handshake'}
# Frames by their types (RFC 9000, section 19), as a trace names them.
NAMES = {0: 'padding', 1: 'ping', 2: 'ack', 3: 'ack', 4: 'reset_stream', 5: 'stop_sending', 6: 'crypto', 7: 'new_token', 16: 'max_data',
         17: 'max_stream_data', 18: 'max_streams', 19: 'max_streams', 20: 'data_blocked', 21: 'stream_data_blocked', 22: 'streams_blocked',
         23: 'streams_blocked', 24: 'new_connection_id', 25: 'retire_connection_id', 26: 'path_challenge', 27: 'path_response',
         28: 'connection_close', 29: 'connection_close', 30: 'handshake_done'} | {kind: 'stream' for kind in range(8, 16)}


def need(holds, what):
    if not holds:
        sys.exit(f'they differ: {what}')


def numbers(field):
    return [int(word, 0) for word in field.split(',') if word]


def acked(largest, first, gaps, ranges):
    """The numbers that an ACK names (RFC 9000, section 19.3.1)."""
    if not largest:
        return set()
    high = largest[0]
    low = high - first[0]
    named = set(range(low, high + 1))
    for gap, length in zip(gaps, ranges):
        high = low - gap - 2
        low = high - length
        named |= set(range(low, high + 1))
    return named


def datagrams(path, port, place):
    """The packets that this end sent and those that came, each with its type and number, whether it asks for an ACK, and what it
    acknowledges, as tshark reads them."""
    sent, came, carried = [], [], {}
    for line in open(path, encoding='ascii'):
        source, long, all_numbers, frames, *ack = line.rstrip('\n').split('|')
        types = [TYPES[kind] for kind in numbers(long)]
        found = numbers(all_numbers)
        types += ['1RTT'] * (len(found) - len(types))
        only_short = types == ['1RTT']
        asks = bool(set(numbers(frames)) - ASK_NOT)
        named = acked(*map(numbers, ack)) if only_short else set()
        is_sent = (int(source) == port) == (place == 'here')
        (sent if is_sent else came).extend((kind, number, asks, named) for kind, number in zip(types, found))
        if only_short:
            carried[is_sent, found[0]] = {NAMES[kind] for kind in numbers(frames)}
    return sent, came, carried


def events(path):
    """The events of a trace that tell of packets: the event, the type and the number of each."""
    records = open(path, 'rb').read().split(b'\x1e')[1:]
    for record in [json.loads(record) for record in records][1:]:
        header = record['data'].get('header')
        if header:
            yield record['name'], header['packet_type'], header['packet_number'], {frame['frame_type'] for frame in record['data'].get('frames', [])}


def main():
    trace, fields, port, place = sys.argv[1:]
    sent, came, carried = datagrams(fields, int(port), place)
    events_told = list(events(trace))
    told = [event[:3] for event in events_told]
    compared = 0
    for name, kind, number, frames in events_told:
        if kind == '1RTT' and name in ('transport:packet_sent', 'transport:packet_received') and (key := (name.endswith('sent'), number)) in carried:
            need(frames == carried[key], f'{name} of {number} has {sorted(frames)}, and tshark sees {sorted(carried[key])}')
            compared += 1
    print(f'the frames of {compared} packets are those that tshark reads')
    for name, seen in (('transport:packet_sent', sent), ('transport:packet_received', came)):
        ours = Counter((kind, number) for event, kind, number in told if event == name)
        theirs = Counter((kind, number) for kind, number, _, _ in seen)
        # Packets of the handshake that come once its keys are gone can't be read by an end any more.
        late = {key for key in theirs - ours if key[0] != '1RTT'} if name.endswith('received') else set()
        need(not ours - theirs, f'{name} is told of {sorted(ours - theirs)}, which tshark does not see')
        need(set(theirs - ours) <= late, f'{name} is not told of {sorted(set(theirs - ours) - late)}')
        print(f'{name}: {sum(ours.values())} packets, as tshark reads them')
    asking = {number for kind, number, asks, _ in sent if kind == '1RTT' and asks}
    acks = [named for kind, _, _, named in came if kind == '1RTT']
    known, place_of_ack, lost = set(), 0, set()
    for event, kind, number in told:
        if kind == '1RTT' and event == 'transport:packet_received':
            known |= acks[place_of_ack]
            place_of_ack += 1
        elif kind == '1RTT' and event == 'recovery:packet_lost':
            need(number in asking, f'packet {number} is lost, which tshark does not see sent, or which asks for no ACK')
            need(number not in known, f'packet {number} is lost, and was acknowledged before')
            need(number < max(known, default=0), f'packet {number} is lost, and no later one was acknowledged')
            lost.add(number)
    # What no ACK named, and three later ones were acknowledged, is lost (RFC 9002, section 6.1.1).
    missing = {number for number in asking - known if number + 3 <= max(known, default=0)}
    need(missing <= lost, f'{sorted(missing - lost)} are not told as lost')
    print(f'recovery:packet_lost: {len(lost)} packets, {len(lost & known)} of them acknowledged later; of {len(asking)} that ask for an ACK')
    need(len(lost) > 0 or place == 'there', 'nothing is lost')


main()

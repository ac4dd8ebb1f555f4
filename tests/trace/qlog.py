"""Reads a trace, and holds it against what qlog asks for (draft-ietf-quic-qlog-main-schema and -quic-events, version 0.4).

A trace is a JSON text sequence (RFC 7464): each record begins with the byte 0x1E and ends with a line feed. The first one is the
trace's own; each other one is an event.
"""
import json

# The fields of each event's data, of which none may be missing and no other may stand.
EVENTS = {
    'transport:packet_sent': {'header', 'frames', 'raw'},
    'transport:packet_received': {'header'},
    'transport:packet_dropped': {'header', 'trigger'},
    'recovery:packet_lost': {'header'},
    'transport:stream_state_updated': {'stream_id', 'stream_side', 'new'},
    'transport:data_moved': {'stream_id', 'length', 'from', 'to'},
    'connectivity:connection_closed': {'owner', 'connection_code'},
}

# The fields of each kind of frame, beside its type.
FRAMES = {
    'padding': set(),
    'ping': set(),
    'ack': {'acked_ranges', 'gotsavena:delay_field'},
    'reset_stream': {'stream_id', 'error_code', 'final_size'},
    'stop_sending': {'stream_id', 'error_code'},
    'stream': {'stream_id', 'offset', 'length', 'fin'},
    'max_data': {'maximum'},
    'max_stream_data': {'stream_id', 'maximum'},
    'max_streams': {'stream_type', 'maximum'},
    'data_blocked': {'limit'},
    'stream_data_blocked': {'stream_id', 'limit'},
    'streams_blocked': {'stream_type', 'limit'},
}

WORDS = {
    'trigger': {'duplicate', 'general', 'internal_error'},
    'stream_side': {'sending', 'receiving'},
    'new': {'ready', 'reset_sent', 'receive', 'data_read', 'reset_read'},
    'from': {'application', 'transport'},
    'to': {'application', 'transport'},
    'owner': {'local', 'remote'},
    'stream_type': {'bidirectional', 'unidirectional'},
}

# Names that a trace of ours has beside these.
OTHERS = {'qlog_version', 'qlog_format', 'JSON-SEQ', 'trace', 'common_fields', 'protocol_type', 'QUIC', 'time_format', 'relative',
          'reference_time', 'gotsavena:time', 'vantage_point', 'type', 'client', 'server', 'time', 'name', 'data', 'packet_number',
          'packet_type', '1RTT', 'payload_length', 'frame_type', 'connection_close', 'error_space'}


class Wrong(Exception):
    """A trace isn't what it should be."""


def need(holds, what):
    if not holds:
        raise Wrong(what)


def is_number(value):
    return isinstance(value, int) and not isinstance(value, bool) and value >= 0


def records(data):
    """The records of a JSON text sequence."""
    parts = data.split(b'\x1e')
    need(parts[0] == b'', f'it begins with {parts[0][:40]!r}')
    for part in parts[1:]:
        need(part.endswith(b'\n') and part.count(b'\n') == 1, f'a record that is no line: {part[:80]!r}')
        yield json.loads(part)


def check_frame(frame):
    kind = frame.get('frame_type')
    need(kind in FRAMES, f'no such frame: {frame}')
    need(set(frame) == FRAMES[kind] | {'frame_type'}, f'the fields of {frame}')
    for name, value in frame.items():
        if name == 'frame_type':
            continue
        if name == 'fin':
            need(isinstance(value, bool), f'{name} of {frame}')
        elif name == 'acked_ranges':
            need(value and all(len(r) == 2 and is_number(r[0]) and is_number(r[1]) and r[0] <= r[1] for r in value), f'{name} of {frame}')
        elif name in WORDS:
            need(value in WORDS[name], f'{name} of {frame}')
        else:
            need(is_number(value), f'{name} of {frame}')


def check_data(name, data):
    need(name in EVENTS, f'no such event: {name}')
    need(set(data) == EVENTS[name], f'the fields of {name}: {data}')
    for key, value in data.items():
        if key == 'header':
            need(set(value) == {'packet_number', 'packet_type'} and is_number(value['packet_number']) and value['packet_type'] == '1RTT', f'{data}')
        elif key == 'raw':
            need(set(value) == {'payload_length'} and is_number(value['payload_length']), f'{data}')
        elif key == 'frames':
            need(len(value) > 0, f'a packet without frames: {data}')
            for frame in value:
                check_frame(frame)
        elif key in WORDS:
            need(value in WORDS[key], f'{key} of {data}')
        else:
            need(is_number(value), f'{key} of {data}')


def read(data, kind):
    """The events of the trace of an end of that kind: the time, the name and the data of each."""
    head, *events = records(data)
    need(set(head) == {'qlog_version', 'qlog_format', 'trace'}, f'the fields of {head}')
    need((head['qlog_version'], head['qlog_format']) == ('0.4', 'JSON-SEQ'), f'the version of {head}')
    need(head['trace']['vantage_point'] == {'type': kind}, f'whose it is: {head}')
    common = head['trace']['common_fields']
    need((common['protocol_type'], common['time_format'], common['reference_time']) == (['QUIC'], 'relative', 0), f'{common}')
    last = 0
    for event in events:
        need(set(event) == {'time', 'name', 'data'}, f'the fields of {event}')
        need(is_number(event['time']) and event['time'] >= last, f'the time of {event}')
        last = event['time']
        check_data(event['name'], event['data'])
    return [(event['time'], event['name'], event['data']) for event in events]


def names():
    """Every name that stands in a trace."""
    found = set(OTHERS) | set(EVENTS) | set(FRAMES)
    for group in [*EVENTS.values(), *FRAMES.values(), *WORDS.values()]:
        found |= group
    return found

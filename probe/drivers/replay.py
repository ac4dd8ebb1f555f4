#!/usr/bin/env python3
"""replay.py VECTORS.json: replays the test vectors at endpoints of the Python package. The last line is 'N vectors, M differ'."""
import json
import sys

from gotsavena import Dir, Endpoint, Limits, ProtocolError, ResetByPeerError, Role, Settings


def endpoint(vectors, vector):
    """An endpoint that opened its streams, wrote on each, and sent that."""
    own, peer = vectors['limits'], vectors['peer_limits']
    settings = Settings(conn_window=own['max_data'], bidi_local=own['bidi_local'], bidi_remote=own['bidi_remote'], uni=own['uni'],
                        grant_bidi=own['streams_bidi'], grant_uni=own['streams_uni'])
    end = Endpoint(Role.SERVER if vector['role'] == 'server' else Role.CLIENT, settings, Limits(**peer))
    for wanted in vector['opened']:
        stream = end.open(Dir.UNI if wanted & 2 else Dir.BIDI)
        assert stream == wanted
        end.write(stream, bytes.fromhex(vectors['wrote']))
    for _ in range(vectors['packets_sent']):
        assert end.make_packet()
    return end


def read_all(end):
    stream = end.next_readable(0)
    while stream is not None:
        try:
            while end.read(stream):
                pass
        except ResetByPeerError:
            pass
        stream = end.next_readable(stream + 1)


def came(end, entry):
    """What it closes with and for which type of frame, if it does."""
    try:
        end.receive(entry['number'], bytes.fromhex(entry['hex']))
    except ProtocolError:
        return {'closes_with': end.closing().code, 'frame_type': end.closing().frame_type}
    return {'closes_with': None, 'frame_type': None}


def replay(vectors, vector):
    with endpoint(vectors, vector) as end:
        for entry in vector['payloads']:
            found = came(end, entry)
            if found != entry['verdict']:
                print(f"{vector['role']} {vector['case']}: {entry['hex']}: {found}, not {entry['verdict']}")
                return False
            if vector['reads']:
                read_all(end)
    return True


def main():
    with open(sys.argv[1], encoding='utf-8') as file:
        vectors = json.load(file)
    if vectors['form'] != 1:
        sys.exit(f"a form that isn't known: {vectors['form']}")
    same = [replay(vectors, vector) for vector in vectors['vectors']]
    print(f'{len(same)} vectors, {same.count(False)} differ')
    return 0 if all(same) else 1


if __name__ == '__main__':
    sys.exit(main())

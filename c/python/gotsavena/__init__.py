"""Gotsavena: the stream layer of a QUIC version 1 endpoint (RFC 9000), over the library for C.

Payloads of packets go in and come out. Handshake, packet protection, loss detection, congestion control and the clock
lie outside. Each call has the name of C's without gv_. Where C writes to a pointer it returns the value, and None where
there is none; a refusal is an Error. The calls of C themselves are in lib, by cffi, with ffi. Sections are those of RFC
9000, numbers of packets and streams are below 2^62.

In the examples of the calls there are two endpoints of a connection, and a function that carries packets from one to
the other:

>>> client, server = Endpoint(Role.CLIENT), Endpoint(Role.SERVER)
>>> def carry(source, sink):
...     while made := source.make_packet():
...         sink.receive(made.number, made.payload)
"""

from . import _calls, _kinds
from ._calls import *
from ._declared import MAX_PAYLOAD, MIN_FILL, __version__
from ._kinds import *
from ._library import build, ffi, lib, strerror, version
from ._endpoint import Consumed, Endpoint, Filled, Packet
from ._frames import Frame, PutAck, frames, put_ack, token_and

__all__ = ["MAX_PAYLOAD", "MIN_FILL", "__version__", "build", "ffi", "lib", "strerror", "version"]
__all__ += ["Consumed", "Endpoint", "Filled", "Packet", "Frame", "PutAck", "frames", "put_ack", "token_and"]
__all__ += _calls.__all__
__all__ += _kinds.__all__

# A traceback then has the public name.
for _kind in (Error, *_kinds.ERRORS.values()):
    _kind.__module__ = __name__

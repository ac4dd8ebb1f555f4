"""The shared library, and how its calls are made.

GOTSAVENA_LIBRARY names the library. Else it is the one that pkg-config knows, and else the one that the loader finds.
"""

from __future__ import annotations

import os
import subprocess
from typing import Any, Tuple, Union

from cffi import FFI

from ._declared import DECLARATIONS
from ._kinds import ERRORS, Error, Status

NAME = "libgotsavena.so.0"

#: What a call reads bytes from.
Bytes = Union[bytes, bytearray, memoryview]


def _installed() -> str:
    command = [os.environ.get("PKG_CONFIG", "pkg-config"), "--variable=libdir", "gotsavena"]
    try:
        folder = subprocess.run(command, capture_output=True, check=True, text=True).stdout.strip()
    except (OSError, subprocess.CalledProcessError):
        return NAME
    return os.path.join(folder, NAME) if folder else NAME


def _opened() -> Any:
    path = os.environ.get("GOTSAVENA_LIBRARY") or _installed()
    try:
        return ffi.dlopen(path)
    except OSError as fault:
        told = "`make -C c install` installs the library, and GOTSAVENA_LIBRARY names another one"
        raise ImportError(f"{path} can't be loaded: {told}") from fault


ffi: Any = FFI()
ffi.cdef(DECLARATIONS)
lib = _opened()
INITS = {"gv_settings": lib.gv_settings_init, "gv_tuning": lib.gv_tuning_init, "gv_limits": lib.gv_limits_init}


def _text(at: Any) -> str:
    text: bytes = ffi.string(at)
    return text.decode()


def version() -> int:
    """The version of the library: 1.2.3 is 10203. gotsavena.__version__ is that of the package.

    >>> version()
    100
    """
    return lib.gv_version()


def build() -> str:
    """How the library was built: "proved" if its archive is the one that was proved, "erased" if it is the proved
    source with its contracts removed, compiled by rustc.

    >>> build() in ("erased", "proved")
    True
    """
    return _text(lib.gv_build())


def strerror(status: Status) -> str:
    """What a status means, in a few words.

    >>> strerror(Status.NO_SUCH_STREAM)
    "the stream isn't open"
    """
    return _text(lib.gv_strerror(status))


def refusal(status: int, **told: Any) -> Error:
    """The error of a status."""
    kind = ERRORS.get(Status(status), Error)
    error = kind(strerror(Status(status)), **told)
    error.status = Status(status)
    return error


def check(status: int) -> None:
    """Raises what isn't OK."""
    if status != Status.OK:
        raise refusal(status)


def found(status: int) -> bool:
    """Whether something was found; raises what says neither."""
    if status == Status.NONE:
        return False
    check(status)
    return True


def sized(kind: str) -> Any:
    """A struct of C that has its size, and nothing else."""
    return ffi.new(kind + " *", {"size": ffi.sizeof(kind)})


def struct(kind: str, value: Any) -> Any:
    """A struct of C with the fields of a tuple. Of settings, what the tuple hasn't is as the library sets it."""
    raw = ffi.new(kind + " *")
    if kind in INITS:
        check(INITS[kind](raw, ffi.sizeof(kind)))
    for name, field in value._asdict().items():
        setattr(raw, name, field)
    return raw


def given(data: Bytes) -> Tuple[Any, int]:
    """The address of bytes, and how many they are."""
    at = ffi.from_buffer("uint8_t[]", data)
    return at, len(at)


def copied(at: Any, count: int) -> bytes:
    """A copy of bytes of C."""
    return ffi.buffer(at, count)[:] if count else b""

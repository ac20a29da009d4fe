"""The shared library, and its calls with their types (``include/onu.h``)."""

import ctypes
import os
import struct
from pathlib import Path
from typing import Any, Callable, Tuple

CLOSED = -16
SMALL = -19
NO_MEMORY = -20
BAD_LINE = -21
BAD_START = -23
BAD_AFTER = -24
BACKWARD = -25

# The line behind which a trace is at its end.
AT_END = 2**64 - 1


class Cell(ctypes.Structure):
    """The cell in which a unit stands; all its bytes are zero at first."""

    _fields_ = [("full_", ctypes.c_bool), ("unit_", ctypes.c_void_p)]


# The number of a line, and of a port.
Line = ctypes.c_uint64
Port = ctypes.c_uint16

# What becomes of a frame, `onu_verdict`: GEM port, reason, how many tags, four tags, and where the rest begins.
verdict = struct.Struct("@HBB4IN")


def _path() -> str:
    """Where the shared library lies: ``ONUCTL_LIBRARY``, beside this package, or where ``./build-library`` puts it."""
    named = os.environ.get("ONUCTL_LIBRARY")
    if named:
        return named
    here = Path(__file__).resolve().parent
    for path in (here / "libonu.so", here.parents[1] / "library" / "out" / "libonu.so"):
        if path.is_file():
            return str(path)
    raise ImportError("libonu.so isn't there: run ./build-library, or set ONUCTL_LIBRARY to its path")


_found = _path()

# A unit is used by one thread at a time, so its calls keep the interpreter's lock. Calls over whole texts may take long and use no unit of
# the caller's, so they let it go.
_locked = ctypes.PyDLL(_found)
_free = ctypes.CDLL(_found)


def _call(library: Any, name: str, *types: Any) -> Any:
    call = getattr(library, name)
    call.argtypes = types
    call.restype = ctypes.c_int32
    return call


_cell = ctypes.POINTER(Cell)
_size = ctypes.POINTER(ctypes.c_size_t)
_line = ctypes.POINTER(Line)
_bytes = (ctypes.c_char_p, ctypes.c_size_t)
_room = (ctypes.c_void_p, ctypes.c_size_t)
# A port or none, and how many bytes frames have at least.
_frames = (ctypes.POINTER(Port), ctypes.c_uint16)

open_cell = _call(_locked, "onu_open", _cell)
close_cell = _call(_locked, "onu_close", _cell)
message = _call(_locked, "onu_message", _cell, *_bytes, ctypes.c_void_p)
forward = _call(_locked, "onu_forward", _cell, ctypes.c_uint16, *_bytes, ctypes.c_void_p)
explain = _call(_locked, "onu_explain", _cell, ctypes.c_uint16, *_bytes, *_room, _size)
replay = _call(_free, "onu_replay", *_bytes, *_room, _size, _line)
judge_all = _call(_free, "onu_judge_all", *_bytes, *_bytes, ctypes.c_uint32, ctypes.c_uint64, *_room, _size, _line)
judge_coverage = _call(_free, "onu_judge_coverage", *_bytes, *_bytes, ctypes.c_uint32, ctypes.c_uint64, ctypes.c_uint16, *_room, _size, _line)
encode = _call(_free, "onu_encode", *_bytes, ctypes.c_uint16, *_room, _size)
decode = _call(_free, "onu_decode", *_bytes, *_room, _size)
mib = _call(_free, "onu_mib", *_bytes, *_room, _size, _line)
lint = _call(_free, "onu_lint", *_bytes, *_room, _size, _line)
rules = _call(_free, "onu_rules", *_bytes, ctypes.c_uint16, *_room, _size, _line)
cover = _call(_free, "onu_cover", *_bytes, *_frames, *_room, _size, _line)
differences = _call(_free, "onu_differences", *_bytes, Line, *_bytes, Line, *_frames, *_room, _size, _line)
hitless = _call(_free, "onu_hitless", *_bytes, Line, Line, *_frames, *_room, _size, _line)
expect = _call(_free, "onu_expect", *_bytes, *_bytes, Line, Line, ctypes.c_uint16, *_room, _size, _line)

_free.onu_version.argtypes = ()
_free.onu_version.restype = ctypes.c_char_p


def version() -> str:
    """The program's version, and what it was proved with."""
    said: bytes = _free.onu_version()
    return said.decode()


def in_room(call: Callable[[Any, int, Any], int], size: int) -> Tuple[int, bytes]:
    """What ``call(room, size, written)`` answers, and the text that it puts into a room: it is tried with ``size`` bytes, and once more where
    the text is longer."""
    written = ctypes.c_size_t()
    room = ctypes.create_string_buffer(size)
    number = call(room, size, written)
    if number == SMALL:
        size = written.value
        room = ctypes.create_string_buffer(size)
        number = call(room, size, written)
    return number, room.raw[: written.value]

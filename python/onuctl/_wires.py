"""Network interfaces: their sockets, and the calls of ``library/live.c`` that receive, forward and send a batch of frames each."""

import contextlib
import ctypes
import errno
import fcntl
import mmap
import os
import socket
import struct
from typing import Any, NamedTuple, Type, TypeVar

from . import _library

# The frames of a batch, and the bytes of the longest frame, both of library/live.c.
MOST = 256
LONGEST = 65600
GEM_PORTS = 65536
REASONS = 10
# Why a frame wasn't sent, beside the numbers of errno.
NO_INTERFACE = -1
NO_VID = -2

# Of Linux: <linux/if_packet.h>, <linux/if_arp.h>, <linux/if.h>, <linux/sockios.h> and <asm-generic/socket.h>.
_PACKET = 263
_ADD_MEMBERSHIP = 1
_STATISTICS = 6
_AUXDATA = 8
_IGNORE_OUTGOING = 23
_PROMISCUOUS = 1
_ALL_FRAMES = 3
_ETHERNET = 1
_UP = 1
_GET_FLAGS = 0x8913
_GET_ADDRESS = 0x8927
_BUFFER_BY_FORCE = 33
# As many bytes of frames wait in a socket's buffer where the system allows it.
_BUFFER = 1 << 25
# So long the kernel may keep a frame from leaving before that is an error.
_SENDING = struct.pack("@qq", 2, 0)

_View = TypeVar("_View", bound=ctypes.Structure)


class Refusal(Exception):
    """What is said where a unit can't be put on interfaces."""


class Verdict(ctypes.Structure):
    """What becomes of a frame, ``onu_verdict`` (``include/onu.h``)."""

    _fields_ = [
        ("gem", ctypes.c_uint16),
        ("reason", ctypes.c_uint8),
        ("count", ctypes.c_uint8),
        ("tags", ctypes.c_uint32 * 4),
        ("rest", ctypes.c_size_t),
    ]


class Frame(ctypes.Structure):
    """A frame of a batch: where it stands, how long it is, why it wasn't sent, and what becomes of it."""

    _fields_ = [("bytes", ctypes.c_void_p), ("n", ctypes.c_uint32), ("error", ctypes.c_int32), ("verdict", Verdict)]


class Batch(ctypes.Structure):
    """The front of a batch."""

    _fields_ = [
        ("count", ctypes.c_uint32),
        ("too_long", ctypes.c_uint32),
        ("own", ctypes.c_uint32),
        ("unsummed", ctypes.c_uint32),
        ("used", ctypes.c_uint32),
        ("is_prepared", ctypes.c_bool),
        ("frames", Frame * MOST),
    ]


class Pon(ctypes.Structure):
    """By which interface the frames of each GEM port leave, and what left."""

    _fields_ = [
        ("socket", ctypes.c_int32),
        ("interfaces", ctypes.c_int32 * GEM_PORTS),
        ("is_tagged", ctypes.c_uint8 * GEM_PORTS),
        ("frames", ctypes.c_uint64),
        ("bytes", ctypes.c_uint64),
        ("dropped", ctypes.c_uint64 * REASONS),
        ("first", ctypes.c_uint64 * 10 * REASONS),
        ("left", ctypes.c_uint64 * GEM_PORTS),
    ]


def _call(library: Any, name: str, result: Any, *types: Any) -> Any:
    call = _library._call(library, name, *types)
    call.restype = result
    return call


_batch = ctypes.POINTER(Batch)
_batch_size = _call(_library._free, "onu_live_batch_size", ctypes.c_size_t)
_pon_size = _call(_library._free, "onu_live_pon_size", ctypes.c_size_t)
receive = _call(_library._free, "onu_live_receive", ctypes.c_int32, ctypes.c_int32, _batch)
forward = _call(_library._locked, "onu_live_forward", None, ctypes.POINTER(_library.Cell), ctypes.c_uint16, _batch)
send = _call(_library._free, "onu_live_send", ctypes.c_uint32, ctypes.POINTER(Pon), _batch)


def _in_zeros(view: Type[_View], size: int) -> _View:
    """A struct of the library in memory of its own, all zeros."""
    return view.from_buffer(mmap.mmap(-1, size))


def new_batch() -> Batch:
    return _in_zeros(Batch, _batch_size())


def new_pon(sender: socket.socket) -> Pon:
    pon = _in_zeros(Pon, _pon_size())
    pon.socket = sender.fileno()
    return pon


class Interface(NamedTuple):
    """A network interface: its name, its number, and its address."""

    name: str
    number: int
    address: bytes


def _asked(name: str, request: int) -> bytes:
    """What Linux says of an interface, behind its name."""
    with socket.socket(socket.AF_UNIX, socket.SOCK_DGRAM) as any_socket:
        return fcntl.ioctl(any_socket, request, struct.pack("16s24x", name.encode()))[16:]


def interface_of(name: str) -> Interface:
    """The interface of a name. It must be up, and of Ethernet."""
    try:
        number = socket.if_nametoindex(name)
        (flags,) = struct.unpack_from("@H", _asked(name, _GET_FLAGS))
        kind, address = struct.unpack_from("@H6s", _asked(name, _GET_ADDRESS))
    except (OSError, ValueError, struct.error):
        raise Refusal("there is no interface '%s'" % name) from None
    if kind != _ETHERNET:
        raise Refusal("%s is no Ethernet interface" % name)
    if not flags & _UP:
        raise Refusal("%s is down: ip link set %s up" % (name, name))
    return Interface(name, number, address)


def _packet_socket() -> socket.socket:
    """A socket that reads nothing until it is bound."""
    try:
        return socket.socket(socket.AF_PACKET, socket.SOCK_RAW, 0)
    except PermissionError:
        raise Refusal(
            "packet sockets aren't allowed: run it as root, with the capability CAP_NET_RAW, or in a network namespace of your own (unshare -Urn)"
        ) from None
    except OSError as fault:
        raise Refusal("the system has no packet sockets: %s" % fault.strerror) from None


def sender() -> socket.socket:
    """A socket by which frames leave by any interface. It reads none."""
    made = _packet_socket()
    made.setsockopt(socket.SOL_SOCKET, socket.SO_SNDTIMEO, _SENDING)
    return made


def _bound(interface: Interface) -> socket.socket:
    """A socket that reads what arrives at an interface, with the tags that the kernel takes off beside it."""
    made = _packet_socket()
    made.setsockopt(_PACKET, _AUXDATA, 1)
    made.setsockopt(socket.SOL_SOCKET, socket.SO_SNDTIMEO, _SENDING)
    # Before Linux 4.20 own frames are read, and passed over.
    with contextlib.suppress(OSError):
        made.setsockopt(_PACKET, _IGNORE_OUTGOING, 1)
    try:
        made.setsockopt(socket.SOL_SOCKET, _BUFFER_BY_FORCE, _BUFFER)
    except PermissionError:
        made.setsockopt(socket.SOL_SOCKET, socket.SO_RCVBUF, _BUFFER)
    try:
        made.setsockopt(_PACKET, _ADD_MEMBERSHIP, struct.pack("@iHH8x", interface.number, _PROMISCUOUS, 0))
        made.bind((interface.name, _ALL_FRAMES))
    except OSError as fault:
        raise Refusal("%s: %s" % (interface.name, fault.strerror)) from None
    return made


class Listener:
    """What arrives at an interface: how many frames were there, how many were taken, and for how many there was no room."""

    def __init__(self, interface: Interface) -> None:
        self.interface = interface
        self.socket = _bound(interface)
        self.there = self.taken = self.without_room = 0

    def receive(self, batch: Batch) -> int:
        """Receives as many frames as are there into a batch, and returns how many there were. Raises :class:`OSError`."""
        taken: int = receive(self.socket.fileno(), batch)
        if taken in (-errno.EAGAIN, -errno.EINTR):
            return 0
        if taken < 0:
            raise OSError(-taken, os.strerror(-taken))
        self.taken += taken
        return taken

    def look(self) -> None:
        """Looks how many frames there were since the last look."""
        there, without_room = struct.unpack("@II", self.socket.getsockopt(_PACKET, _STATISTICS, 8))
        self.there += there
        self.without_room += without_room

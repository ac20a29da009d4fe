"""A unit: it answers messages and forwards frames."""

import ctypes
import enum
import json
import struct
import threading
from typing import List, NamedTuple, NoReturn, Optional, Union

from . import _library
from ._given import Bytes, bytes_of, port_of
from ._library import CLOSED, Cell
from .steps import Step, steps_of


class Reason(enum.IntEnum):
    """Why a frame is dropped, in the order in which the reasons are found (docs/RULES.md). The names and numbers are those of the crate
    frame_meaning, and ``onuctl help reasons`` says them in words."""

    RUNT = 1
    CUT_TAG = 2
    NO_RULE = 3
    RULE_DISCARD = 4
    NO_MAPPER = 5
    NULL_POINTER = 6
    NO_INTERWORK = 7
    NO_GEM = 8
    DIRECTION = 9


class Forwarded(NamedTuple):
    """A frame that leaves: the port-ID of its GEM port, and its bytes then."""

    gem: int
    frame: bytes


class Dropped(NamedTuple):
    """A frame that is dropped, and why."""

    reason: Reason


class MessageFault(Exception):
    """Bytes that are no request of the baseline message set; nothing was carried out. ``code`` is the number of the fault, and ``words`` are
    those of ``onuctl help faults``."""

    WORDS = {
        1: "the message has neither 48 bytes nor 44",
        2: "the destination bit is 1, expected 0",
        3: "the acknowledgement bit is 1, expected 0 of a request",
        4: "the device identifier isn't 10",
    }

    def __init__(self, code: int) -> None:
        super().__init__(code)
        self.code = code
        self.words = self.WORDS[code]

    def __str__(self) -> str:
        return "message fault %d: %s" % (self.code, self.words)


_DROPPED = [Dropped(reason) for reason in Reason]
_Reply = ctypes.c_char * 48
_Verdict = ctypes.c_char * _library.verdict.size
_message = _library.message
_forward = _library.forward
_numbers = _library.verdict.unpack
# The third bytes of the requests that may change a unit, whether they want an answer or not: Create, Delete, Set, Get (which latches a table), MIB
# upload (which keeps its rows) and MIB reset (ITU-T G.988, 11.2). No other request does.
_CHANGING = frozenset(answer | action for answer in (0, 0x40) for action in (4, 6, 8, 9, 13, 15))
# The bytes of so many tags.
_tags = [struct.Struct(">%dI" % count).pack for count in range(5)]


class Unit:
    """An optical network unit without any managed entity but ONU data, until messages create some.

    It holds memory until it is closed; ``with Unit() as unit`` closes it at the end. A closed unit raises :class:`ValueError`. Threads may
    share one: a call holds the interpreter's lock. A unit keeps the requests that may have changed it, so that :meth:`copy` can carry them out
    again.
    """

    __slots__ = ("_at", "_cell", "_changes", "_order")

    def __init__(self) -> None:
        self._changes: List[bytes] = []
        self._order = threading.Lock()
        self._cell = Cell()
        self._at = ctypes.byref(self._cell)
        if _library.open_cell(self._at) != 0:
            raise MemoryError("no memory for a unit")

    def message(self, message: Bytes) -> Optional[bytes]:
        """Hands the unit an OMCI message of 48 bytes, or 44 without its last four, and returns its reply, 48 bytes, or None where the
        message wants none. The request is carried out then. Raises :class:`MessageFault` where the bytes are no request."""
        if type(message) is not bytes:
            message = bytes_of("message", message)
        reply = _Reply()
        if len(message) > 2 and message[2] in _CHANGING:
            # Requests are kept in the order in which they are carried out.
            with self._order:
                number = _message(self._at, message, len(message), reply)
                if number >= 0:
                    self._changes.append(message)
        else:
            number = _message(self._at, message, len(message), reply)
        if number == 1:
            return reply.raw
        if number == 0:
            return None
        if number == CLOSED:
            self._refuse()
        raise MessageFault(-number)

    def forward(self, port: int, frame: Bytes) -> Union[Forwarded, Dropped]:
        """Sends an Ethernet frame, from its destination address on and without a frame check sequence, into a port, and returns what
        becomes of it."""
        if type(port) is not int or not 0 <= port <= 0xFFFF:
            port = port_of(port)
        if type(frame) is not bytes:
            frame = bytes_of("frame", frame)
        said = _Verdict()
        number = _forward(self._at, port, frame, len(frame), said)
        if number == 1:
            numbers = _numbers(said)
            count = numbers[2]
            return Forwarded(numbers[0], frame[:12] + _tags[count](*numbers[3 : 3 + count]) + frame[numbers[7] :])
        if number == 0:
            reason: int = _numbers(said)[1]
            return _DROPPED[reason - 1]
        self._refuse()

    def explain(self, port: int, frame: Bytes) -> List[Step]:
        """Why a frame that is sent into a port goes where it goes: the ``steps`` that ``onuctl explain --json`` writes (docs/FORMATS.md), each of
        its class in :mod:`onuctl.steps`. The last step is the verdict. Nothing changes."""
        number, sent = port_of(port), bytes_of("frame", frame)
        answer, text = _library.in_room(lambda *room: _library.explain(self._at, number, sent, len(sent), *room), 16384)
        if answer == CLOSED:
            self._refuse()
        if answer != 0:
            raise MemoryError("no memory for an explanation")
        return steps_of(json.loads(text)["steps"])

    def copy(self) -> "Unit":
        """Another unit in the same state: entities with the MIB data sync, the table that a Get latched, and the rows of the last MIB upload. From
        then on each goes its own way. The requests that may have changed this unit are carried out again, so a copy takes as long as they did."""
        with self._order:
            changes = self._changes[:]
            is_closed = _library.message(self._at, b"", 0, _Reply()) == CLOSED
        if is_closed:
            self._refuse()
        other = Unit()
        for request in changes:
            other.message(request)
        return other

    def close(self) -> None:
        """Gives the unit's memory back. A closed unit stays closed."""
        with self._order:
            self._changes.clear()
            _library.close_cell(self._at)

    def __enter__(self) -> "Unit":
        return self

    def __exit__(self, *exception: object) -> None:
        self.close()

    def __del__(self) -> None:
        if hasattr(self, "_at"):
            self.close()

    def __reduce__(self) -> NoReturn:
        raise TypeError("a unit can't be pickled, nor copied but by its copy()")

    @staticmethod
    def _refuse() -> NoReturn:
        raise ValueError("the unit is closed")

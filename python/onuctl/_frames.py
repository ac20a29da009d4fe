"""Every frame: which classes of frames there are after a trace, what a change does to them, and whether they end as is expected."""

import json
from dataclasses import dataclass
from typing import Any, Callable, Dict, List, Literal, Optional, Union

from . import _library
from ._given import Bytes, least_of, line_of, port_of, text_of
from ._library import AT_END, BACKWARD, BAD_AFTER, BAD_LINE, NO_MEMORY, in_room
from ._scripts import mistakes_of
from ._texts import BadLine
from ._unit import Dropped, Forwarded, Reason

# What a port's table uses for a frame: nothing, since the frame can't be read or the port has no table in force; an entry; or no entry,
# since none matches.
Use = Literal["unread", "no-table", "entry", "no-entry"]


class BadAfter(BadLine):
    """A line of the trace after a change is bad. ``line`` is its number, from 1."""

    def __str__(self) -> str:
        return "line %d of the trace after is bad" % self.line


@dataclass(frozen=True)
class FrameClass:
    """A class of the frames that come in at a port, with a frame that has it: what the port's table uses for them, and how they end."""

    port: int
    use: Use
    #: The number of the entry that is used, as ``rules`` numbers it, or None where none is.
    entry: Optional[int]
    #: The port-ID of the GEM port by which they leave, or None where they are dropped.
    gem: Optional[int]
    #: Why they are dropped, or None where they leave.
    reason: Optional[Reason]
    #: A frame of the class.
    frame: bytes


@dataclass(frozen=True)
class Fate:
    """What becomes of a frame by one configuration: what the port's table uses for it, and whether it leaves or is dropped."""

    use: Use
    #: The number of the entry that is used, as ``rules`` numbers it, or None where none is.
    entry: Optional[int]
    verdict: Union[Forwarded, Dropped]

    def __str__(self) -> str:
        """As the program writes it: ``entry 0 g 1024 0200..``, ``no-table d 5``."""
        use = self.use if self.entry is None else "entry %d" % self.entry
        if isinstance(self.verdict, Dropped):
            return "%s d %d" % (use, self.verdict.reason)
        return "%s g %d %s" % (use, self.verdict.gem, self.verdict.frame.hex())


@dataclass(frozen=True)
class Difference:
    """A frame that two configurations treat differently, and what becomes of it by each."""

    port: int
    frame: bytes
    before: Fate
    after: Fate


@dataclass(frozen=True)
class Tear:
    """A frame for which a moment of a change is torn, and what becomes of it as the change begins, then, and as it ends."""

    #: How many requests were accepted by then.
    version: int
    #: The number, from 1, of the line whose message made the moment.
    line: int
    port: int
    frame: bytes
    before: Fate
    here: Fate
    after: Fate


@dataclass(frozen=True)
class Outcome:
    """How an expectation fares after a trace: it holds; a frame fails it, which is shown with what becomes of it; or it is void, since it admits no
    frame."""

    #: The number, from 1, of the line that says the expectation.
    line: int
    #: The port at which the frames come in of which it speaks.
    port: int
    outcome: Literal["holds", "fails", "void"]
    #: By which version it doesn't hold, how many requests were accepted by then, and the number of the line whose message made that; None where it
    #: holds, or where the last version alone was looked at.
    version: Optional[int]
    trace_line: Optional[int]
    #: A frame that fails it, and what becomes of that; or None.
    frame: Optional[bytes]
    here: Optional[Fate]

    @property
    def holds(self) -> bool:
        """Whether some frame is as the expectation says, and each such frame ends and leaves so."""
        return self.outcome == "holds"

    def __str__(self) -> str:
        """As the program writes it, of one that fails on two lines."""
        if self.holds:
            return "line %d holds" % self.line
        at = "" if self.version is None else " at version %d trace line %d" % (self.version, self.trace_line or 0)
        if self.frame is None:
            return "line %d admits no frame%s" % (self.line, at)
        return "line %d fails%s: frame %s\n  %s" % (self.line, at, self.frame.hex(), self.here)


def _class_of(found: Dict[str, Any]) -> FrameClass:
    reason = Reason(found["reason"]) if "reason" in found else None
    return FrameClass(found["port"], found["use"], found.get("entry"), found.get("gem"), reason, bytes.fromhex(found["frame"]))


def _fate_of(found: Dict[str, Any]) -> Fate:
    verdict: Union[Forwarded, Dropped]
    if "gem" in found:
        verdict = Forwarded(found["gem"], bytes.fromhex(found["frame"]))
    else:
        verdict = Dropped(Reason(found["reason"]))
    return Fate(found["use"], found.get("entry"), verdict)


def _difference_of(found: Dict[str, Any]) -> Difference:
    return Difference(found["port"], bytes.fromhex(found["frame"]), _fate_of(found["before"]), _fate_of(found["after"]))


def _tear_of(found: Dict[str, Any]) -> Tear:
    before, here, after = (_fate_of(found[key]) for key in ("before", "here", "after"))
    return Tear(found["version"], found["line"], found["port"], bytes.fromhex(found["frame"]), before, here, after)


def _outcome_of(found: Dict[str, Any]) -> Outcome:
    frame = bytes.fromhex(found["frame"]) if "frame" in found else None
    here = _fate_of(found["here"]) if "here" in found else None
    return Outcome(found["line"], found["port"], found["outcome"], found.get("version"), found.get("trace_line"), frame, here)


def _port(given: Optional[int]) -> Optional[_library.Port]:
    """A port as it is passed to the library, or None for each port."""
    return None if given is None else _library.Port(port_of(given))


def _line(name: str, given: Optional[int]) -> int:
    """A line as it is passed to the library; without one the trace is read to its end."""
    return AT_END if given is None else line_of(name, given)


def _found(call: Callable[..., int], key: str) -> List[Dict[str, Any]]:
    """What a call finds of every frame, under a key of its object."""
    line = _library.Line()
    number, text = in_room(lambda *room: call(*room, line), 1 << 18)
    if number == NO_MEMORY:
        raise MemoryError("no memory for what is found of every frame")
    if number == BACKWARD:
        raise ValueError("from_line is behind until_line")
    if number == BAD_AFTER:
        raise BadAfter(line.value)
    if number == BAD_LINE:
        raise BadLine(line.value)
    # Expectations alone have mistakes.
    if number == 2:
        raise mistakes_of(text)
    found: List[Dict[str, Any]] = json.loads(text)[key]
    return found


def cover(trace: Union[Bytes, str], *, port: Optional[int] = None, least: int = 0) -> List[FrameClass]:
    """Each class of the frames that come in after a trace, once, with a frame that has it, as ``onuctl cover`` lists them (docs/FORMATS.md,
    "Frames that a test must send").

    Every frame of at least ``least`` bytes counts. Without ``port`` the classes are those of each port that a managed entity names. Raises
    :class:`BadLine`."""
    text, at, size = text_of("trace", trace), _port(port), least_of(least)
    return [*map(_class_of, _found(lambda *room: _library.cover(text, len(text), at, size, *room), "classes"))]


def differences(
    before: Union[Bytes, str],
    after: Union[Bytes, str, None] = None,
    *,
    from_line: Optional[int] = None,
    until_line: Optional[int] = None,
    port: Optional[int] = None,
    least: int = 0,
) -> List[Difference]:
    """The frames that two configurations treat differently, of every frame, one for each way, as ``onuctl diff`` lists them (docs/FORMATS.md,
    "What a change does to frames"). Where the list is empty every frame of at least ``least`` bytes is treated alike.

    ``before`` is a trace, which is read up to ``from_line``, or 0 for the opening state. ``after`` is another, which is read up to ``until_line``.
    Without ``after`` the configurations are those of the one trace behind both lines, and ``from_line`` is needed. Without ``port`` every port
    is looked at. Raises :class:`BadLine` for a line of ``before``, and :class:`BadAfter` for one of ``after``."""
    if after is None and from_line is None:
        raise TypeError("differences needs after or from_line")
    text, at, size = text_of("before", before), _port(port), least_of(least)
    other = None if after is None else text_of("after", after)
    begin, end = _line("from_line", from_line), _line("until_line", until_line)
    sides = (text, len(text), begin, other, len(other or b""), end)
    return [*map(_difference_of, _found(lambda *room: _library.differences(*sides, at, size, *room), "differences"))]


def hitless(
    trace: Union[Bytes, str],
    from_line: int,
    *,
    until_line: Optional[int] = None,
    port: Optional[int] = None,
    least: int = 0,
) -> List[Tear]:
    """The frames for which a moment of a change is torn, of every frame, moment by moment, as ``onuctl hitless`` lists them (docs/FORMATS.md,
    "What a change does to frames"). Where the list is empty the change is hitless.

    The change is that from ``from_line`` of the trace, 0 for the first, to ``until_line``, or to its end. A moment between is torn for a frame that
    leaves there as neither before nor after, or is dropped there alone. Without ``port`` each port is looked at that a managed entity names at
    some moment. Raises :class:`BadLine`."""
    text, at, size = text_of("trace", trace), _port(port), least_of(least)
    begin, end = line_of("from_line", from_line), _line("until_line", until_line)
    return [*map(_tear_of, _found(lambda *room: _library.hitless(text, len(text), begin, end, at, size, *room), "torn"))]


def expect(
    trace: Union[Bytes, str],
    expectations: Union[Bytes, str],
    *,
    from_line: Optional[int] = None,
    until_line: Optional[int] = None,
    least: int = 0,
) -> List[Outcome]:
    """How expectations fare after a trace, of every frame, in their order, as ``onuctl expect`` finds it (docs/FORMATS.md, "Expectations"). Where
    :attr:`Outcome.holds` is true of each, all frames of at least ``least`` bytes end and leave as is expected.

    ``trace`` is a script, which is read up to ``until_line``, or to its end. ``expectations`` are words, a line each. With ``from_line``, or 0 for the
    opening state, each has to hold behind that line, and by each version from there on; without it by the last version alone. Raises
    :class:`Mistakes`, with all mistakes of the expectations, and :class:`BadLine` for a line of the trace."""
    text, words, size = text_of("trace", trace), text_of("expectations", expectations), least_of(least)
    begin, end = _line("from_line", from_line), _line("until_line", until_line)
    asked = (text, len(text), words, len(words), begin, end, size)
    return [*map(_outcome_of, _found(lambda *room: _library.expect(*asked, *room), "expectations"))]

"""What is sent to a unit under test and seen of it, recorded as a history."""

import threading
from pathlib import Path
from typing import Any, Dict, List, Optional, Union

from ._given import Bytes, bytes_of, port_of
from ._unit import Dropped, Forwarded


class Recording:
    """A history that is recorded event by event (docs/FORMATS.md, "Histories").

    Record a message and a frame before they are sent, and all else once it was seen: the judge takes the order of the events for that in time.
    Several threads may record.
    """

    def __init__(self, path: Path) -> None:
        #: Where the history is written.
        self.path = path
        #: How it is judged, beside the settings of all: keywords of :func:`onuctl.judge`.
        self.settings: Dict[str, Any] = {}
        self._lines: List[str] = []
        self._frames = 0
        self._order = threading.Lock()

    def _add(self, line: str) -> None:
        with self._order:
            self._lines.append(line)

    def message(self, message: Bytes) -> None:
        """This message is sent to the unit."""
        self._add("o %s" % bytes_of("message", message).hex())

    def reply(self, reply: Bytes) -> None:
        """This reply was seen."""
        self._add("r %s" % bytes_of("reply", reply).hex())

    def frame(self, port: int, frame: Bytes) -> int:
        """This frame is sent into a port. Returns its number."""
        line = "f %d %s" % (port_of(port), bytes_of("frame", frame).hex())
        with self._order:
            self._lines.append(line)
            self._frames += 1
            return self._frames - 1

    def left(self, number: int, gem: Optional[int], frame: Bytes) -> None:
        """The frame of this number was seen to leave by a GEM port, None where that isn't seen, with these bytes."""
        self._add("g %d %s %s" % (number, "any" if gem is None else gem, bytes_of("frame", frame).hex()))

    def stray(self, gem: Optional[int], frame: Bytes) -> None:
        """A frame was seen to leave that no frame can be."""
        self._add("s %s %s" % ("any" if gem is None else gem, bytes_of("frame", frame).hex()))

    def dropped(self, number: int) -> None:
        """The frame of this number is known to have been dropped."""
        self._add("d %d" % number)

    def lost(self, number: int) -> None:
        """The frame of this number wasn't seen to leave while it was waited for."""
        self._add("l %d" % number)

    def in_force(self, reply: Optional[int] = None) -> None:
        """What the unit was sent up to a reply, the first being 1, is in force for every frame that is sent later; without a number up to the last."""
        self._add("w" if reply is None else "w %d" % reply)

    def watch(self, unit: Any) -> "Watched":
        """A unit under test whose messages and frames are recorded. It has the calls ``message`` and ``forward`` of :class:`onuctl.Unit`."""
        return Watched(unit, self)

    def write(self) -> bytes:
        """Writes the history with its end line, and returns it."""
        with self._order:
            text = "".join(line + "\n" for line in [*self._lines, "e"]).encode()
        self.path.write_bytes(text)
        return text


class Watched:
    """A unit under test, of which all is recorded."""

    def __init__(self, unit: Any, recording: Recording) -> None:
        self._unit, self._recording = unit, recording

    def message(self, message: Bytes) -> Optional[bytes]:
        """Hands the unit a message, and returns its reply, or None where it gives none."""
        self._recording.message(message)
        reply: Optional[bytes] = self._unit.message(message)
        if reply is not None:
            self._recording.reply(reply)
        return reply

    def forward(self, port: int, frame: Bytes) -> Union[Forwarded, Dropped]:
        """Sends a frame into a port, and returns what becomes of it."""
        number = self._recording.frame(port, frame)
        what: Union[Forwarded, Dropped] = self._unit.forward(port, frame)
        if isinstance(what, Forwarded):
            self._recording.left(number, what.gem, what.frame)
        else:
            self._recording.dropped(number)
        return what

"""What the lines of a history say, counted and numbered for a page: its messages, its frames and their windows (docs/FORMATS.md, "Histories")."""

import re
from collections import Counter, deque
from typing import Any, Deque, Dict, Iterable, List, NamedTuple, Optional, Set, Tuple

from ._texts import replay

# A request wants an answer where this bit of its third byte is set (ITU-T G.988, 11.2), and these actions may be accepted: Create, Delete, Set
# and MIB reset.
WANTS_ANSWER = 0x40
_ACTION = 0x1F
_ACCEPTED = frozenset((4, 6, 8, 15))
# A reply has so many digits: with its trailer, or without its last four bytes.
_REPLIES = (96, 88)
# A frame of which fewer digits are known than these has too short a front to be judged.
_JUDGED = 48
_SEEN_AT = re.compile(rb"# (.*) record ([0-9]+) ([0-9]+(?:\.[0-9]+)?) s")


class Request(NamedTuple):
    """A request that was carried out: its line in the text that it stands in, whether that is the script before the history, its bytes, the head of its
    reply, and how many requests were accepted by then, those of that script aside."""

    line: int
    is_of_start: bool
    message: bytes
    head: bytes
    accepted: int
    is_accepted: bool
    wants_answer: bool


class Reply(NamedTuple):
    """What a reply stands for: the request that it answers, by its place among all, or None; and how many before it got no reply."""

    request: Optional[int]
    passed_over: int


class Frames:
    """The frames that were sent, each by its number: its port, its line, and the least version that it may have; and its end, ``g``, ``d`` or ``l``, with
    the line that says so and the greatest version then. Frames with too short a front to be judged are open."""

    def __init__(self, sent_at: List[int]) -> None:
        self.sent_at = sent_at
        self.ports: List[int] = []
        self.at_least: List[int] = []
        self.ends = [""] * len(sent_at)
        self.ended_at = [0] * len(sent_at)
        self.at_most = [0] * len(sent_at)
        self.unjudged: Set[int] = set()

    def __len__(self) -> int:
        return len(self.sent_at)

    def ended(self, numbers: Iterable[int]) -> List[int]:
        """Those of some frames that have an end and are judged."""
        ends, unjudged = self.ends, self.unjudged
        if unjudged:
            return [number for number in numbers if ends[number] and number not in unjudged]
        return [number for number in numbers if ends[number]]


class Seen(NamedTuple):
    """Where an event was seen: the name of a capture, the number of a record in it, and its time in seconds."""

    name: str
    record: str
    time: str


def shown(name: bytes) -> str:
    """Bytes as a page shows them: what isn't UTF-8 and what controls the writing is replaced."""
    return _CONTROL.sub("\ufffd", name.decode("utf-8", "replace"))


# Characters of control, and those that turn the direction of writing around.
_CONTROL = re.compile("[\x00-\x08\x0b-\x1f\x7f-\x9f\u2028-\u202e\u2066-\u2069\ufeff]")


def _head(line: bytes) -> bytes:
    """The head of a reply, by its line: its identifier, action, class and instance. One that isn't as long as a reply has none."""
    return line[2:18].lower() if len(line) - 2 in _REPLIES else b""


def _lines(text: bytes) -> List[bytes]:
    """The lines of a text, without their ends."""
    lines = text.split(b"\n")
    if not lines[-1]:
        lines.pop()
    return [line[:-1] if line.endswith(b"\r") else line for line in lines] if b"\r" in text else lines


class History:
    """A history, read once, behind the messages of a script."""

    def __init__(self, text: bytes, start: bytes = b"", has_repeats: bool = False) -> None:
        self.lines = _lines(text)
        self._kinds = [line[:1] for line in self.lines]
        self.frames = Frames([number for number, kind in enumerate(self._kinds, 1) if kind == b"f"])
        self.replies: Dict[int, Reply] = {}
        self.counts: Dict[str, int] = dict.fromkeys(("messages", "replies", "strays", "doubtful", "cut"), 0)
        self.has_end = False
        self.requests: List[Request] = []
        self._made_by: Dict[int, int] = {}
        self._carried: Set[int] = set()
        self._doubtful: Set[int] = set()
        self._start = _lines(start)
        self._carry_out(has_repeats)
        if b".." in text:
            self._find_fronts()
        self._read()

    @property
    def start_lines(self) -> int:
        """How many lines the script before has."""
        return len(self._start)

    def _asked(self, has_repeats: bool) -> List[Tuple[int, bool, bytes]]:
        """The messages that are carried out: of each its line, whether it is of the script before, and its digits."""
        asked = [(number, True, digits) for number, digits in _messages(self._start, [line[:1] for line in self._start])]
        before = None
        for number, digits in _messages(self.lines, self._kinds):
            if not (has_repeats and digits == before):
                asked.append((number, False, digits))
            before = digits
        return asked

    def _carry_out(self, has_repeats: bool) -> None:
        """Notes which requests are accepted. Each is asked for an answer, which tells it."""
        asked = self._asked(has_repeats)
        # The library's own unit says what each is answered.
        script = b"\n".join(b"o " + _with_answer(digits) for _, _, digits in asked)
        self._carried.update(number for number, is_of_start, _ in asked if not is_of_start)
        accepted = 0
        for (number, is_of_start, digits), answer in zip(asked, replay(script).split(b"\n")):
            if answer[:2] != b"r ":
                continue
            is_accepted = int(digits[4:6], 16) & _ACTION in _ACCEPTED and answer[18:20] == b"00"
            accepted += is_accepted and not is_of_start
            wants_answer = bool(int(digits[4:6], 16) & WANTS_ANSWER)
            if is_accepted and not is_of_start:
                self._made_by[accepted] = len(self.requests)
            self.requests.append(Request(number, is_of_start, bytes.fromhex(digits.decode()), _head(answer), accepted, is_accepted, wants_answer))
        self.accepted = accepted

    def _read(self) -> None:
        """Goes along the lines. Those of frames are most of them, so they are taken here."""
        reader, frames = _Reader(self), self.frames
        ports, at_least, ends, ended_at, at_most = frames.ports, frames.at_least, frames.ends, frames.ended_at, frames.at_most
        waited = accepted = 0
        for number, (kind, line) in enumerate(zip(self._kinds, self.lines), 1):
            if kind == b"f":
                ports.append(int(line[2 : line.index(b" ", 2)]))
                at_least.append(waited)
            elif kind == b"g":
                frame = int(line[2 : line.index(b" ", 2)])
                ends[frame], ended_at[frame], at_most[frame] = "g", number, accepted
            elif kind in _TAKEN:
                _TAKEN[kind](reader, number, line)
                waited, accepted = reader.waited, reader.accepted
        self.counts["doubtful"] = len(self._doubtful)

    def _find_fronts(self) -> None:
        """Notes of which frames a front is known, and which fronts are too short."""
        for number, line in enumerate(self.frames.sent_at):
            digits = self.lines[line - 1].rpartition(b" ")[2]
            if digits.endswith(b".."):
                self.counts["cut"] += 1
                if len(digits) - 2 < _JUDGED:
                    self.frames.unjudged.add(number)

    def name_doubtful(self, numbers: List[int]) -> None:
        self._doubtful.update(numbers)

    def ends(self) -> Dict[str, int]:
        """How many frames have each end, and how many have none or aren't judged."""
        counted = Counter(self.frames.ends[number] for number in self.frames.ended(range(len(self.frames))))
        return {**{name: counted[end] for end, name in _ENDS.items()}, "open": len(self.frames) - sum(counted.values())}

    def remarks_at_the_head(self) -> List[str]:
        """The remarks above the first event that don't say where that was seen."""
        found = []
        for line in self.lines:
            if line and not line.startswith(b"#"):
                break
            if line.startswith(b"#") and not _SEEN_AT.fullmatch(line):
                found.append(shown(line[1:]).strip())
        return found

    def above(self, number: int) -> List[bytes]:
        """The remarks directly above a line, given by its number."""
        first = number - 1
        while first > 0 and self.lines[first - 1].startswith(b"#"):
            first -= 1
        return self.lines[first : number - 1]

    def seen_at(self, number: int) -> Optional[Seen]:
        """Where the event of a line was seen, as the remark directly above it says."""
        found = _SEEN_AT.fullmatch((self.above(number) or [b""])[-1])
        return Seen(shown(found[1]), found[2].decode(), found[3].decode()) if found else None

    def remarks(self, number: int) -> List[str]:
        """The remarks directly above a line that say something else."""
        return [shown(line[1:]).strip() for line in self.above(number) if not _SEEN_AT.fullmatch(line)]

    def trace(self) -> List[bytes]:
        """The messages that were carried out as lines of a script: those of the script before, and then the history with all else empty."""
        lines = [b""] * len(self.lines)
        for number in self._carried:
            lines[number - 1] = self.lines[number - 1]
        return [line if line[:2] == b"o " else b"" for line in self._start] + lines

    def request_of(self, version: int) -> Optional[int]:
        """The place of the request that made a version, from 1 on."""
        return self._made_by.get(version)


def _messages(lines: List[bytes], kinds: List[bytes]) -> List[Tuple[int, bytes]]:
    """The digits of the messages that stand in lines, which begin with these bytes, each with the number of its line."""
    return [(number, lines[number - 1][2:].lower()) for number, kind in enumerate(kinds, 1) if kind == b"o"]


def _with_answer(digits: bytes) -> bytes:
    """A message that wants an answer, and is else as it was."""
    if len(digits) < 6:
        return digits
    return b"%s%02x%s" % (digits[:4], int(digits[4:6], 16) | WANTS_ANSWER, digits[6:])


_ENDS = {"g": "forwarded", "d": "dropped", "l": "lost"}


class _Reader:
    """What is known at a line of a history: how many requests are accepted, which of them wait for their replies, and what is waited for.

    A reply answers the first request that waits and has its head: a right one is the next request's. One with the head of a request before stands for
    nothing, and any other is the next request's (docs/FORMATS.md, "Every deviation")."""

    def __init__(self, history: History) -> None:
        self.history, self.frames = history, history.frames
        self.accepted = 0
        self.covered: List[int] = []
        self.waited = 0
        self.wanting = [place for place, each in enumerate(history.requests) if each.wants_answer and not each.is_of_start]
        self.heads: Dict[bytes, Deque[int]] = {}
        self.before = {each.head for each in history.requests if each.is_of_start and each.wants_answer}
        self.sent = self.next = 0
        self.requests = {each.line: each for each in history.requests if not each.is_of_start}

    def message(self, number: int, _: bytes) -> None:
        self.history.counts["messages"] += 1
        request = self.requests.get(number)
        if request is None:
            return
        self.accepted = request.accepted
        if request.wants_answer:
            self.heads.setdefault(request.head, deque()).append(self.sent)
            self.sent += 1

    def _answered(self, head: bytes) -> Optional[int]:
        """The place among the requests that want an answer of the one that a reply answers, or None."""
        waiting = self.heads.get(head, deque())
        while waiting and waiting[0] < self.next:
            waiting.popleft()
        if waiting:
            return waiting[0]
        return self.next if head not in self.heads and head not in self.before and self.next < self.sent else None

    def reply(self, number: int, line: bytes) -> None:
        history = self.history
        history.counts["replies"] += 1
        at = self._answered(_head(line))
        reached = self.covered[-1] if self.covered else 0
        if at is None:
            history.replies[number] = Reply(None, 0)
        else:
            history.replies[number] = Reply(self.wanting[at], at - self.next)
            reached = history.requests[self.wanting[at]].accepted
            self.next = at + 1
        self.covered.append(reached)

    def wait(self, _: int, line: bytes) -> None:
        replies = int(line[2:] or len(self.covered))
        if replies:
            self.waited = max(self.waited, self.covered[replies - 1])

    def end(self, at: int, line: bytes) -> None:
        frames, number = self.frames, int(line[2:])
        frames.ends[number], frames.ended_at[number], frames.at_most[number] = line[:1].decode(), at, self.accepted

    def doubt(self, _: int, line: bytes) -> None:
        self.history.name_doubtful([int(each) for each in line.split(b" ")[3:]])

    def stray(self, _: int, __: bytes) -> None:
        self.history.counts["strays"] += 1

    def over(self, _: int, __: bytes) -> None:
        self.history.has_end = True


_TAKEN: Dict[bytes, Any] = {
    b"o": _Reader.message,
    b"r": _Reader.reply,
    b"w": _Reader.wait,
    b"d": _Reader.end,
    b"l": _Reader.end,
    b"a": _Reader.doubt,
    b"s": _Reader.stray,
    b"e": _Reader.over,
}

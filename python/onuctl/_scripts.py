"""Scripts: made of words, decoded, and what their messages leave."""

import json
import operator
import re
from dataclasses import dataclass
from typing import Any, Callable, Dict, List, Literal, NamedTuple, Optional, Union

from . import _library
from ._given import Bytes, port_of, text_of
from ._library import BAD_LINE, NO_MEMORY, in_room
from ._texts import BadLine


class Mistake(NamedTuple):
    """What is wrong in a text: the number of its line and of its column, from 1, and what was found there and what is allowed."""

    line: int
    column: int
    reason: str

    def __str__(self) -> str:
        return "line %d, column %d: %s" % self


class Mistakes(BadLine):
    """A text has mistakes. ``mistakes`` has them in order; ``line``, ``column`` and ``reason`` are those of the first."""

    def __init__(self, mistakes: List[Mistake]) -> None:
        super().__init__(mistakes[0].line)
        self.args = (mistakes,)
        self.mistakes = mistakes
        self.column = mistakes[0].column
        self.reason = mistakes[0].reason

    def __str__(self) -> str:
        return "\n".join(map(str, self.mistakes))


_MISTAKE = re.compile(r"^line (\d+), column (\d+): (.*)$", re.MULTILINE)


def mistakes_of(told: bytes) -> Mistakes:
    """The mistakes that a call tells, a line each. They are UTF-8, but for what is shown of a text, which may hold any bytes."""
    return Mistakes([Mistake(int(line), int(column), reason) for line, column, reason in _MISTAKE.findall(told.decode(errors="replace"))])


def _made(call: Callable[..., int], size: int, what: str) -> str:
    """What a call makes of a text. It is UTF-8, but for remarks, which may hold any bytes."""
    number, made = in_room(call, size)
    if number == NO_MEMORY:
        raise MemoryError("no memory for %s" % what)
    if number == 1:
        raise mistakes_of(made)
    return made.decode(errors="replace")


def encode(words: Union[Bytes, str], *, identifier: int = 1) -> str:
    """The script of a text in words (docs/WORDS.md), as ``onuctl encode`` gives it. Each line of the text is one of the
    script. The transaction correlation identifiers of its messages count from ``identifier``. Raises :class:`Mistakes`."""
    text = text_of("words", words)
    try:
        first = operator.index(identifier)
    except TypeError:
        raise TypeError("identifier must be an int, not %s" % type(identifier).__name__) from None
    if not 0 <= first <= 0xFFFF:
        raise ValueError("an identifier is a number from 0 to 65535, not %d" % first)
    return _made(lambda *room: _library.encode(text, len(text), first, *room), 4 * len(text) + 1024, "a script")


def decode(script: Union[Bytes, str]) -> List[Dict[str, Any]]:
    """What each line of a script or of its answers means: the objects that ``onuctl decode --json`` writes (docs/FORMATS.md). Raises
    :class:`Mistakes` where a line is bad."""
    text = text_of("script", script)
    said = _made(lambda *room: _library.decode(text, len(text), *room), 16 * len(text) + 1024, "what a script means")
    return [json.loads(line) for line in said.split("\n") if line]


def _shown(call: Callable[..., int]) -> Dict[str, Any]:
    """What a call shows after a trace."""
    line = _library.Line()
    number, text = in_room(lambda *room: call(*room, line), 16384)
    if number == NO_MEMORY:
        raise MemoryError("no memory for what a trace leaves")
    if number == BAD_LINE:
        raise BadLine(line.value)
    shown: Dict[str, Any] = json.loads(text)
    return shown


def mib(trace: Union[Bytes, str]) -> Dict[str, Any]:
    """The managed entities after the messages of a trace, as ``onuctl mib --json`` writes them (docs/FORMATS.md). A trace is a script.
    Its frames are passed over, and so are messages that have a fault or are refused: :func:`lint` says which. Raises :class:`BadLine`."""
    text = text_of("trace", trace)
    return _shown(lambda *room: _library.mib(text, len(text), *room))


@dataclass(frozen=True)
class LintFinding:
    """What is wrong after a trace, or has no effect: with one of the managed entities, with a line of the trace, or with the whole of it."""

    severity: Literal["note", "warning", "error"]
    #: The kind, one of those that ``onuctl help findings`` lists, and a sentence that says it.
    kind: str
    words: str
    #: The number of the line of the trace, from 1, or None of an entity or of the whole trace.
    line: Optional[int]
    #: The class and the instance of the entity, or those that the message of the line names; None where there are none.
    entity_class: Optional[int]
    instance: Optional[int]
    #: The object that ``onuctl lint --json`` writes, with the numbers that the finding names (docs/FORMATS.md).
    details: Dict[str, Any]

    def __str__(self) -> str:
        """As the program writes it: ``error mapper 0x0601 null-pointer: ..``, ``error line 15 message-refused: ..``."""
        if self.line is not None:
            where = "line %d" % self.line
        elif self.instance is None:
            where = "trace"
        else:
            where = "%s 0x%04x" % (_CLASSES.get(self.entity_class or 0, "class %s" % self.entity_class), self.instance)
        return "%s %s %s: %s" % (self.severity, where, self.kind, self.words)


# The words for the classes whose instances are looked at.
_CLASSES = {130: "mapper", 171: "vlan", 266: "interwork", 268: "gem-port"}


def findings_of(trace: Union[Bytes, str]) -> List[Dict[str, Any]]:
    """The ``findings`` that ``onuctl lint --json`` writes of a trace. Raises :class:`BadLine`."""
    text = text_of("trace", trace)
    found: List[Dict[str, Any]] = _shown(lambda *room: _library.lint(text, len(text), *room))["findings"]
    return found


def _finding(found: Dict[str, Any]) -> LintFinding:
    return LintFinding(found["severity"], found["kind"], found["words"], found.get("line"), found.get("class"), found.get("instance"), found)


def lint(trace: Union[Bytes, str]) -> List[LintFinding]:
    """What is wrong with the managed entities after a trace, and which of its messages have a fault or are refused, in the order of ``onuctl lint``.
    Raises :class:`BadLine`."""
    return [_finding(found) for found in findings_of(trace)]


def rules(trace: Union[Bytes, str], port: int) -> Dict[str, Any]:
    """The VLAN tagging table that is in force at a port after a trace, as ``onuctl rules --json`` writes it (docs/FORMATS.md). Raises
    :class:`BadLine`."""
    text, number = text_of("trace", trace), port_of(port)
    return _shown(lambda *room: _library.rules(text, len(text), number, *room))

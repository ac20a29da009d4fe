"""Whole texts: a script and its answers, a history and its judgement."""

import json
from typing import Any, Dict, List, NamedTuple, Optional, Sequence, Union

from . import _library
from ._given import Bytes, least_of, most_of, text_of
from ._library import BAD_LINE, BAD_START, NO_MEMORY, Line, in_room


class BadLine(Exception):
    """A line of a text is bad. ``line`` is its number, from 1; of a script, ``answers`` are those to the lines before it."""

    def __init__(self, line: int, answers: bytes = b"") -> None:
        super().__init__(line, answers)
        self.line = line
        self.answers = answers

    def __str__(self) -> str:
        return "line %d is bad" % self.line


class BadStart(BadLine):
    """A line of the script that was carried out before a history is bad. ``line`` is its number, from 1."""

    def __str__(self) -> str:
        return "start line %d is bad" % self.line


class Finding(NamedTuple):
    """What a history shows: whether a right unit may have behaved so, which is said of a history with an end line, of which something was
    judged; if not, the first line that no right unit explains, or None where each line is explained; and all of it, as
    ``onuctl judge --json`` writes it (docs/FORMATS.md)."""

    explained: bool
    line: Optional[int]
    details: Dict[str, Any]

    @property
    def deviations(self) -> List[Dict[str, Any]]:
        """The lines that no right unit explains: as many as were asked for, each an object with ``line`` and what is wrong there; or the first
        alone. ``details["more"]`` says whether there are others, where they were asked for."""
        if self.line is None:
            return []
        listed: List[Dict[str, Any]] = self.details.get("deviations", [self.details])
        return listed

    @property
    def coverage(self) -> Optional[List[Dict[str, Any]]]:
        """Which classes of frames were tried, where that was asked for and the history is explained: an object for each stretch of versions at a
        port, with ``classes``, how many frames can have there, ``seen``, and of each that no frame has an object in ``unseen`` with a ``frame``."""
        return self.details.get("coverage")

    def __str__(self) -> str:
        if self.explained:
            return "explained"
        if self.line is None:
            wanting = (("finished", "no end line"), ("evidence", "nothing was judged"))
            return "explained so far: " + ", ".join(words for key, words in wanting if not self.details[key])
        return "deviation at line %s: %s" % (self.line, json.dumps(self.details))


def replay(script: Union[Bytes, str]) -> bytes:
    """The answers to a script, line by line, from a unit of its own, as ``onuctl replay`` gives them. Raises :class:`BadLine`."""
    text = text_of("script", script)
    line = Line()
    number, answers = in_room(lambda *room: _library.replay(text, len(text), *room, line), 3 * len(text) + 1)
    if number == NO_MEMORY:
        raise MemoryError("no memory for a replay")
    if number == BAD_LINE:
        raise BadLine(line.value, answers)
    return answers


def judge(
    history: Union[Bytes, str],
    *,
    start: Union[Bytes, str, None] = None,
    modelled: bool = False,
    unordered: bool = False,
    allow_strays: bool = False,
    padded: bool = False,
    allow_unfinished: bool = False,
    repeats: bool = False,
    most: Optional[int] = None,
    coverage: bool = False,
    least: int = 0,
) -> Finding:
    """Judges a history (docs/FORMATS.md, "Histories"): whether a right unit may have behaved so.

    ``start`` is a script that the unit carried out before the history began. ``most`` lists that many deviations at most, from 1, in
    :attr:`Finding.deviations`; each takes as long as a judgement. Without it the first alone is looked for. ``coverage`` lists in
    :attr:`Finding.coverage` which classes of frames of at least ``least`` bytes an explained history tried and which not; not with ``unordered``.

    ``modelled`` compares the contents of replies only where their requests are on classes that the model has, and there no values of
    read-only attributes and no table; ``unordered`` judges each frame by itself; ``allow_strays`` lets frames leave that were never sent, or
    have left before; ``padded`` lets a frame of fewer than 68 bytes be seen with zeros behind it, up to 68; ``allow_unfinished`` lets a
    history without an end line be explained; and ``repeats`` lets a unit answer a message with the bytes of the one before it from memory, or
    not at all. Raises :class:`BadLine`, and :class:`BadStart` for a line of ``start``.
    """
    settings = (modelled, unordered, allow_strays, padded, allow_unfinished, repeats)
    found = judged(history, start, settings, most, coverage, least)
    # With 1 and 2 no line deviates.
    return Finding(found.number == 1, found.line if found.number == 0 else None, json.loads(found.text))


class Judged(NamedTuple):
    """What the library finds of a history: its number, the line that it names, and the object that ``onuctl judge --json`` writes."""

    number: int
    line: int
    text: bytes


def judged(
    history: Union[Bytes, str],
    start: Union[Bytes, str, None],
    settings: Sequence[bool],
    most: Optional[int] = None,
    coverage: bool = False,
    least: int = 0,
) -> Judged:
    """What :func:`judge` finds, as the library says it. The settings are in the order of its flags, of which ``unordered`` is the second."""
    given, limit, shortest = text_of("history", history), most_of(most), least_of(least)
    if coverage and settings[1]:
        raise ValueError("coverage goes by the least versions of frames, and with unordered they have none")
    if shortest and not coverage:
        raise ValueError("least is said of coverage")
    script = b"" if start is None else text_of("start", start)
    flags = sum(1 << bit for bit, is_set in enumerate(settings) if is_set)
    line = Line()
    texts = (script, len(script), given, len(given))
    if coverage:
        number, text = in_room(lambda *room: _library.judge_coverage(*texts, flags, limit, shortest, *room, line), 4096)
    else:
        number, text = in_room(lambda *room: _library.judge_all(*texts, flags, limit, *room, line), 4096)
    if number == NO_MEMORY:
        raise MemoryError("no memory for a judgement")
    if number == BAD_START:
        raise BadStart(line.value)
    if number == BAD_LINE:
        raise BadLine(line.value)
    return Judged(number, line.value, text)

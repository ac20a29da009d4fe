"""The answers of a fleet, in the order of its files, each once."""

from collections import deque
from concurrent.futures import FIRST_COMPLETED, CancelledError, Future, wait
from typing import Callable, Deque, Iterator, List, NamedTuple

from ._library import version
from ._pools import GONE, Answers, Pool, Trouble
from ._questions import Answer, Question, unread
from ._sources import Source

# Seconds between two looks at signals and at the progress.
TICK = 0.2
# Groups of a worker that are read at once, and those whose answers wait for one before them.
_AT_ONCE, _WAITING = 2, 32
_ENDED = "the process that read it ended twice: killed, or without memory"


class _Group(NamedTuple):
    """Files that are answered by one task."""

    sources: List[Source]
    answers: "Future[Answers]"


class Run:
    """A question that is put to files."""

    def __init__(self, pool: Pool, question: Question, sources: Iterator[Source], tick: Callable[[], None]) -> None:
        self._pool, self._question, self._sources, self._tick = pool, question, sources, tick
        self._begun, self._is_read = 0, False
        self._groups: Deque[_Group] = deque()

    def _gathered(self) -> List[Source]:
        """The next files. The first groups are small, so that each worker has some; then each is as large as it may be."""
        most = min(self._pool.most_files, 1 + self._begun // (8 * self._pool.workers()))
        group: List[Source] = []
        size = 0
        while len(group) < most and size < self._pool.most_bytes:
            source = next(self._sources, None)
            if source is None:
                self._is_read = True
                break
            group.append(self._pool.prepared(source))
            size += source.size
        self._begun += len(group)
        return group

    def _fill(self) -> None:
        """Hands groups over, as many as may be read at once."""
        workers = self._pool.workers()
        room = _AT_ONCE * workers
        for group in self._groups:
            if not group.answers.done():
                room -= 1
            elif not group.answers.cancelled() and group.answers.exception() is None:
                # Bytes of files aren't kept where an answer waits for one before it.
                group.sources.clear()
        while room > 0 and not self._is_read and len(self._groups) < _WAITING * workers:
            gathered = self._gathered()
            if gathered:
                self._groups.append(_Group(gathered, self._pool.submit(self._question, gathered)))
                room -= 1

    def _wait(self) -> None:
        """Waits until some group is answered, or a look is due."""
        waiting = [each.answers for each in self._groups if not each.answers.done()]
        if waiting:
            wait(waiting, TICK, FIRST_COMPLETED)
        self._tick()

    @staticmethod
    def _taken(answers: "Future[Answers]") -> List[Answer]:
        """The answers that are there."""
        try:
            by, found = answers.result()
        except CancelledError:
            raise Trouble(GONE) from None
        except ImportError as fault:
            raise Trouble("a worker has no package onuctl, or not whole: %s" % fault) from None
        if by != version():
            raise Trouble("a worker has %s, and this machine has %s" % (by, version()))
        return found

    def _answered(self, group: _Group) -> Iterator[Answer]:
        """The answers to a group. Where its process ended, its files are read once more, each by itself."""
        try:
            yield from self._taken(group.answers)
        except Exception as fault:
            if not self._pool.is_lost(fault):
                raise
            for source in group.sources:
                yield self._answered_alone(source)

    def _answered_alone(self, source: Source) -> Answer:
        again = self._pool.submit_alone(self._question, source)
        while not again.done():
            wait([again], TICK)
            self._tick()
        try:
            return self._taken(again)[0]
        except Exception as fault:
            if not self._pool.is_lost(fault):
                raise
            return unread(source.name, _ENDED)

    def answers(self) -> Iterator[Answer]:
        """The answers, as soon as those before them are there."""
        while True:
            self._fill()
            if not self._groups:
                return
            while self._groups and self._groups[0].answers.done():
                yield from self._answered(self._groups.popleft())
                self._fill()
            if self._groups:
                self._wait()

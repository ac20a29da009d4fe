"""What a fleet's run shows: answers on standard output, and on standard error what couldn't be read, how far it is, and what was found."""

import contextlib
import importlib
import json
import sys
import time
from collections import Counter
from typing import Any, Dict, List, Optional, Sequence, Tuple

from ._library import version
from ._questions import FOUND, RIGHT, UNJUDGED, UNREAD, Answer
from ._reports import Reports

# What files are counted as, by the question and the status of their answers.
WORDS: Dict[str, Dict[int, str]] = {
    "judge": {RIGHT: "explained", FOUND: "deviating", UNJUDGED: "unjudged", UNREAD: "unread"},
    "lint": {RIGHT: "clean", FOUND: "found", UNREAD: "unread"},
    "expect": {RIGHT: "holding", FOUND: "failing", UNREAD: "unread"},
    "diff": {RIGHT: "same", FOUND: "different", UNREAD: "unread"},
}
# The statuses, the worst first.
_WORST = (UNREAD, FOUND, UNJUDGED)


class Unwritten(Exception):
    """An answer or a page couldn't be written."""

    def __init__(self, fault: OSError) -> None:
        super().__init__("write failed: %s" % fault.strerror)
        self.fault = fault


class Progress:
    """How far a run is, on a terminal: by tqdm where that is installed, or else a line a second."""

    def __init__(self, is_shown: bool) -> None:
        self._is_shown, self._begun, self._said = is_shown, time.monotonic(), 0.0
        self._bar: Any = None
        if is_shown:
            with contextlib.suppress(ImportError):
                bar: Any = importlib.import_module("tqdm").tqdm
                # It needs no thread, since it is told every tick; and processes are forked.
                bar.monitor_interval = 0
                self._bar = bar(unit=" files", file=sys.stderr, dynamic_ncols=True, miniters=0)

    def show(self, count: int, words: str) -> None:
        """Shows that so many files are answered."""
        now = time.monotonic()
        if self._bar is not None:
            self._bar.set_postfix_str(words, refresh=False)
            self._bar.update(count - self._bar.n)
        elif self._is_shown and now >= self._said + 1:
            self._said = now
            print("%d files in %d s: %s" % (count, now - self._begun, words), file=sys.stderr, flush=True)

    def say(self, words: str) -> None:
        """A line on standard error, above what is shown."""
        if self._bar is not None:
            self._bar.write(words, file=sys.stderr)
        else:
            print(words, file=sys.stderr, flush=True)

    def close(self) -> None:
        if self._bar is not None:
            self._bar.close()


class Shown:
    """What is shown of answers, one by one."""

    def __init__(self, question: str, only_found: bool, reports: Optional[Reports] = None) -> None:
        self._words, self._only_found, self._reports = WORDS[question], only_found, reports
        self._counts: "Counter[int]" = Counter()
        # On one terminal the answers show how far it is.
        self._progress = Progress(sys.stderr.isatty() and not sys.stdout.isatty())

    def _counted(self) -> List[Tuple[str, int]]:
        """The count of all files, and of those with each answer."""
        return [("files", sum(self._counts.values()))] + [(word, self._counts[status]) for status, word in self._words.items()]

    def take(self, answer: Answer) -> None:
        """Writes an answer, and counts it. Raises :class:`Unwritten`."""
        self._counts[answer.status] += 1
        if answer.why:
            for line in answer.why.splitlines():
                self._progress.say("%s: %s" % (answer.name, line))
        try:
            if answer.status or not self._only_found:
                sys.stdout.write(answer.line + "\n")
            if self._reports is not None:
                self._reports.take(answer)
        except OSError as fault:
            raise Unwritten(fault) from None

    def tick(self) -> None:
        """Shows how far it is, and hands on what was written. Raises :class:`Unwritten`."""
        try:
            sys.stdout.flush()
        except OSError as fault:
            raise Unwritten(fault) from None
        (_, count), *others = self._counted()
        self._progress.show(count, ", ".join("%d %s" % (number, word) for word, number in others if number) or "none yet")

    def end(self, settings: Sequence[str]) -> int:
        """Writes the summary, and the index of pages with the settings. Returns the status: that of the worst answer. Raises :class:`Unwritten`."""
        counted = self._counted()
        summary = {"format": 1, "summary": dict(counted), "version": version()}
        try:
            sys.stdout.write(json.dumps(summary, separators=(",", ":")) + "\n")
            sys.stdout.flush()
            if self._reports is not None:
                self._reports.end(dict(counted), list(settings))
        except OSError as fault:
            raise Unwritten(fault) from None
        self.close()
        print(" ".join("%s %d" % each for each in counted), file=sys.stderr, flush=True)
        return next((status for status in _WORST if self._counts[status]), RIGHT)

    def close(self) -> None:
        self._progress.close()
        self._progress = Progress(False)
        if self._reports is not None:
            self._reports.close()

    def answered(self) -> int:
        """How many files were answered."""
        return sum(self._counts.values())

"""Pages of histories that deviate, and an index of all that were judged, by :mod:`onuctl.report`."""

import importlib
import json
import os
import re
import zlib
from pathlib import Path
from typing import Any, Dict, Iterator, List, Tuple

from ._library import version
from ._questions import FOUND, RIGHT, UNJUDGED, UNREAD, Answer

INDEX = "index.html"
# So many histories that are explained are in the index.
_EXPLAINED = 10_000


def page_name(number: int, name: str) -> str:
    """The name of the page of a file, which is the number-th that was answered."""
    return "%06d-%s.html" % (number, re.sub(r"[^\w.-]+", "_", name, flags=re.ASCII)[-80:])


def _words(answer: Answer, found: Dict[str, Any]) -> str:
    """What an index says of a file."""
    if answer.status == UNREAD:
        return answer.why
    if answer.status == FOUND:
        count = len(found.get("deviations", [0]))
        words = "%d deviations" % count if count > 1 else "deviation at line %d" % found.get("deviations", [found])[0]["line"]
        return words if answer.page is not None else words + "; its page couldn't be made"
    frames = found["frames"]
    counts = ", ".join("%d %s" % (frames[key], key) for key in ("forwarded", "dropped", "lost", "open") if frames[key])
    wanting = "" if found["finished"] or answer.status == RIGHT else "no end line; "
    return wanting + "%d replies; frames: %s" % (found["replies"], counts or "none")


class Reports:
    """A folder of pages, and of the index."""

    def __init__(self, folder: str) -> None:
        # Raises ImportError where Jinja2 isn't installed.
        self._pages: Any = importlib.import_module("onuctl._pages")
        self._template = self._pages.environment().get_template("fleet.html")
        self._folder = Path(folder)
        self._folder.mkdir(parents=True, exist_ok=True)
        self._count = 0
        self._rows = open(self._folder / (INDEX + ".rows"), "w+", encoding="utf-8", errors="surrogatepass")

    def take(self, answer: Answer) -> None:
        """Writes the page of an answer that has one, and notes the answer for the index."""
        self._count += 1
        name = ""
        if answer.page is not None:
            name = page_name(self._count, answer.name)
            (self._folder / name).write_bytes(zlib.decompress(answer.page))
        self._rows.write(json.dumps([answer.status, answer.name, name, _words(answer, json.loads(answer.line))]) + "\n")

    def _those(self, *statuses: int) -> Iterator[Tuple[str, str, str]]:
        """The names of files with these statuses, of their pages, and what is said of them."""
        self._rows.seek(0)
        for line in self._rows:
            status, name, page, words = json.loads(line)
            if status in statuses:
                yield name.encode("utf-8", "surrogateescape").decode("utf-8", "replace"), page, words

    def _explained(self) -> Iterator[Tuple[str, str, str]]:
        for _, each in zip(range(_EXPLAINED), self._those(RIGHT)):
            yield each

    def end(self, counts: Dict[str, int], settings: List[str]) -> None:
        """Writes the index, which gets its name once it is whole."""
        self._rows.flush()
        said = {
            "counts": counts,
            "settings": settings,
            "version": version(),
            "date": self._pages.date(),
            "found": self._those(FOUND, UNREAD, UNJUDGED),
            "explained": self._explained(),
            "more": max(0, counts["explained"] - _EXPLAINED),
        }
        partial = self._folder / (INDEX + ".partial")
        with open(partial, "wb") as file:
            self._template.stream(**said).dump(file, encoding="utf-8", errors="replace")
        os.replace(partial, self._folder / INDEX)
        self.close()

    def close(self) -> None:
        """Ends without an index."""
        if not self._rows.closed:
            self._rows.close()
            os.remove(self._rows.name)

"""A plugin of pytest: histories, expectations and stored answers are items, and tests get a unit, and a history that records what they do.

pytest finds the plugin where the package is installed; ``-p no:onuctl.pytest_plugin`` leaves it out. docs/FLEETS.md has all of it.
"""

import hashlib
import re
from pathlib import Path
from typing import Any, Dict, Iterator, List, NoReturn, Optional, Sequence, Tuple, Type

import pytest

from ._frames import Outcome, expect
from ._judge_lines import lines_of
from ._questions import page_of
from ._recording import Recording, Watched
from ._scripts import Mistakes
from ._settings import SETTINGS
from ._texts import BadLine, BadStart, Finding, judge, replay
from ._unit import Unit
from ._written import script_of, without_mark

__all__ = ["Recording", "Watched"]

if int(pytest.__version__.split(".")[0]) < 7:
    raise pytest.UsageError("onuctl.pytest_plugin needs pytest 7, and this is %s; -p no:onuctl.pytest_plugin leaves it out" % pytest.__version__)

# What may stand beside NAME.expect, and beside NAME.answers.
_TRACES = (".trace", ".script", ".onu")
_SCRIPTS = (".script", ".onu")
_recording = pytest.StashKey[Recording]()


def _fail(*lines: str) -> NoReturn:
    """Fails an item. The last line says where."""
    raise pytest.fail.Exception("\n".join(lines), pytrace=False) from None


def _fail_at(bad: BadLine, path: Path) -> NoReturn:
    """Fails an item for bad lines of a file."""
    if isinstance(bad, Mistakes):
        _fail(*("%s:%d:%d: %s" % (path, *each) for each in bad.mistakes))
    _fail(str(bad), "%s:%d" % (path, bad.line))


def _script(path: Path) -> bytes:
    """The script in a file, or of the words in it."""
    try:
        return script_of(path.read_bytes())
    except BadLine as bad:
        _fail_at(bad, path)


# ---- options


def pytest_addoption(parser: pytest.Parser) -> None:
    group = parser.getgroup("onuctl", "onuctl, how histories are judged")
    for name, forgives in SETTINGS.items():
        group.addoption("--onuctl-%s" % name.replace("_", "-"), action="store_true", dest="onuctl_%s" % name, help="forgive %s" % forgives)
        parser.addini("onuctl_%s" % name, "forgive %s" % forgives, type="bool", default=False)
    start = "script, or words for one, that each unit had carried out before line 1"
    group.addoption("--onuctl-start", metavar="SCRIPT", help=start)
    parser.addini("onuctl_start", start, type="paths", default=[])
    group.addoption("--onuctl-most", metavar="N", type=int, help="list so many deviations of a history; the first alone without it")
    group.addoption("--onuctl-report", metavar="FOLDER", help="write a page of each history that deviates to this folder (onuctl.report)")
    group.addoption("--onuctl-histories", metavar="FOLDER", help="keep the histories that tests record in this folder")


def _start(config: pytest.Config) -> Optional[Path]:
    """The script that each unit had carried out before."""
    named = config.getoption("onuctl_start")
    if named is not None:
        return Path(config.invocation_params.dir, named)
    paths: List[Path] = config.getini("onuctl_start")
    return paths[0] if paths else None


def _settings(config: pytest.Config) -> Dict[str, Any]:
    """How histories are judged: keywords of :func:`onuctl.judge`."""
    settings = {name: config.getoption("onuctl_%s" % name) or config.getini("onuctl_%s" % name) for name in SETTINGS}
    start = _start(config)
    return {**settings, "start": None if start is None else _script(start), "most": config.getoption("onuctl_most")}


def _report(text: bytes, path: Path, item: pytest.Item, settings: Dict[str, Any]) -> List[str]:
    """Writes the page of a history that deviates, if one is asked for: its name, which JUnit's file gets too."""
    named = item.config.getoption("onuctl_report")
    if named is None:
        return []
    folder = Path(item.config.invocation_params.dir, named)
    folder.mkdir(parents=True, exist_ok=True)
    page = folder / (_file_name(str(path)) + ".html")
    try:
        page.write_bytes(page_of(str(path), text, settings, str(_start(item.config) or "")))
    except ImportError as fault:
        return ["no page: %s" % fault]
    item.user_properties.append(("report", str(page)))
    return ["page: %s" % page]


def _file_name(name: str) -> str:
    """A name for a file of something that has a name."""
    return "%s-%s" % (re.sub(r"[^\w.-]+", "_", name)[-100:], hashlib.sha256(name.encode(errors="surrogateescape")).hexdigest()[:8])


def _pass(text: bytes, path: Path, item: pytest.Item, more: Dict[str, Any]) -> Finding:
    """What the history in a file shows, which must be a pass."""
    config, settings = item.config, {**_settings(item.config), **more}
    try:
        finding = judge(text, **settings)
    except BadStart as bad:
        _fail_at(bad, _start(config) or path)
    except BadLine as bad:
        _fail_at(bad, path)
    if not finding.explained:
        pages = [] if finding.line is None else _report(text, path, item, settings)
        _fail(*lines_of(finding, settings["allow_unfinished"]), *pages, "%s:%d" % (path, finding.line or text.count(b"\n")))
    return finding


# ---- items


class _Item(pytest.Item):
    """An item that is a file, or a line of one."""

    line = 0

    def reportinfo(self) -> Tuple[Path, int, str]:
        return self.path, self.line, self.name


class HistoryItem(_Item):
    """A history, which is judged. JUnit's file gets its counts as properties."""

    def runtest(self) -> None:
        finding = _pass(without_mark(self.path.read_bytes()), self.path, self, {})
        counts = {key: finding.details[key] for key in ("messages", "accepted", "replies")}
        self.user_properties.extend({**counts, **finding.details["frames"]}.items())


def _asking(script: bytes, at: int) -> int:
    """The number of the line that the answer at a place is to, or of the last that wants one."""
    asking = [number for number, line in enumerate(script.split(b"\n"), 1) if line[:1] in (b"o", b"f")]
    return (asking or [1])[min(at, len(asking) - 1)]


class AnswersItem(_Item):
    """A script, whose answers are compared with those that are stored beside it."""

    def runtest(self) -> None:
        script, stored = _script(self.path), self.path.with_suffix(".answers")
        try:
            answers = replay(script)
        except BadLine as bad:
            _fail_at(bad, self.path)
        came, wanted = answers.decode().splitlines(), stored.read_text(errors="replace").splitlines()
        for at in range(max(len(came), len(wanted))):
            here, there = (lines[at] if at < len(lines) else "no more lines" for lines in (came, wanted))
            if here != there:
                _fail("another answer to line %d" % _asking(script, at), "answered: %s" % here, "stored: %s" % there, "%s:%d" % (stored, at + 1))


class ExpectationItem(_Item):
    """A line of expectations, which is checked after the trace beside them."""

    def runtest(self) -> None:
        file = self.parent
        assert isinstance(file, ExpectationsFile)
        outcome = file.outcomes()[self.line + 1]
        if not outcome.holds:
            _fail(str(outcome), "%s:%d" % (self.path, self.line + 1))


# ---- files


class HistoryFile(pytest.File):
    def collect(self) -> Iterator[pytest.Item]:
        yield HistoryItem.from_parent(self, name="judged")


class ScriptFile(pytest.File):
    def collect(self) -> Iterator[pytest.Item]:
        yield AnswersItem.from_parent(self, name="answered")


class ExpectationsFile(pytest.File):
    """Expectations, an item a line. All are checked at once, where the first of them is."""

    _outcomes: Optional[Dict[int, Outcome]] = None

    def collect(self) -> Iterator[pytest.Item]:
        for number, line in enumerate(without_mark(self.path.read_bytes()).decode(errors="replace").split("\n")):
            words = line.split("#")[0].strip()
            if words:
                item = ExpectationItem.from_parent(self, name="line %d: %s" % (number + 1, words))
                item.line = number
                yield item

    def outcomes(self) -> Dict[int, Outcome]:
        """What is found of each, by its line."""
        if self._outcomes is None:
            trace = _beside(self.path, _TRACES) or self.path
            script = _script(trace)
            try:
                self._outcomes = {each.line: each for each in expect(script, self.path.read_bytes())}
            except Mistakes as mistakes:
                _fail_at(mistakes, self.path)
            except BadLine as bad:
                _fail_at(bad, trace)
        return self._outcomes


def _beside(path: Path, suffixes: Sequence[str]) -> Optional[Path]:
    """The first file beside another that has its name and one of these endings."""
    return next((each for each in map(path.with_suffix, suffixes) if each.is_file()), None)


def pytest_collect_file(file_path: Path, parent: pytest.Collector) -> Optional[pytest.Collector]:
    kind: Optional[Type[pytest.File]] = None
    if file_path.suffix == ".history":
        kind = HistoryFile
    elif file_path.suffix in _SCRIPTS and _beside(file_path, [".answers"]):
        kind = ScriptFile
    elif file_path.suffix == ".expect" and _beside(file_path, _TRACES):
        kind = ExpectationsFile
    file: Optional[pytest.Collector] = None if kind is None else kind.from_parent(parent, path=file_path)
    return file


# ---- fixtures


@pytest.fixture
def unit() -> Iterator[Unit]:
    """A unit of the library's, fresh for each test (onuctl.Unit)."""
    with Unit() as fresh:
        yield fresh


@pytest.fixture(scope="session")
def _onu_histories(request: pytest.FixtureRequest, tmp_path_factory: pytest.TempPathFactory) -> Path:
    """The folder of recorded histories."""
    named = request.config.getoption("onuctl_histories")
    folder = tmp_path_factory.mktemp("onu_history") if named is None else Path(request.config.invocation_params.dir, named)
    folder.mkdir(parents=True, exist_ok=True)
    return folder


@pytest.fixture
def onu_history(request: pytest.FixtureRequest, _onu_histories: Path) -> Iterator[Recording]:
    """Records what a test sends to its unit under test and what comes back, and is judged behind the test (onuctl.pytest_plugin.Recording)."""
    recording = Recording(_onu_histories / (_file_name(request.node.nodeid) + ".history"))
    request.node.stash[_recording] = recording
    yield recording
    recording.write()


def pytest_runtest_call(item: pytest.Item) -> None:
    """Judges what a test recorded, where it passed: so the test itself fails."""
    recording = item.stash.get(_recording, None)
    if recording is not None:
        _pass(recording.write(), recording.path, item, recording.settings)


# Behind the test.
pytest.hookimpl(trylast=True)(pytest_runtest_call)

"""Pictures of what the frames of each port met: their versions in order, as shapes for a page's SVG."""

from bisect import bisect_right
from typing import Any, Dict, Iterable, List, NamedTuple, Optional, Sequence, Tuple

from ._history import Frames, History

WIDTH, HEIGHT = 720, 240
LEFT, RIGHT, TOP, BOTTOM = 48, 12, 26, 44
# More frames than these share columns, and more than those have no marks of their own.
_COLUMNS, _MARKED = 240, 60
_TICKS = 6
# So many deviations have their line written beside them.
_NAMED = 6
_STEPS = 20


class Tick(NamedTuple):
    """A place on an axis, and its number."""

    at: float
    words: str


class Mark(NamedTuple):
    """A frame's earliest version: its place, and whether the frame left."""

    x: float
    y: float
    has_left: bool


class Wrong(NamedTuple):
    """A column with deviations: its place, what stands beside it, what a pointer is told, and where its words end."""

    x: float
    label: str
    words: str
    anchor: str


class Step(NamedTuple):
    """From which frame on a port has at least a version."""

    frame: int
    line: int
    version: int


class Picture(NamedTuple):
    """The picture of a port."""

    port: int
    words: str
    details: str
    windows: str
    width: float
    earliest: str
    marks: List[Mark]
    wrong: List[Wrong]
    across: List[Tick]
    upward: List[Tick]
    steps: List[Step]
    more_steps: int


class Steps:
    """The earliest versions of the frames of a port, which rise at some frames and are of frames that ended above a line; or none, where they aren't
    known."""

    def __init__(self, steps: Optional[List[Step]], until: int, frames: Frames) -> None:
        self.steps, self.until, self.frames = steps or [], until, frames
        self.is_known = steps is not None
        self._begin = [each.frame for each in self.steps]

    def of(self, number: int) -> Optional[int]:
        """The earliest version of a frame, where that is known."""
        if not self.is_known or self.until and self.frames.ended_at[number] >= self.until:
            return None
        place = bisect_right(self._begin, number)
        return self.steps[place - 1].version if place else 0


class Column(NamedTuple):
    """Frames that share a column: their numbers, those of them that have an end and are judged, and the lines at which they deviate."""

    numbers: Sequence[int]
    ended: List[int]
    wrong: List[Tuple[int, int]]


def _ticks(first: int, last: int) -> List[int]:
    """Some whole numbers of a range, a step of 1, 2 or 5 and noughts apart."""
    steps = (digit * 10**power for power in range(20) for digit in (1, 2, 5))
    step = next(step for step in steps if (last - first) // step < _TICKS)
    return [*range(-(-first // step) * step, last + 1, step)]


class _Plot:
    """Where the columns and the versions of a picture are."""

    def __init__(self, columns: int, least: int, most: int) -> None:
        self.wide = (WIDTH - LEFT - RIGHT) / max(columns, 1)
        self.least, self.most = least, most
        self.high = (HEIGHT - TOP - BOTTOM) / (most - least + 1)

    def x(self, column: int) -> float:
        return round(LEFT + (column + 0.5) * self.wide, 1)

    def y(self, version: float) -> float:
        return round(HEIGHT - BOTTOM - (version - self.least + 0.5) * self.high, 1)


def _windows(plot: _Plot, frames: Frames, columns: Sequence[Column]) -> str:
    """A stroke for each column: from the least to the greatest version that its frames may have."""
    strokes = []
    half = max(min(0.32 * plot.high, 7), 1.2)
    for place, column in enumerate(columns):
        if column.ended:
            top = plot.y(max([frames.at_most[number] for number in column.ended]))
            bottom = plot.y(min([frames.at_least[number] for number in column.ended]))
            if top <= bottom:
                strokes.append("M%g %.1fV%.1f" % (plot.x(place), top - half, bottom + half))
    return "".join(strokes)


def _ends_of(steps: Steps, column: Column) -> List[int]:
    """The earliest versions of the first and of the last frame of a column that has one. Deviating frames have none."""
    wrong = {number for number, _ in column.wrong}
    found = []
    for numbers in (column.ended, reversed(column.ended)):
        known = (steps.of(number) for number in numbers if number not in wrong)
        found += [next((version for version in known if version is not None), -1)]
    return [version for version in found if version >= 0]


def _earliest(plot: _Plot, steps: Steps, columns: Sequence[Column]) -> str:
    """A line along the earliest versions, which never falls. It is broken where none is known."""
    path, before = "", -2
    for place, column in enumerate(columns):
        known = _ends_of(steps, column)
        if known:
            begin, end = plot.x(place) - plot.wide / 2, plot.x(place) + plot.wide / 2
            path += "%s%.1f %.1fH%.1f" % ("L" if place == before + 1 else "M", begin, plot.y(known[0]), end)
            before = place
            if known[-1] != known[0]:
                path += "V%.1f" % plot.y(known[-1])
    return path


def _marks(plot: _Plot, frames: Frames, steps: Steps, columns: Sequence[Column]) -> List[Mark]:
    if len(columns) > _MARKED:
        return []
    known = [(place, column.numbers[0], version) for place, column in enumerate(columns) for version in _ends_of(steps, column)[:1]]
    return [Mark(plot.x(place), plot.y(version), frames.ends[number] == "g") for place, number, version in known]


def _wrong(plot: _Plot, columns: Sequence[Column]) -> List[Wrong]:
    found = []
    for place, column in enumerate(columns):
        if column.wrong:
            words = ", ".join("line %d, frame %d" % (line, number) for number, line in column.wrong[:_NAMED]) + (", .." if len(column.wrong) > _NAMED else "")
            label = "line %d" % column.wrong[0][1] + (", .." if len(column.wrong) > 1 else "")
            found.append(Wrong(plot.x(place), label, words, "end" if plot.x(place) > WIDTH - 100 else "start"))
    return found if len(found) <= _NAMED else [each._replace(label="") for each in found]


def _counted(count: int, one: str, many: str) -> str:
    return "%s %s" % (format(count, ","), one if count == 1 else many)


def _words(port: int, columns: Sequence[Column], joined: int) -> str:
    """What a picture shows."""
    frames, ended = sum(len(each.numbers) for each in columns), sum(len(each.ended) for each in columns)
    wrong = len({number for each in columns for number, _ in each.wrong})
    words = "Port %d: %s in the order in which they were sent, %s of them with an end." % (port, _counted(frames, "frame", "frames"), format(ended, ","))
    if joined > 1:
        words += " Each column is %d frames." % joined
    if wrong:
        words += " %s." % _counted(wrong, "frame deviates", "frames deviate")
    return words


def _details(steps: Steps, why: str) -> str:
    """What can be read off a picture, for those who don't see it; or why no earliest versions are in it."""
    if why:
        return why
    said = "; ".join("version %d from frame %d on" % (each.version, each.frame) for each in steps.steps[:_STEPS]) or "0"
    words = "Earliest versions: %s%s." % (said, "; .." if len(steps.steps) > _STEPS else "")
    return words + (" They are known of frames that ended above line %d alone." % steps.until if steps.until else "")


def _picture(port: int, frames: Frames, numbers: List[int], steps: Steps, wrong: Dict[int, List[int]], why: str) -> Picture:
    joined = -(-len(numbers) // _COLUMNS)
    columns = []
    for at in range(0, len(numbers), joined):
        of_column = numbers[at : at + joined]
        columns.append(Column(of_column, frames.ended(of_column), [(number, line) for number in of_column for line in wrong.get(number, ())]))
    ended = [number for column in columns for number in column.ended]
    most, least = max([frames.at_most[number] for number in ended] or [0]), min([frames.at_least[number] for number in ended] or [0])
    plot = _Plot(len(columns), min(least, most), max(least, most))
    across = [Tick(plot.x(place), str(columns[place].numbers[0])) for place in _ticks(0, len(columns) - 1)]
    upward = [Tick(plot.y(version), str(version)) for version in _ticks(plot.least, plot.most)]
    return Picture(
        port,
        _words(port, columns, joined),
        _details(steps, why),
        _windows(plot, frames, columns),
        round(min(plot.wide * 0.7, 16) if joined == 1 else plot.wide + 0.1, 1),
        _earliest(plot, steps, columns),
        _marks(plot, frames, steps, columns) if joined == 1 else [],
        _wrong(plot, columns),
        across,
        upward,
        steps.steps[:_STEPS],
        len(steps.steps[_STEPS:]),
    )


class Earliest(NamedTuple):
    """The steps of earliest versions, as a judgement has them, or None where none are known, and why. They are of frames that ended above line
    ``until``, or of all where it is 0."""

    versions: Optional[Iterable[Dict[str, Any]]]
    until: int
    why: str


def pictures(history: History, earliest: Earliest, wrong: Dict[int, List[int]], most: int) -> Tuple[List[Picture], int]:
    """A picture of each port that frames were sent into, as many as asked for, and how many more ports there are. ``wrong`` has the lines at which
    frames deviate, by their numbers."""
    steps: Dict[int, List[Step]] = {}
    for each in earliest.versions or ():
        steps.setdefault(each["port"], []).append(Step(each["frame"], each["line"], each["version"]))
    numbers: Dict[int, List[int]] = {port: [] for port in sorted(set(history.frames.ports))}
    for number, port in enumerate(history.frames.ports):
        numbers[port].append(number)
    drawn = [
        _picture(
            port,
            history.frames,
            numbers[port],
            Steps(None if earliest.versions is None else steps.get(port, []), earliest.until, history.frames),
            wrong,
            earliest.why,
        )
        for port in [*numbers][:most]
    ]
    return drawn, len([*numbers][most:])


def wrong_frames(deviations: Iterable[Dict[str, Any]]) -> Dict[int, List[int]]:
    """The lines at which frames deviate, by their numbers."""
    wrong: Dict[int, List[int]] = {}
    for each in deviations:
        named: List[Tuple[int, int]] = []
        if "frame" in each:
            named = [(each["frame"]["number"], each["line"])]
        elif "one_of" in each:
            named = [(frame["number"], each["line"]) for frame in each["one_of"]["frames"][:1]]
        for number, line in named:
            wrong.setdefault(number, []).append(line)
    return wrong

"""A page that says all that a judgement covers, ``python -m onuctl.report``: one file that stands alone and prints well.

The verdict and the line that it names are proved; the rest of the page is tested only. Jinja2 makes it of the templates in ``templates``.
"""

import errno
import hashlib
import os
import re
import shlex
import sys
from typing import Any, Dict, List, NamedTuple, Optional, Sequence, Tuple, Union

from . import _pages
from ._configuration import Reader
from ._deviations import Writer, message_words
from ._history import History, shown
from ._library import version
from ._pictures import BOTTOM, HEIGHT, LEFT, RIGHT, TOP, WIDTH, Earliest, pictures, wrong_frames
from ._scripts import Mistakes, decode
from ._settings import SETTINGS
from ._texts import BadLine, BadStart, Finding, judge
from ._written import script_of, without_mark

USAGE = "python -m onuctl.report [OPTIONS] --out <FILE> <HISTORY>"
HELP = (
    """\
Write a page on what a unit did: the verdict on a history, what it rests on, and each deviation beside what is right

Usage: """
    + USAGE
    + """

Arguments:
  <HISTORY>  History, a file; - is standard input [example: bench.history]

Options:
      --out <FILE>         The page, a file of HTML; - is standard output [example: report.html]
      --trace <FILE>       Script, or words for one, whose configuration is shown; without it what was sent to the unit [example: up.script]
      --start <SCRIPT>     Script, or words for one, that the unit had carried out before line 1 [example: up.script]
      --modelled           Don't compare contents of replies that the model lacks, nor read-only values; has no value [example: --modelled]
      --unordered          Judge each frame by itself; has no value [example: --unordered]
      --allow-strays       Let frames leave that nobody sent; has no value [example: --allow-strays]
      --padded             Let short frames be seen with zeros behind them; has no value [example: --padded]
      --allow-unfinished   Let a history have no end line; has no value [example: --allow-unfinished]
      --repeats            Let a message that is sent twice in a row be carried out once; has no value [example: --repeats]
      --most <COUNT>       How many deviations are looked for, from 1; 100 without it, and the page shows 100 at most [example: 1000]
      --least <BYTES>      Coverage is of frames of at least so many bytes, 0 to 9989; 0 without it [example: 60]
  -h, --help               Print help

The page stands alone: it needs no network and no script, has light and dark colours, and prints on A4.
It takes Jinja2, Debian's package python3-jinja2. Graphviz draws the graph of the configuration where it is installed.
Status: that of judge: 0 explained, 3 a deviation, 4 nothing deviates but it's no pass; 2 a text is bad, 1 else, and then there is no page
Example: python -m onuctl.report --out report.html bench.history
Example: python -m onuctl.report --start up.script --padded --out report.html bench.history"""
)
_VALUED = ("--out", "--trace", "--start", "--most", "--least")
# So many deviations are looked for where nothing says it, and shown at most; so many stand before the others are folded; and so many are open at first.
MOST = 100
_SHOWN, _UNFOLDED, _OPEN = 100, 10, 3
# So many rows of a long list are shown: of findings, of ports, of remarks, and of versions.
_FINDINGS, _PORTS, _REMARKS, _VERSIONS, _UNSEEN = 100, 24, 20, 50, 100
_GREATEST_LEAST = 9989


# What each setting of the judge no longer finds, beside what it forgives.
LETS_PASS = {
    "modelled": "wrong contents of these replies, and wrong values of these",
    "unordered": "a unit that goes back to what it forgot",
    "allow_strays": "frames that the unit makes up, or sends twice",
    "padded": "zeros that the unit adds",
    "allow_unfinished": "a recording that was cut",
    "repeats": "a unit that passes over the second message, or carries it out unseen",
}


class Usage(Exception):
    """The words are wrong."""


class Failure(Exception):
    """A file can't be read or written, or a text is bad. It has a status."""

    def __init__(self, said: str, status: int) -> None:
        super().__init__(said, status)
        self.said, self.status = said, status

    def __str__(self) -> str:
        return self.said


class Text(NamedTuple):
    """A text that is judged or shown: its name, as a page has it, and its bytes."""

    name: str
    data: bytes


class Settings(NamedTuple):
    """The settings of the judge, by the names that :func:`onuctl.judge` has for them."""

    modelled: bool = False
    unordered: bool = False
    allow_strays: bool = False
    padded: bool = False
    allow_unfinished: bool = False
    repeats: bool = False

    def words(self) -> List[str]:
        """The settings as words of the program."""
        return ["--%s" % name.replace("_", "-") for name, is_set in self._asdict().items() if is_set]


class Given(NamedTuple):
    """What a page is made of."""

    history: Text
    start: Optional[Text]
    trace: Optional[Text]
    settings: Settings
    most: int
    least: int


def _judged(given: Given, start: bytes) -> Finding:
    """The judgement, with coverage where frames have least versions."""
    words: Dict[str, Any] = given.settings._asdict()
    if not given.settings.unordered:
        words.update(coverage=True, least=given.least)
    return judge(without_mark(given.history.data), start=start if given.start else None, most=given.most, **words)


def _mended(lines: List[bytes], deviations: Sequence[Dict[str, Any]]) -> Tuple[List[bytes], int]:
    """A history in which what its deviations claim is taken back, and the line before which that holds, or 0 for all. A reply that answers another
    request than the next can't be taken back so."""
    mended = list(lines)
    is_numbered = any(line[:2] == b"w " for line in lines)
    for each in deviations:
        reply = each.get("reply")
        if reply is None or reply["request_line"] is None and not is_numbered:
            mended[each["line"] - 1] = b""
        elif reply["model"] is not None and _same_head(reply["seen"], reply["model"]):
            mended[each["line"] - 1] = b"r " + reply["model"].encode()
        else:
            return mended[: each["line"] - 1], each["line"]
    return mended, 0


def _same_head(one: str, other: str) -> bool:
    return (one[:4], one[4:6], one[8:16]) == (other[:4], other[4:6], other[8:16])


def earliest(given: Given, start: bytes, history: History, finding: Finding) -> Earliest:
    """The steps of earliest versions: of what is left of a history where its deviations are taken back."""
    if given.settings.unordered:
        return Earliest(None, 0, "With --unordered each frame is judged by itself, so only windows are known.")
    if finding.line is None:
        return Earliest(finding.details["versions"], 0, "")
    lines, until = _mended(history.lines, finding.deviations)
    words = given.settings._asdict()
    words["allow_unfinished"] = True
    try:
        found = judge(b"\n".join(lines), start=start if given.start else None, **words)
        if found.line is not None:
            until = found.line
            found = judge(b"\n".join(lines[: until - 1]), start=start if given.start else None, **words)
    except BadLine:
        return Earliest(None, 0, "What is left without the deviations isn't a history, so only windows are known.")
    return Earliest(found.details.get("versions"), until, "" if "versions" in found.details else "Only windows are known.")


def _inputs(given: Given) -> List[Dict[str, str]]:
    named = [("History", given.history)]
    named += [(what, text) for what, text in (("Script before it", given.start), ("Trace of the configuration", given.trace)) if text is not None]
    return [
        {"what": what, "name": clean(text.name), "size": "%s bytes" % format(len(text.data), ","), "sum": hashlib.sha256(text.data).hexdigest()}
        for what, text in named
    ]


def clean(name: str) -> str:
    """A name as a page shows it."""
    return re.sub("[\n\t]", "\ufffd", shown(name.encode("utf-8", "surrogateescape")))


def command(given: Given, *more: str) -> str:
    """The call of ``onuctl judge`` that says the same."""
    words = ["onuctl", "judge", *more, *given.settings.words()]
    if given.start is not None:
        words += ["--start", clean(given.start.name)]
    return " ".join(map(shlex.quote, [*words, clean(given.history.name)]))


def _verdict(finding: Finding) -> Tuple[str, str, str]:
    """The verdict: its kind, in one line, and what that means."""
    if finding.explained:
        return "right", "Explained", "A right unit may have behaved so, and something was judged, to the end."
    if finding.line is not None:
        count = len(finding.deviations)
        more = "More than " if finding.details.get("more") else ""
        words = "%s%s deviation%s" % (more, format(count, ","), "" if count == 1 else "s")
        return "wrong", words, "No right unit behaves so. The first line that none explains is line %d." % finding.line
    return "open", "Not a pass", "Nothing deviates so far, but that is no pass."


def _evidence(history: History, finding: Finding) -> List[Tuple[str, str, str]]:
    """What a verdict rests on: names, numbers, and what they mean."""
    counts = {**history.counts, **history.ends(), "accepted": history.accepted, "sent": len(history.frames)}
    told = finding.details.get("frames", {})
    counts.update({key: told[key] for key in told if key in counts})
    counts.update({key: finding.details[key] for key in ("messages", "accepted", "replies") if key in finding.details})
    rows = [(name, format(counts[key], ","), meaning) for key, name, meaning in _COUNTS]
    if "start" in finding.details:
        rows.insert(0, ("Accepted of the script before", format(finding.details["start"], ","), "requests that the unit had carried out before line 1"))
    rows.append(("End line", "yes" if history.has_end else "no", "without one the recording may have been cut"))
    return rows


_COUNTS = (
    ("messages", "Messages", "sent to the unit"),
    ("accepted", "Accepted", "of these, by the model: each makes a version"),
    ("replies", "Replies", "seen of the unit"),
    ("sent", "Frames", "sent into ports"),
    ("forwarded", "Forwarded", "seen to leave"),
    ("dropped", "Dropped", "known to have been dropped"),
    ("lost", "Lost", "not seen to leave while they were waited for"),
    ("open", "Open", "without an end, or with too little known: nothing is said of them"),
    ("doubtful", "Doubtful", "of those open: several frames look alike, so which one left can't be seen"),
    ("cut", "Cut", "frames of which only a front is known"),
    ("strays", "Strays", "left, and nobody sent them or they had left before"),
)


def _wanting(history: History, finding: Finding) -> List[str]:
    """Why a history without a deviation is no pass."""
    if finding.explained or finding.line is not None:
        return []
    words = []
    if not finding.details["finished"]:
        words.append("Unfinished: the history has no end line; it may be cut.")
    if not finding.details["evidence"]:
        frames = len(history.frames)
        words.append("No frame was judged: %d were sent." % frames if frames else "Nothing was judged: no reply, no frame that ended.")
    return words


def _versions(history: History) -> Tuple[List[Dict[str, Any]], int]:
    """What made each version, and how many more there are."""
    made = [each for each in history.requests if each.is_accepted and not each.is_of_start]
    said = decode("".join("o %s\n" % each.message.hex() for each in made[:_VERSIONS]))
    listed = [{"version": each.accepted, "line": each.line, "words": message_words(words)} for each, words in zip(made, said)]
    return listed, len(made[_VERSIONS:])


def _coverage(given: Given, finding: Finding) -> Tuple[Optional[List[Dict[str, Any]]], str]:
    """The coverage that a judgement has, or why there is none."""
    if given.settings.unordered:
        return None, "With --unordered no frame has an earliest version, so it can't be said which classes of frames were tried."
    if finding.coverage is None:
        return None, "Coverage is said of a history without a deviation alone."
    return finding.coverage, ""


def _covering(given: Given, finding: Finding) -> List[str]:
    """The words for the coverage that the page has, if it has one."""
    if finding.coverage is None:
        return []
    return ["--coverage", *(["--least", str(given.least)] if given.least else [])]


def _configuration(given: Given, history: History) -> Tuple[Any, str]:
    """The configuration that is shown, and what it is of."""
    ports = sorted(set(history.frames.ports))
    if given.trace is not None:
        try:
            return Reader(script_of(given.trace.data), 0, ports).read(_PORTS), "after all messages of %s" % clean(given.trace.name)
        except BadLine as fault:
            raise Failure("%s: %s" % (given.trace.name, fault), 2) from None
    words = "after all messages of the history" + (", behind those of the script before it" if given.start is not None else "")
    return Reader(b"\n".join(history.trace()) + b"\n", history.start_lines, ports).read(_PORTS), words


def page(
    history: Text, *, start: Optional[Text] = None, trace: Optional[Text] = None, settings: Settings = Settings(), most: int = MOST, least: int = 0
) -> Tuple[Finding, bytes]:
    """Judges a history, and makes its page: what was found, and the page's bytes.

    ``start`` is what the unit had carried out before, ``trace`` the script whose configuration is shown, in place of what the history sent. Up to
    ``most`` deviations are looked for, and coverage is of frames of at least ``least`` bytes. Raises :class:`onuctl.BadLine` for a line of the history,
    :class:`onuctl.BadStart` for one of ``start``, and :class:`Failure` for a bad ``trace``; and :class:`ImportError` where Jinja2 isn't installed."""
    _pages.environment()
    given = Given(history, start, trace, settings, most, least)
    try:
        script = b"" if start is None else script_of(start.data)
    except Mistakes as mistakes:
        raise BadStart(mistakes.line) from mistakes
    finding = _judged(given, script)
    return finding, _pages.page("report.html", **_said(given, script, finding))


def _said(given: Given, script: bytes, finding: Finding) -> Dict[str, Any]:
    """All that a page says."""
    history = History(without_mark(given.history.data), script, given.settings.repeats)
    coverage, no_coverage = _coverage(given, finding)
    return {
        **_said_of_texts(given, finding, history),
        **_said_of_deviations(given, finding, history),
        **_said_of_ports(given, script, finding, history),
        **_said_of_configuration(given, history),
        "coverage": coverage,
        "no_coverage": no_coverage,
        "unseen": _UNSEEN,
        "least": given.least,
    }


def _said_of_texts(given: Given, finding: Finding, history: History) -> Dict[str, Any]:
    """What was judged, the verdict, and what it rests on."""
    kind, verdict, meaning = _verdict(finding)
    return {
        "name": clean(given.history.name),
        "kind": kind,
        "verdict": verdict,
        "meaning": meaning,
        "wanting": _wanting(history, finding),
        "inputs": _inputs(given),
        "settings": [
            {"name": "--%s" % name.replace("_", "-"), "forgives": SETTINGS[name], "lets_pass": LETS_PASS[name]}
            for name, is_set in given.settings._asdict().items()
            if is_set
        ],
        "version": version(),
        "date": _pages.date(),
        "remarks": _listed(history.remarks_at_the_head(), _REMARKS),
        "evidence": _evidence(history, finding),
    }


def _said_of_deviations(given: Given, finding: Finding, history: History) -> Dict[str, Any]:
    deviations = finding.deviations
    listing = ["--all", *(["--most", str(given.most)] if given.most != MOST else [])]
    return {
        "deviations": Writer(history, given.settings.modelled, given.settings.padded).all(deviations[:_SHOWN]),
        "open": _OPEN,
        "unfolded": _UNFOLDED,
        "more": len(deviations[_SHOWN:]),
        "are_more": bool(finding.details.get("more")),
        "again": command(given, *listing, *_covering(given, finding)),
        "all": command(given, *listing),
        "further": command(given, "--all", "--most", str(10 * given.most)),
    }


def _said_of_ports(given: Given, script: bytes, finding: Finding, history: History) -> Dict[str, Any]:
    """The pictures of ports, and what made each version."""
    known = earliest(given, script, history, finding)
    versions, more_versions = _versions(history)
    return {
        "pictures": Listed(*pictures(history, known, wrong_frames(finding.deviations), _PORTS)),
        "plot": {"width": WIDTH, "height": HEIGHT, "left": LEFT, "right": WIDTH - RIGHT, "top": TOP, "bottom": HEIGHT - BOTTOM},
        "versions": versions,
        "more_versions": more_versions,
    }


def _said_of_configuration(given: Given, history: History) -> Dict[str, Any]:
    configuration, configured = _configuration(given, history)
    return {
        "configured": configured,
        "configuration": configuration,
        "refused": _listed(configuration.refused, _FINDINGS),
        "findings": _listed(configuration.findings, _FINDINGS),
        "lint": "onuctl lint %s" % shlex.quote(clean(given.trace.name)) if given.trace is not None else "",
    }


class Listed(NamedTuple):
    """The front of a list, and how many more there are."""

    shown: List[Any]
    more: int


def _listed(found: Sequence[Any], most: int) -> Listed:
    return Listed(list(found[:most]), len(found[most:]))


def write_report(
    out: Union[str, "os.PathLike[str]"],
    history: Text,
    *,
    start: Optional[Text] = None,
    trace: Optional[Text] = None,
    settings: Settings = Settings(),
    most: int = MOST,
    least: int = 0,
) -> Finding:
    """Writes the page of a history to a file, beside it first, so that there is a whole one or none; and gives what was found. What it takes and raises
    is as of :func:`page`, and :class:`OSError` where the file can't be written."""
    finding, made = page(history, start=start, trace=trace, settings=settings, most=most, least=least)
    write(os.fspath(out), made)
    return finding


def write(out: str, made: bytes) -> None:
    """Writes a file beside its place, and gives it its name. A device or a pipe is written as it is."""
    if os.path.exists(out) and not os.path.isfile(out):
        with open(out, "wb") as file:
            file.write(made)
        return
    beside = "%s.partial" % out
    with open(beside, "wb") as file:
        file.write(made)
    os.replace(beside, out)


def status_of(finding: Finding) -> int:
    """The status with which ``onuctl judge`` ends."""
    return 0 if finding.explained else 4 if finding.line is None else 3


def _options(words: Sequence[str]) -> Tuple[Dict[str, str], List[str], List[str]]:
    """The values of options, those without a value that are given, and what stands alone."""
    values: Dict[str, str] = {}
    flags: List[str] = []
    alone: List[str] = []
    allowed = {"--%s" % name.replace("_", "-") for name in SETTINGS}
    left = list(words)
    while left:
        word = left.pop(0)
        name, joined, value = word.partition("=")
        if word == "--":
            alone += left
            break
        if word == "-" or not word.startswith("-"):
            alone.append(word)
        elif word in allowed:
            flags.append(word)
        elif name not in _VALUED:
            raise Usage("unexpected word '%s'" % word)
        else:
            if not joined and not left:
                raise Usage("%s has no value" % name)
            if name in values:
                raise Usage("%s is given twice" % name)
            values[name] = value if joined else left.pop(0)
    return values, flags, alone


def _count(name: str, text: str, least: int, most: Optional[int]) -> int:
    if not text.isascii() or not text.isdigit() or not least <= int(text) or most is not None and int(text) > most:
        raise Usage("%s wants a number from %d%s, not '%s'" % (name, least, "" if most is None else " to %d" % most, text))
    return int(text)


class Call(NamedTuple):
    """What words ask for: names of files, and the settings."""

    history: str
    out: str
    trace: Optional[str]
    start: Optional[str]
    settings: Settings
    most: int
    least: int


def call_of(words: Sequence[str]) -> Call:
    """What words ask for. Raises :class:`Usage`."""
    values, flags, alone = _options(words)
    if not alone:
        raise Usage("<HISTORY> is missing")
    if alone[1:]:
        raise Usage("unexpected word '%s'" % alone[1])
    for name in ("--out", "--trace", "--start"):
        if values.get(name) == "":
            raise Usage("%s has no value" % name)
    if "--out" not in values:
        raise Usage("--out is missing")
    settings = Settings(*("--%s" % name.replace("_", "-") in flags for name in Settings._fields))
    most = _count("--most", values.get("--most", str(MOST)), 1, None)
    least = _count("--least", values.get("--least", "0"), 0, _GREATEST_LEAST)
    return Call(alone[0], values["--out"], values.get("--trace"), values.get("--start"), settings, most, least)


def _read(name: Optional[str]) -> Optional[Text]:
    """A file, or standard input by the name ``-``."""
    if name is None:
        return None
    try:
        if name == "-":
            return Text("standard input", sys.stdin.buffer.read())
        with open(name, "rb") as file:
            return Text(name, file.read())
    except OSError as fault:
        raise Failure("cannot read %s: %s" % (name, fault.strerror), 1) from None


def _check(call: Call) -> None:
    """Refuses a call that would read standard input twice, or write over what it reads."""
    read = [name for name in (call.history, call.trace, call.start) if name is not None]
    if read.count("-") > 1:
        raise Failure("cannot read -: standard input is named more than once", 1)
    for name in read:
        if "-" not in (name, call.out) and os.path.exists(call.out) and os.path.exists(name) and os.path.samefile(name, call.out):
            raise Failure("cannot write %s: it is the same file as %s" % (call.out, name), 1)


def _written(call: Call, made: bytes) -> None:
    try:
        if call.out == "-":
            sys.stdout.buffer.write(made)
            sys.stdout.flush()
        else:
            write(call.out, made)
    except OSError as fault:
        if call.out == "-":
            # What Python still holds goes nowhere.
            os.dup2(os.open(os.devnull, os.O_WRONLY), 1)
            if fault.errno == errno.EPIPE:
                raise Failure("", 141) from None
        raise Failure("cannot write %s: %s" % (call.out, fault.strerror), 1) from None


def _call(call: Call) -> int:
    """Writes a page, and returns the status."""
    _check(call)
    history, trace, start = (_read(name) for name in (call.history, call.trace, call.start))
    assert history is not None
    try:
        finding, made = page(history, start=start, trace=trace, settings=call.settings, most=call.most, least=call.least)
    except BadStart as fault:
        raise Failure("%s: %s" % (call.start, fault.__cause__ or "line %d is bad" % fault.line), 2) from None
    except BadLine as fault:
        raise Failure("%s: %s" % (call.history, fault), 2) from None
    except _pages.Lacking as fault:
        raise Failure(str(fault), 1) from None
    except MemoryError:
        raise Failure("no memory", 1) from None
    _written(call, made)
    return status_of(finding)


def main(words: Sequence[str]) -> int:
    """Writes the page that words ask for. Returns the status."""
    if not words or "--help" in words or "-h" in words:
        print(HELP, file=sys.stdout if words else sys.stderr)
        return 0 if words else 1
    try:
        return _call(call_of(words))
    except Usage as fault:
        print("onuctl.report: %s\nUsage: %s" % (fault, USAGE), file=sys.stderr)
        return 1
    except Failure as fault:
        if fault.said:
            print("onuctl.report: %s" % fault, file=sys.stderr)
        return fault.status


if __name__ == "__main__":
    sys.exit(main(sys.argv[1:]))

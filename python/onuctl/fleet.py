"""Many files at once, ``python -m onuctl.fleet``: histories judged, provisionings looked into, compared and checked.

Each answer is the library's, and docs/PROOFS.md says what of it is proved. This module and those that it stands on are tested only: which files are
read, and that each has one answer, is counted and shown.
"""

import argparse
import errno
import os
import signal
import sys
from typing import Callable, Dict, Iterator, List, NoReturn, Optional, Sequence, Tuple

from ._answers import Run
from ._frames import expect
from ._pools import Cluster, Pool, Processes, Trouble
from ._questions import SEVERITIES, UNREAD, Question
from ._reports import Reports
from ._settings import SETTINGS
from ._shown import Shown, Unwritten
from ._sources import Source, reason_of, sources
from ._texts import BadLine, judge
from ._written import script_of

_HISTORIES = (".history",)
_TRACES = (".onu", ".script", ".trace")
_EXPECTATIONS = ".expect"
_INTERRUPTED, _UNHEARD = 130, 141
# Signals that end a run.
_ENDING = (signal.SIGINT, signal.SIGTERM, signal.SIGHUP)

USAGE = "python -m onuctl.fleet [OPTIONS] <QUESTION> <PATH>..."
HELP = (
    """\
Put a question to many files: judge histories, and look into, compare and check provisionings

Usage: """
    + USAGE
    + """

Arguments:
  <QUESTION>  judge: may a right unit have done what a history says; lint: what is wrong in a provisioning; diff: which frames it treats differently; expect: whether it does what is expected [example: judge]
  <PATH>...   File, folder, glob in quotes, tar archive, or - for a list of paths on standard input [example: night]

Options:
      --workers <COUNT>      Processes of this machine, 1 to 1024; one for each processor without it [example: 8]
      --cluster <ADDRESS>    Scheduler of a cluster of Dask, in place of processes [example: tcp://10.0.0.1:8786]
      --shared               Have the cluster's machines read the files, which all of them see; has no value [example: --shared]
      --only-found           Write no line for a file of which nothing is found; has no value [example: --only-found]
      --modelled             judge: don't compare contents of replies that the model lacks, nor read-only values; has no value [example: --modelled]
      --unordered            judge: judge each frame by itself; has no value [example: --unordered]
      --allow-strays         judge: let frames leave that nobody sent; has no value [example: --allow-strays]
      --padded               judge: let short frames be seen with zeros behind them; has no value [example: --padded]
      --allow-unfinished     judge: let a history have no end line; has no value [example: --allow-unfinished]
      --repeats              judge: let a message that is sent twice in a row be carried out once; has no value [example: --repeats]
      --start <SCRIPT>       judge: script, or words for one, that each unit had carried out before line 1 [example: up.script]
      --report <FOLDER>      judge: write a page of each history that deviates to this folder, and an index of all, by onuctl.report [example: pages]
      --most <COUNT>         judge: list so many deviations of a history; the first alone without it [example: 100]
      --ignore <KIND>        lint: leave the findings of a kind out; may be given several times [example: not-modelled]
      --fail-on <SEVERITY>   lint: a file with a finding as severe is found: error, warning or note; error without it [example: warning]
      --to <PATH>            diff: compare each file with this one, or with that of its name below this folder [example: new]
      --port <PORT>          diff: of frames that come in at this port, 0 to 65535 [example: 257]
      --expectations <FILE>  expect: expectations of all files; without it NAME.expect beside each [example: all.expect]
      --from <LINE>          diff, expect: begin behind this line of each file; 0 is the opening state [example: 40]
      --until <LINE>         diff, expect: stop behind this line [example: 60]
      --least <BYTES>        diff, expect: of frames of at least so many bytes [example: 60]
  -h, --help                 Print help

Standard output gets an object of JSON for each file, in the order of the paths, and a summary behind them.
Status: 0; 1 where the words are wrong or nothing more can be answered; 2 where files couldn't be read; else 3 where something was found, and 4 where histories weren't judged to their end; 130 behind an interrupt; 141 where nobody reads standard output
Example: python -m onuctl.fleet judge --padded night
Example: python -m onuctl.fleet diff --to new old"""
)
# Of which questions an option is, where it isn't of all.
_OF_QUESTIONS: Dict[str, Tuple[str, ...]] = {
    **{name: ("judge",) for name in (*SETTINGS, "start", "most", "report")},
    **{name: ("lint",) for name in ("ignore", "fail_on")},
    **{name: ("diff",) for name in ("to", "port")},
    **{name: ("expect",) for name in ("expectations",)},
    **{name: ("diff", "expect") for name in ("from_line", "until_line", "least")},
}


class Refusal(Exception):
    """Why nothing is asked, and the status."""

    def __init__(self, why: str, status: int = 1) -> None:
        super().__init__(why)
        self.status = status


class Ended(BaseException):
    """A signal asked for the end."""


class Usage(Refusal):
    """The words are wrong."""


class _Parser(argparse.ArgumentParser):
    def error(self, message: str) -> NoReturn:
        raise Usage(message)


def _from(least: int, most: int = sys.maxsize) -> Callable[[str], int]:
    """The type of a number from one to another, decimal or behind 0x."""

    def number(text: str) -> int:
        found = int(text, 16 if text[:2] == "0x" else 10)
        if not least <= found <= most:
            raise argparse.ArgumentTypeError("a number from %d%s, not '%s'" % (least, "" if most == sys.maxsize else " to %d" % most, text))
        return found

    return number


def _parser() -> _Parser:
    parser = _Parser(prog="onuctl.fleet", add_help=False, allow_abbrev=False)
    parser.add_argument("words", nargs="*")
    for name in (*SETTINGS, "shared", "only_found"):
        parser.add_argument("--" + name.replace("_", "-"), action="store_true")
    for option in ("--cluster", "--start", "--report", "--to", "--expectations"):
        parser.add_argument(option)
    parser.add_argument("--ignore", action="append")
    parser.add_argument("--fail-on", choices=SEVERITIES)
    parser.add_argument("--workers", type=_from(1, 1024))
    parser.add_argument("--most", type=_from(1))
    parser.add_argument("--port", type=_from(0, 0xFFFF))
    parser.add_argument("--from", type=_from(0), dest="from_line")
    parser.add_argument("--until", type=_from(0), dest="until_line")
    parser.add_argument("--least", type=_from(0, 0xFFFF))
    return parser


def _given(words: Sequence[str]) -> argparse.Namespace:
    """What words ask for. Raises :class:`Usage`."""
    given = _parser().parse_intermixed_args(words)
    question, *given.paths = given.words or [""]
    if question not in _OF:
        raise Usage("there is no question '%s'" % question if question else "<QUESTION> is missing")
    if not given.paths:
        raise Usage("<PATH> is missing")
    for name, questions in _OF_QUESTIONS.items():
        if getattr(given, name) and question not in questions:
            raise Usage("--%s isn't of %s" % (name.replace("_line", "").replace("_", "-"), question))
    if given.shared and given.cluster is None:
        raise Usage("--shared is for --cluster")
    if given.workers is not None and given.cluster is not None:
        raise Usage("one of --workers and --cluster can be given")
    if question == "diff" and given.to is None and given.from_line is None:
        raise Usage("one of --to and --from has to be given")
    if given.to is None and given.until_line is not None and (given.from_line or 0) > given.until_line:
        raise Usage("the line of --from is behind that of --until")
    given.question = question
    return given


def _read(path: str) -> bytes:
    """What a file holds that is for all others."""
    try:
        with open(path, "rb") as file:
            return file.read()
    except OSError as fault:
        raise Refusal("cannot read %s: %s" % (path, reason_of(fault))) from None


def _script(path: str) -> bytes:
    """The script that a file for all others holds."""
    try:
        return script_of(_read(path))
    except BadLine as bad:
        raise Refusal("%s: %s" % (path, bad), UNREAD) from None


def _of_judge(given: argparse.Namespace) -> Question:
    settings = {name: getattr(given, name) for name in SETTINGS}
    start = None if given.start is None else _script(given.start)
    try:
        judge("", start=start)
    except BadLine as bad:
        raise Refusal(str(bad), UNREAD) from None
    return Question("judge", {**settings, "start": start, "most": given.most}, report=None if given.report is None else given.start or "")


def _of_lint(given: argparse.Namespace) -> Question:
    return Question("lint", {"ignore": given.ignore or [], "fail_on": given.fail_on or "error"})


def _limits(given: argparse.Namespace) -> Dict[str, Optional[int]]:
    return {"from_line": given.from_line, "until_line": given.until_line, "least": given.least or 0}


def _expectations(path: str) -> bytes:
    """The expectations that a file for all others holds."""
    words = _read(path)
    try:
        expect("", words)
    except BadLine as bad:
        raise Refusal("%s: %s" % (path, bad), UNREAD) from None
    return words


def _of_expect(given: argparse.Namespace) -> Question:
    return Question("expect", _limits(given), None if given.expectations is None else _expectations(given.expectations))


def _of_diff(given: argparse.Namespace) -> Question:
    is_one = given.to is not None and not os.path.isdir(given.to)
    return Question("diff", {**_limits(given), "port": given.port}, _script(given.to) if is_one else None)


_OF = {"judge": _of_judge, "lint": _of_lint, "expect": _of_expect, "diff": _of_diff}


def _beside(given: argparse.Namespace, question: Question, found: Iterator[Source]) -> Iterator[Source]:
    """Files, each with the path of that with which it is compared."""
    for source in found:
        if question.beside is not None or source.why is not None:
            yield source
        elif question.name == "expect":
            yield source._replace(beside=os.path.splitext(source.name)[0] + _EXPECTATIONS)
        elif question.name == "diff" and given.to is not None:
            yield source._replace(beside=os.path.join(given.to, source.below))
        else:
            yield source


def _pool(given: argparse.Namespace) -> Pool:
    if given.cluster is None:
        return Processes(given.workers or len(os.sched_getaffinity(0)))
    return Cluster(given.cluster, given.shared)


def _reports(given: argparse.Namespace) -> Optional[Reports]:
    """The folder of pages, where one is asked for."""
    try:
        return None if given.report is None else Reports(given.report)
    except ImportError as fault:
        raise Refusal("--report: %s" % fault) from None
    except OSError as fault:
        raise Refusal("cannot write %s: %s" % (given.report, reason_of(fault))) from None


def _words_of(given: argparse.Namespace) -> List[str]:
    """The settings of the judge, in words."""
    words = ["--%s" % name.replace("_", "-") for name in SETTINGS if getattr(given, name)]
    return words + (["--start", given.start] if given.start else [])


def _end(*_: object) -> NoReturn:
    for number in _ENDING:
        signal.signal(number, signal.SIG_IGN)
    raise Ended


def _run(given: argparse.Namespace) -> int:
    question = _OF[given.question](given)
    found = _beside(given, question, sources(given.paths, _HISTORIES if given.question == "judge" else _TRACES))
    shown = Shown(given.question, given.only_found, _reports(given))
    pool = _pool(given)
    try:
        for answer in Run(pool, question, found, shown.tick).answers():
            shown.take(answer)
        return shown.end(_words_of(given))
    except Ended:
        shown.close()
        print("onuctl.fleet: interrupted: %d files were answered" % shown.answered(), file=sys.stderr)
        return _INTERRUPTED
    except Unwritten as unwritten:
        # What Python still holds goes nowhere.
        os.dup2(os.open(os.devnull, os.O_WRONLY), 1)
        if unwritten.fault.errno == errno.EPIPE:
            return _UNHEARD
        raise
    finally:
        shown.close()
        pool.stop()


def main(words: Sequence[str]) -> int:
    """Puts a question to many files, as words say. Returns the status."""
    if sys.stderr is None:
        sys.stderr = open(os.devnull, "w")
    if sys.stdout is None:
        print("onuctl.fleet: write failed: standard output is closed", file=sys.stderr)
        return 1
    if not words or "--help" in words or "-h" in words:
        print(HELP, file=sys.stdout if words else sys.stderr)
        return 0 if words else 1
    for number in _ENDING:
        # What is ignored, as by nohup, stays so.
        if signal.getsignal(number) is not signal.SIG_IGN:
            signal.signal(number, _end)
    try:
        return _run(_given(words))
    except (Refusal, Trouble, Unwritten) as refusal:
        usage = "\nUsage: %s" % USAGE if isinstance(refusal, Usage) else ""
        print("onuctl.fleet: %s%s" % (refusal, usage), file=sys.stderr)
        return refusal.status if isinstance(refusal, Refusal) else 1
    except OSError as fault:
        print("onuctl.fleet: %s" % reason_of(fault), file=sys.stderr)
        return 1
    except Ended:
        return _INTERRUPTED


if __name__ == "__main__":
    sys.exit(main(sys.argv[1:]))

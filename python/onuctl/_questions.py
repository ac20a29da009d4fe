"""What the files of a fleet are asked, and how one of them is answered: each answer is the library's."""

import dataclasses
import importlib
import json
import zlib
from typing import Any, Callable, Dict, List, NamedTuple, Optional, Sequence, Tuple

import onuctl

from ._frames import differences, expect
from ._given import text_of
from ._scripts import Mistakes, encode, findings_of
from ._settings import SETTINGS
from ._sources import Source, reason_of
from ._texts import BadLine, judged
from ._unit import Dropped, Forwarded
from ._written import script_of, without_mark

# What is found of a file: the status of `onuctl` on it alone.
RIGHT, UNREAD, FOUND, UNJUDGED = 0, 2, 3, 4
# Of the numbers by which the library says what it finds of a history.
_STATUSES = {0: FOUND, 1: RIGHT, 2: UNJUDGED}
SEVERITIES = ("note", "warning", "error")


class BadExpectations(Mistakes):
    """The words of the expectations have mistakes that were to be checked."""


class Answer(NamedTuple):
    """What is found of a file, and an object of JSON that says it. Of a file that couldn't be read `why` says why."""

    status: int
    name: str
    line: str
    why: str = ""
    #: The page that says what was found, packed, where one is asked for and something was.
    page: Optional[bytes] = None


class Question(NamedTuple):
    """What each file is asked, by its name and its settings. Processes hand it to others."""

    name: str
    settings: Dict[str, Any]
    #: What all files are compared with, where it isn't another file for each.
    beside: Optional[bytes] = None
    #: Whether a history that deviates gets a page; the name of the script before it, or nothing.
    report: Optional[str] = None


# A status, and an object of JSON.
_Found = Tuple[int, str]


def _written(found: Dict[str, Any]) -> str:
    return json.dumps(found, separators=(",", ":"))


def plain(value: Any) -> Any:
    """What a call found, as the program writes it in JSON: bytes in hexadecimal, a verdict by its keys, and nothing that isn't there."""
    if isinstance(value, bytes):
        return value.hex()
    if isinstance(value, Forwarded):
        return {"gem": value.gem, "frame": value.frame.hex()}
    if isinstance(value, Dropped):
        return {"reason": int(value.reason)}
    if isinstance(value, (list, tuple)):
        return [plain(each) for each in value]
    if not dataclasses.is_dataclass(value):
        return value
    found = {field.name: plain(getattr(value, field.name)) for field in dataclasses.fields(value)}
    found.update(found.pop("verdict", None) or {})
    return {key: each for key, each in found.items() if each is not None}


def _judged(text: bytes, _: Optional[bytes], settings: Dict[str, Any]) -> _Found:
    found = judged(without_mark(text), settings["start"], [settings[name] for name in SETTINGS], settings["most"])
    # The text is the library's: its lines end where JSON has space.
    return _STATUSES[found.number], found.text.decode().replace("\n", "")


def _linted(text: bytes, _: Optional[bytes], settings: Dict[str, Any]) -> _Found:
    listed = [each for each in findings_of(script_of(text)) if each["kind"] not in settings["ignore"]]
    severe = SEVERITIES[SEVERITIES.index(settings["fail_on"]) :]
    return FOUND if any(each["severity"] in severe for each in listed) else RIGHT, _written({"format": 1, "findings": listed})


def _differing(text: bytes, beside: Optional[bytes], settings: Dict[str, Any]) -> _Found:
    after = None if beside is None else script_of(beside)
    listed = plain(differences(script_of(text), after, **settings))
    return FOUND if listed else RIGHT, _written({"format": 1, "differences": listed})


def _expecting(text: bytes, beside: Optional[bytes], settings: Dict[str, Any]) -> _Found:
    script = script_of(text)
    try:
        outcomes = expect(script, beside or b"", **settings)
    except Mistakes as mistakes:
        raise BadExpectations(mistakes.mistakes) from None
    failing = sum(not each.holds for each in outcomes)
    return FOUND if failing else RIGHT, _written({"format": 1, "expectations": plain(outcomes), "fail": failing})


_ANSWERERS: Dict[str, Callable[[bytes, Optional[bytes], Dict[str, Any]], _Found]] = {
    "judge": _judged,
    "lint": _linted,
    "diff": _differing,
    "expect": _expecting,
}


def _read(path: str) -> bytes:
    with open(path, "rb", buffering=0) as file:
        return file.readall()


def _texts(source: Source) -> Tuple[bytes, Optional[bytes]]:
    """The bytes of a source, and of what it is compared with."""
    text = _read(source.path) if source.data is None and source.path else source.data or b""
    if source.beside_data is not None or not source.beside:
        return text, source.beside_data
    try:
        return text, _read(source.beside)
    except OSError as fault:
        raise OSError(fault.errno, "cannot read %s: %s" % (source.beside, reason_of(fault))) from None


def loaded(source: Source) -> Source:
    """A source with its bytes, for a process that doesn't see this machine's files; or with why it can't be read."""
    if source.why is not None:
        return source
    try:
        text, beside = _texts(source)
        return source._replace(data=text, beside_data=beside)
    except (OSError, MemoryError) as fault:
        return source._replace(why=reason_of(fault))


def unread(name: str, why: str, **more: Any) -> Answer:
    """The answer of a file that can't be read."""
    return Answer(UNREAD, name, _written({"file": name, "format": 1, "error": why, **more}), why)


def page_of(name: str, history: bytes, settings: Dict[str, Any], start_name: str) -> bytes:
    """The page of a history (:mod:`onuctl.report`). Raises :class:`ImportError` where there is none, or no Jinja2."""
    report: Any = importlib.import_module("onuctl.report")
    start = settings.get("start")
    made: bytes = report.page(
        report.Text(name, history),
        start=None if start is None else report.Text(start_name, text_of("start", start)),
        settings=report.Settings(**{key: settings[key] for key in SETTINGS}),
        most=settings.get("most") or report.MOST,
    )[1]
    return made


def _packed(question: Question, name: str, history: bytes) -> Optional[bytes]:
    """The page of a history, packed, if one is asked for. What keeps it from being made takes nothing from the answer."""
    if question.report is None:
        return None
    try:
        return zlib.compress(page_of(name, history, question.settings, question.report))
    except ImportError:
        raise
    except Exception:
        return None


def _unread_line(question: Question, name: str, text: bytes, bad: BadLine) -> Answer:
    """The answer of a file with a bad line. Of a script in words ``encode`` says what is wrong with it."""
    if question.name != "judge":
        try:
            encode(text)
        except Mistakes as mistakes:
            if mistakes.line == bad.line:
                return _mistaken(name, mistakes)
        except MemoryError:
            pass
    return unread(name, str(bad), line=bad.line)


def _listed(mistakes: Mistakes) -> List[Dict[str, Any]]:
    return [each._asdict() for each in mistakes.mistakes]


def _mistaken(name: str, mistakes: Mistakes) -> Answer:
    """The answer of a file whose words have mistakes."""
    return unread(name, str(mistakes), line=mistakes.line, mistakes=_listed(mistakes))


def _badly_expected(name: str, beside: Optional[str], bad: BadExpectations) -> Answer:
    """The answer of a file beside which expectations with mistakes stand. Their file is named, and no line of the file itself."""
    why = "\n".join("%s: %s" % (beside, each) for each in bad.mistakes)
    return unread(name, why, mistakes=_listed(bad))


def answer(question: Question, source: Source) -> Answer:
    """What is found of a file. Whatever is wrong with it is an answer, too, so that the others go on."""
    name = source.name
    if source.why is not None:
        return unread(name, source.why)
    try:
        text, beside = _texts(source)
        status, found = _ANSWERERS[question.name](text, question.beside if beside is None else beside, question.settings)
        page = _packed(question, name, text) if status == FOUND else None
    except BadExpectations as bad:
        return _badly_expected(name, source.beside, bad)
    except Mistakes as mistakes:
        return _mistaken(name, mistakes)
    except BadLine as bad:
        return _unread_line(question, name, text, bad)
    except MemoryError:
        return unread(name, "no memory")
    except ImportError:
        raise
    except Exception as fault:
        return unread(name, reason_of(fault))
    return Answer(status, name, '{"file":%s,%s' % (json.dumps(name), found[1:]), page=page)


def answer_all(question: Question, sources: Sequence[Source]) -> Tuple[str, List[Answer]]:
    """What is found of some files, in their order, and the version of the library that found it."""
    return onuctl.version(), [answer(question, source) for source in sources]

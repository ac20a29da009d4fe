"""A judgement in lines, as ``onuctl judge`` writes it, but for what differs."""

from typing import Any, Dict, Iterator, List

from ._texts import Finding


def _left(seen: Dict[str, Any]) -> str:
    """A frame that left: its GEM port and its bytes, or those of its front."""
    return "%s %s" % (seen["gem"], seen["frame"] if "frame" in seen else seen["front"] + "..")


def _seen(seen: Any) -> str:
    if seen == "lost":
        return "not seen to leave"
    return "seen d" if seen == "dropped" else "seen g %s" % _left(seen)


def _of_versions(frame: Dict[str, Any]) -> Iterator[str]:
    """What a frame does by each version that is left to it."""
    if frame["at_least"] > frame["at_most"]:
        numbers = (frame["at_least"], frame["at_most"])
        yield "no version is left: at least %d by frames before it or by what was waited for, at most %d" % numbers
    for run in frame["versions"]:
        versions = "version %d" % run["from"] if run["from"] == run["to"] else "versions %d to %d" % (run["from"], run["to"])
        yield "%s %s" % (versions, "d %d" % run["reason"] if "reason" in run else "g %s" % _left(run))


def _sent(frame: Dict[str, Any]) -> str:
    return "frame %d, sent into port %d at line %d" % (frame["number"], frame["port"], frame["sent_line"])


def _of_reply(reply: Dict[str, Any]) -> Iterator[str]:
    if reply["request_line"] is None:
        yield "a reply, and no request waits for one"
        yield "seen r %s" % reply["seen"]
        return
    yield "reply to the request at line %d" % reply["request_line"]
    yield "seen r %s" % reply["seen"]
    yield "model r %s" % reply["model"]


def _of_deviation(found: Dict[str, Any]) -> Iterator[str]:
    yield "deviation at line %d" % found["line"]
    if "reply" in found:
        yield from _of_reply(found["reply"])
    elif "stray" in found:
        yield "a frame left that no open frame can be"
        yield "seen s %s" % _left(found["stray"])
    elif "one_of" in found:
        yield "one of the frames %s" % " ".join(str(frame["number"]) for frame in found["one_of"]["frames"])
        yield "seen a %s" % _left(found["one_of"]["seen"])
        for frame in found["one_of"]["frames"]:
            yield _sent(frame)
            yield from _of_versions(frame)
    else:
        yield _sent(found["frame"])
        yield _seen(found["frame"]["seen"])
        yield from _of_versions(found["frame"])


def _of_none(details: Dict[str, Any], allow_unfinished: bool) -> Iterator[str]:
    """What is wanting of a history in which nothing deviates."""
    if not details["finished"] and not allow_unfinished:
        yield "unfinished: the history has no end line; it may be cut"
    if not details["evidence"]:
        sent = sum(details["frames"][key] for key in ("forwarded", "dropped", "lost", "open"))
        yield "no frame was judged: %d were sent" % sent if sent else "nothing was judged: no reply, no frame that ended"


def lines_of(finding: Finding, allow_unfinished: bool = False) -> List[str]:
    """What deviates, or what is wanting, of a history that is judged with or without ``allow_unfinished``."""
    if finding.explained:
        return ["explained"]
    if finding.line is None:
        return [*_of_none(finding.details, allow_unfinished)]
    lines = [line for each in finding.deviations for line in _of_deviation(each)]
    if "deviations" in finding.details:
        lines.append("deviations %d%s" % (len(finding.deviations), " and more" if finding.details["more"] else ""))
    return lines

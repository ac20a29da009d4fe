"""What a page says of drawn histories beside what a plain judge finds of them (tests/judged_plainly): the windows of frames, counts, which request a
reply answers, and the earliest versions of what is left without the deviations."""
import importlib.machinery
import os
import sys
import types

import draws
import plain_judge

JUDGED = os.path.join(os.path.dirname(os.path.abspath(__file__)), "../judged_plainly")


def judged_plainly():
    """The runner that draws histories, as a module. It looks for the program that is built."""
    module = types.ModuleType("judged_plainly")
    module.__file__ = JUDGED
    words, sys.argv = sys.argv, [JUDGED]
    try:
        importlib.machinery.SourceFileLoader("judged_plainly", JUDGED).exec_module(module)
    finally:
        sys.argv = words
    return module


def histories(judged, seed):
    """Histories of a drawn unit, right ones and ones with other lines, each with words of the judge; and the script before them, with its messages."""
    drawn = draws.Draws(seed)
    unit = judged.Unit(drawn)
    start = unit.start()
    yield unit.text(), unit.settings(), start
    for change in range(len(judged.MARKS)):
        text = unit.changed(change)
        if text is not None:
            yield text, drawn.of(*judged.SETTINGS), start
    for _ in range(3):
        yield unit.changed_often(), drawn.of(*judged.LISTING), start


class Plainly:
    """What the plain judge finds of a history, and what it shows without its deviations."""

    def __init__(self, judged, text, words, start):
        self.words = {word for word in words if not word.isdigit() and word not in ("--all", "--most")}
        options = (*self.words, "--all", "--most", "100")
        messages = start[1] if start else None
        events = plain_judge.read_history(text)
        self.found = plain_judge.judge(text, judged.model, options, messages)
        self.deviations = plain_judge.deviations_in(self.found)
        for each in self.deviations:
            events = plain_judge.taken_back(events, each["line"])
        self.shown = plain_judge.Shown(events, judged.model, options, messages or ())
        self.versions = self.shown.explained(self.shown.least_versions(len(events)))["versions"]


def wrong_of(plain, report, text, script):
    """What a page says otherwise."""
    settings = report.Settings(**{name: f"--{name.replace('_', '-')}" in plain.words for name in report.Settings._fields})
    given = report.Given(report.Text("drawn", text), report.Text("script", script) if script else None, None, settings, 100, 0)
    history = report.History(text, script, settings.repeats)
    for frame in plain.shown.frames:
        window = (history.frames.ports[frame.number], history.frames.at_least[frame.number])
        if window != (frame.port, frame.least) or frame.is_judged() and history.frames.at_most[frame.number] != frame.most:
            yield f"the window of frame {frame.number}"
    for each in plain.deviations:
        meant = history.replies.get(each["line"])
        if meant is not None and meant.request is not None and meant.passed_over == 0:
            if history.requests[meant.request].line != each["reply"]["request_line"]:
                yield f"the request of line {each['line']}"
    if "frames" in plain.found:
        counts = {**history.ends(), **history.counts}
        if {name: counts[name] for name in plain.found["frames"]} != plain.found["frames"]:
            yield f"the counts {counts} for {plain.found['frames']}"
    finding, page = report.page(*given[:1], start=given.start, settings=settings)
    earliest = report.earliest(given, script, history, finding)
    if earliest.versions is not None and not earliest.until and list(earliest.versions) != plain.versions:
        yield f"the earliest versions {earliest.versions} for {plain.versions}"
    if not page.endswith(b"</html>"):
        yield "the page's end"


def compare(units):
    """How many histories of so many units were compared, and what a page says otherwise of which."""
    from onuctl import report

    judged, count, wrong = judged_plainly(), 0, []
    for seed in range(units):
        for text, words, start in histories(judged, seed):
            try:
                plain = Plainly(judged, text, words, start)
            except plain_judge.BadLine:
                continue
            count += 1
            wrong += [f"{said} of\n{text!r}\nwith {words}" for said in wrong_of(plain, report, text, start[0] if start else b"")]
    return count, wrong

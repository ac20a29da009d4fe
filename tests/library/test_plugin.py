"""The plugin of pytest, by pytest's own `pytester`. What is expected is typed from docs/FORMATS.md and tests/dialogues."""

import re
import sys
import xml.etree.ElementTree
from pathlib import Path
from typing import Any, Dict, Iterator, List

import pytest

TOP = Path(__file__).resolve().parents[2]
sys.path[:0] = [str(TOP / "python"), str(TOP / "tests/plainly")]

import onuctl  # noqa: E402
from dialogues import Call, calls_of  # noqa: E402
from onuctl._judge_lines import lines_of  # noqa: E402

TRAILER = "0000002800000000"
U = "02000000000102000000000208004500"
T = "0200000000010200000000028100006408004500"
REQUESTS = [
    "0001440a010c0401 0400 8001 03 00",
    "0002440a010a0501 0401 05 0601",
    "0003440a00820601 0101 0501050105010501 0501050105010501 01 0001",
    "0004440a00ab0701 02 0101",
    # Frames without a tag get one of VID 100.
    "0005480a00ab0701 0400 f8000000f8000000 000f000000000324",
]
REPLIES = ["0001240a010c0401", "0002240a010a0501", "0003240a00820601", "0004240a00ab0701", "0005280a00ab0701"]
# Lines that `onuctl judge` writes of what differs, and of where it was seen.
BELOW = re.compile("differs: |no reply to |line [0-9]+ has |from ")


def message(front: str) -> str:
    return front.replace(" ", "").ljust(80, "0") + TRAILER


def history(*lines: str) -> str:
    """A unit is set up by lines 1 to 10, and the lines behind these follow."""
    set_up = ["%s %s" % (kind, message(front)) for pair in zip(REQUESTS, REPLIES) for kind, front in zip("or", pair)]
    return "\n".join([*set_up, *lines, "e", ""])


SCRIPT = "".join("o %s\n" % message(request) for request in REQUESTS)
RIGHT = history("w", "f 257 " + U, "g 0 1024 " + T)
WRONG = history("w", "f 257 " + U, "g 0 1024 " + U)


class Bench:
    """A folder with files, in which pytest runs."""

    def __init__(self, pytester: pytest.Pytester) -> None:
        self.pytester = pytester

    def put(self, name: str, text: str) -> None:
        (self.pytester.path / name).write_text(text)

    def run(self, *words: str) -> pytest.RunResult:
        return self.pytester.runpytest("-p", "onuctl.pytest_plugin", "-p", "no:cacheprovider", *words)

    def failure(self, *words: str) -> List[str]:
        """What the one item that fails says."""
        result = self.run("--tb=short", *words)
        assert result.ret == 1, result.outlines
        begin = next(at for at, line in enumerate(result.outlines) if line.startswith("____")) + 1
        end = next(at for at, line in enumerate(result.outlines) if line.startswith("=====") and at > begin)
        return result.outlines[begin:end]


@pytest.fixture
def bench(pytester: pytest.Pytester) -> Bench:
    return Bench(pytester)


def judging() -> Iterator[Call]:
    """The calls of `judge` in dialogues that write lines."""
    for path in sorted((TOP / "tests/dialogues").glob("*.dialogues")):
        for call in calls_of(path.name, path.read_text()):
            if call.words[0] == "judge" and "--json" not in call.words and call.status in (0, 3, 4):
                yield call


def settings_of(call: Call) -> Dict[str, Any]:
    words = list(call.words[1:])
    settings: Dict[str, Any] = {"start": call.start if "--start" in words else None}
    if "--all" in words:
        settings["most"] = int(words[words.index("--most") + 1]) if "--most" in words else 100
    names = ("modelled", "unordered", "allow_strays", "padded", "allow_unfinished", "repeats")
    return {**settings, **{name: "--" + name.replace("_", "-") in words for name in names}}


def test_lines_are_those_of_the_judge() -> None:
    count = 0
    for call in judging():
        finding = onuctl.judge(call.given, **settings_of(call))
        # The plugin says nothing of what was tried.
        wanted = [line for _, line in call.wanted if not BELOW.match(line) and not line.startswith(("start ", "coverage ", "unseen "))]
        came = lines_of(finding, "--allow-unfinished" in call.words)
        # Above what is wanting stand counts and versions.
        assert came == (wanted if finding.line is not None else wanted[-len(came) :]), "%s: %s" % (call.file, call.name)
        count += finding.line is not None
    assert count > 50


def test_a_right_history_passes(bench: Bench) -> None:
    bench.put("right.history", RIGHT)
    result = bench.run("--junitxml=report.xml")
    result.assert_outcomes(passed=1)
    (case,) = xml.etree.ElementTree.parse(bench.pytester.path / "report.xml").getroot().iter("testcase")
    assert (case.get("classname"), case.get("name")) == ("right.history", "judged")
    properties = {each.get("name"): each.get("value") for each in case.iter("property")}
    assert (properties["messages"], properties["forwarded"], properties["open"]) == ("5", "1", "0")


def test_a_deviation_has_the_lines_of_the_judge_and_its_place(bench: Bench) -> None:
    bench.put("wrong.history", WRONG)
    path = bench.pytester.path / "wrong.history"
    assert bench.failure() == [
        "deviation at line 13",
        "frame 0, sent into port 257 at line 12",
        "seen g 1024 " + U,
        "version 5 g 1024 " + T,
        "%s:13" % path,
    ]
    bench.run("--junitxml=report.xml")
    (failure,) = xml.etree.ElementTree.parse(bench.pytester.path / "report.xml").getroot().iter("failure")
    assert (failure.text or "").endswith("%s:13" % path)


def test_a_deviation_has_a_page(bench: Bench) -> None:
    pytest.importorskip("jinja2")
    pytest.importorskip("onuctl.report")
    bench.put("wrong.history", WRONG)
    (page,) = (line[len("page: ") :] for line in bench.failure("--onuctl-report=pages", "--junitxml=report.xml") if line.startswith("page: "))
    assert "line 13" in Path(page).read_text()
    (named,) = xml.etree.ElementTree.parse(bench.pytester.path / "report.xml").getroot().iter("property")
    assert (named.get("name"), named.get("value"), Path(page).parent) == ("report", page, bench.pytester.path / "pages")


def test_every_deviation_is_listed(bench: Bench) -> None:
    bench.put("wrong.history", history("w", "f 257 " + U, "g 0 1024 " + U, "s any 00"))
    said = bench.failure("--onuctl-most", "9")
    assert [line for line in said if line.startswith("deviation")] == ["deviation at line 13", "deviation at line 14", "deviations 2"]


def test_a_history_that_is_no_pass(bench: Bench) -> None:
    for text, line, said in (
        (RIGHT[: -len("e\n")], 13, "unfinished: the history has no end line; it may be cut"),
        (history("f 257 " + U), 12, "no frame was judged: 1 were sent"),
        ("e\n", 1, "nothing was judged: no reply, no frame that ended"),
        ("# remark\nx\n", 2, "line 2 is bad"),
    ):
        bench.put("one.history", text)
        assert bench.failure() == [said, "%s:%d" % (bench.pytester.path / "one.history", line)]


def test_settings_by_options_and_by_a_file(bench: Bench) -> None:
    bench.put("short.history", "w\nf 257 %s\ng 0 1024 %s\ne\n" % (U, T.ljust(120, "0")))
    bench.put("up.script", SCRIPT)
    bench.run().assert_outcomes(failed=1)
    bench.run("--onuctl-padded").assert_outcomes(failed=1)
    bench.run("--onuctl-start=up.script").assert_outcomes(failed=1)
    bench.run("--onuctl-start=up.script", "--onuctl-padded").assert_outcomes(passed=1)
    bench.put("pytest.ini", "[pytest]\nonuctl_padded = true\nonuctl_start = up.script\n")
    bench.run().assert_outcomes(passed=1)
    # The script's path is one below the folder of the file.
    (bench.pytester.path / "below").mkdir()
    (bench.pytester.path / "short.history").rename(bench.pytester.path / "below/short.history")
    bench.pytester.chdir()
    bench.run("below").assert_outcomes(passed=1)
    bench.put("up.script", "# remark\nx\n")
    assert bench.failure() == ["start line 2 is bad", "%s:2" % (bench.pytester.path / "up.script")]


ANSWERS = "".join("r %s\n" % message(reply) for reply in REPLIES)


def test_a_script_is_answered_as_it_is_stored(bench: Bench) -> None:
    bench.put("up.script", "# remark\n" + SCRIPT + "f 257 " + U + "\n")
    bench.put("words.onu", "reset\n\nreset quiet\n")
    bench.run().assert_outcomes()
    bench.put("up.answers", ANSWERS + "g 1024 " + T + "\n")
    bench.put("words.answers", "r %s\n-\n" % message("00012f0a00020000"))
    bench.run().assert_outcomes(passed=2)


def test_another_answer_has_its_place(bench: Bench) -> None:
    bench.put("up.script", "# remark\n" + SCRIPT + "f 257 " + U + "\n")
    path = bench.pytester.path / "up.answers"
    for last, shown in (("g 1024 %s\n" % U, "stored: g 1024 " + U), ("", "stored: no more lines")):
        bench.put("up.answers", ANSWERS + last)
        assert bench.failure() == ["another answer to line 7", "answered: g 1024 " + T, shown, "%s:6" % path]
    bench.put("up.answers", ANSWERS + "g 1024 %s\nd 5\n" % T)
    assert bench.failure() == ["another answer to line 7", "answered: no more lines", "stored: d 5", "%s:7" % path]


def test_a_script_that_is_bad(bench: Bench) -> None:
    bench.put("up.answers", "-\n")
    bench.put("up.script", "# remark\nr 00\n")
    assert bench.failure() == ["line 2 is bad", "%s:2" % (bench.pytester.path / "up.script")]
    (bench.pytester.path / "up.script").unlink()
    bench.put("up.onu", "reset\ncrate gem-port 1\n")
    (said,) = bench.failure()
    assert said.startswith("%s:2:1: found `crate`, expected " % (bench.pytester.path / "up.onu"))


def test_expectations_stand_beside_a_trace(bench: Bench) -> None:
    bench.put("up.expect", "# remark\n257 tags=0 -> gem 1024 inner(pcp=0 vid=100 tpid=8100)\n\n257 tags=0 -> drop # no\n")
    bench.run().assert_outcomes()
    bench.put("up.trace", SCRIPT)
    listed = bench.run("--collect-only", "-q").outlines[:2]
    assert listed == ["up.expect::line 2: 257 tags=0 -> gem 1024 inner(pcp=0 vid=100 tpid=8100)", "up.expect::line 4: 257 tags=0 -> drop"]
    bench.run().assert_outcomes(passed=1, failed=1)
    fails, below, place = bench.failure()
    assert re.fullmatch("line 4 fails: frame %s0800[0-9a-f]*" % U[:24], fails)
    assert re.fullmatch("  entry 0 g 1024 %s0800[0-9a-f]*" % T[:32], below)
    assert place == "%s:4" % (bench.pytester.path / "up.expect")
    # A byte order mark in front is passed over, and an expectation that admits no frame doesn't hold.
    bench.put("up.expect", "\ufeff257 tags=1 outer(vid=5) -> leave\r\n")
    assert bench.failure() == ["line 1 admits no frame", "%s:1" % (bench.pytester.path / "up.expect")]
    # A trace in words stands beside expectations, too.
    (bench.pytester.path / "up.trace").unlink()
    bench.put("up.onu", "create gem-port 0x0401 port-id=1024 tcont=0x8001 direction=both\n")
    bench.put("up.expect", "257 any -> drop 5\n")
    bench.run().assert_outcomes(passed=1)


def test_expectations_that_are_bad(bench: Bench) -> None:
    bench.put("up.trace", SCRIPT)
    bench.put("up.expect", "257 any -> leave\n257 tags=1 vid=5000 -> leave\n257 any -> laeve\n")
    path = bench.pytester.path / "up.expect"
    # Each line is an item, and none of them is checked.
    bench.run().assert_outcomes(failed=3)
    first, second = bench.failure("-k", "laeve")
    assert first == "%s:2:16: a VID is at most 4095, found `5000`" % path
    assert second.startswith("%s:3:12: found `laeve`, expected any, leave, drop, gem, " % path)
    bench.put("up.expect", "257 any -> leave\n")
    bench.put("up.trace", SCRIPT + "x\n")
    assert bench.failure() == ["line 6 is bad", "%s:6" % (bench.pytester.path / "up.trace")]


TESTS = """
import pytest
REQUESTS = %r
U, T = bytes.fromhex(%r), bytes.fromhex(%r)

@pytest.fixture
def bench(onu_history, unit):
    bench = onu_history.watch(unit)
    for request in REQUESTS:
        bench.message(bytes.fromhex(request))
    return bench

def test_right(bench, onu_history):
    onu_history.in_force()
    assert bench.forward(257, U).frame == T
    assert bench.forward(258, U).reason == 5

def test_wrong(bench, onu_history):
    onu_history.in_force(5)
    number = onu_history.frame(257, U)
    onu_history.left(number, 1024, U)

def test_fails_itself(bench, onu_history):
    onu_history.stray(None, U)
    assert bench.forward(257, U).frame == U

def test_records_nothing(onu_history):
    pass

def test_settings(bench, onu_history):
    onu_history.settings["allow_strays"] = True
    onu_history.lost(onu_history.frame(258, U))
    onu_history.stray(None, U)

def test_behind_a_script(unit, onu_history):
    onu_history.settings["start"] = "".join("o %%s\\n" %% request for request in REQUESTS)
    onu_history.in_force()
    onu_history.left(onu_history.frame(257, U), None, T)

def test_unit(unit):
    assert unit.forward(257, U).reason == 5
    for request in REQUESTS:
        unit.message(bytes.fromhex(request))

def test_another_unit(unit):
    assert unit.forward(257, U).reason == 5
""" % ([message(request) for request in REQUESTS], U, T)


def test_what_a_test_does_is_recorded_and_judged(bench: Bench) -> None:
    bench.put("test_bench.py", TESTS)
    result = bench.run("--onuctl-histories=kept", "-v")
    result.assert_outcomes(passed=5, failed=3)
    result.stdout.fnmatch_lines(["*test_right PASSED*", "*test_wrong FAILED*", "*test_fails_itself FAILED*", "*test_records_nothing FAILED*"])
    kept = sorted((bench.pytester.path / "kept").iterdir())
    assert len(kept) == 6
    said = bench.failure("--onuctl-histories=kept", "-k", "test_wrong", "test_bench.py")
    (path,) = (each for each in kept if "test_wrong" in each.name)
    assert said == ["deviation at line 13", "frame 0, sent into port 257 at line 12", "seen g 1024 " + U, "version 5 g 1024 " + T, "%s:13" % path]
    assert path.read_text() == history("w 5", "f 257 " + U, "g 0 1024 " + U)
    assert bench.failure("-k", "test_records_nothing", "test_bench.py")[0] == "nothing was judged: no reply, no frame that ended"
    # The kept ones are histories as others are.
    bench.run("kept", "-k", "test_right").assert_outcomes(passed=1)


def test_a_recorded_history_has_a_place_without_a_folder(bench: Bench) -> None:
    bench.put("test_bench.py", TESTS)
    place, line = bench.failure("-k", "test_wrong")[-1].rsplit(":", 1)
    assert (Path(place).read_text(), line) == (history("w 5", "f 257 " + U, "g 0 1024 " + U), "13")


def test_items_are_selected_and_run_side_by_side(bench: Bench) -> None:
    for number in range(8):
        bench.put("%d.history" % number, WRONG if number == 5 else RIGHT)
    bench.run("-k", "3.history or 5.history").assert_outcomes(passed=1, failed=1)
    bench.run("5.history::judged").assert_outcomes(failed=1)
    pytest.importorskip("xdist")
    bench.run("-n", "2", "--junitxml=report.xml").assert_outcomes(passed=7, failed=1)
    assert len([*xml.etree.ElementTree.parse(bench.pytester.path / "report.xml").getroot().iter("testcase")]) == 8

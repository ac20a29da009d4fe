"""How a page is asked for wrongly: the words, and what is said. right.history, bad.history, bad.script, bad.onu and up.onu are there."""
from help_texts import REPORT

USAGE = "\nUsage: python -m onuctl.report [OPTIONS] --out <FILE> <HISTORY>"
# Words that are wrong, and why; the usage stands behind it.
WRONG = (
    ("--out a.html", "<HISTORY> is missing"),
    ("right.history", "--out is missing"),
    ("--out a.html right.history other.history", "unexpected word 'other.history'"),
    ("--out a.html --open right.history", "unexpected word '--open'"),
    ("--out a.html --padded=1 right.history", "unexpected word '--padded=1'"),
    ("--out= right.history", "--out has no value"),
    ("right.history --out", "--out has no value"),
    ("--out a.html --out b.html right.history", "--out is given twice"),
    *((f"--out a.html --most {count} right.history", f"--most wants a number from 1, not '{count}'") for count in ("0", "-1", "many", "1_0")),
    *((f"--out a.html --least {count} right.history", f"--least wants a number from 0 to 9989, not '{count}'") for count in ("9990", "x")),
)
NO_VID = "line 1, column 24: gem-port has no attribute `vid`, expected port-id, tcont, direction, traffic-management, upstream-descriptor, uni-counter, " \
    "priority-queue, encryption-state, downstream-descriptor or key-ring"
# Files and texts at fault, with the status.
FAULTS = (
    ("--out a.html none.history", 1, "cannot read none.history: No such file or directory"),
    ("--out a.html .", 1, "cannot read .: Is a directory"),
    ("--out a.html bad.history", 2, "bad.history: line 2 is bad"),
    ("--out a.html --start bad.script right.history", 2, "bad.script: line 2 is bad"),
    ("--out a.html --trace bad.script right.history", 2, "bad.script: line 2 is bad"),
    ("--out a.html --start bad.onu right.history", 2, f"bad.onu: {NO_VID}"),
    ("--out a.html --trace bad.onu right.history", 2, f"bad.onu: {NO_VID}"),
    ("--out none/a.html right.history", 1, "cannot write none/a.html: No such file or directory"),
    ("--out right.history right.history", 1, "cannot write right.history: it is the same file as right.history"),
    ("--out a.html --start - -", 1, "cannot read -: standard input is named more than once"),
    ("--out ./up.onu --trace up.onu right.history", 1, "cannot write ./up.onu: it is the same file as up.onu"),
)
NO_JINJA = "Jinja2 isn't there, which makes the pages: apt-get install python3-jinja2, or pip install jinja2"


def expect_all(cases, without_jinja):
    """Adds what is said of each. `without_jinja` gives what is said where Jinja2 isn't installed."""
    def expect(words, status, output="", errors=""):
        cases.expect(f"report, {words or 'no word'}", ["-B", "-m", "onuctl.report", *words.split()], status, output, errors)

    expect("--help", 0, REPORT)
    expect("-h", 0, REPORT)
    expect("", 1, errors=REPORT)
    for words, why in WRONG:
        expect(words, 1, errors=f"onuctl.report: {why}{USAGE}")
    for words, status, why in FAULTS:
        expect(words, status, errors=f"onuctl.report: {why}")
    to_output = ["-B", "-m", "onuctl.report", "--out", "-", "right.history"]
    cases.expect("report to a full device", to_output, 1, errors="onuctl.report: cannot write -: No space left on device", shell="> /dev/full")
    cases.expect("report that nobody reads", to_output, 141, heard=False)
    cases.expect_of("report without Jinja2", without_jinja, 1, errors=f"onuctl.report: {NO_JINJA}")

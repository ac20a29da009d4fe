#!/usr/bin/env python3
"""Writes the manual page of the program, onuctl.1: all that its helps say, and the date of the changelog's newest release. With --live,
--report or --fleet it writes that of a module of the Python package, onuctl-live.1 and so on: all that the help of `python -m onuctl.live` says.
usage: man.py [--live | --report | --fleet] PROGRAM"""
import os
import re
import sys

sys.dont_write_bytecode = True
from helps import MODULES, Help, Helps, module_help  # noqa: E402

CHANGELOG = os.path.join(os.path.dirname(os.path.abspath(__file__)), "../CHANGELOG.md")
# So many characters stand in a line of an 80-column page.
WIDTH = 68
DESCRIPTION = (
    "A reference implementation of the upstream data path of an optical network unit (ITU-T G.988).",
    "It takes OMCI messages and Ethernet frames, and gives the replies and the frames that leave.",
    "A machine-checked proof shows that they match the model.",
)
# The topic that has a section of its own, as a manual page has it.
STATUSES = "statuses"
FILES = (
    ("README.md", "What the program is for, with examples."),
    ("docs/FORMATS.md", "Scripts, traces, histories, captures and all that is written."),
    ("docs/WORDS.md", "Scripts in words."),
    ("docs/RULES.md", "What a message is answered, and what becomes of a frame."),
    ("examples", "A folder a task: command, input and output."),
)
# What brings the files that the examples name into the current folder, wherever the program is installed.
BRING = (
    'program=$(readlink -f "$(command -v onuctl)")',
    'cp -R "${program%/bin/onuctl}/share/doc/onuctl/examples" .',
    "cp examples/run/up.onu examples/run/up.pcap .",
    "cp examples/run/up.trace up.script",
    "cp examples/record/bench.history .",
    "cp examples/changes/overwritten.trace new.script",
    "cp examples/expect/up.expected .",
)
# The captures of one clock have a file of a name that other examples use.
BRING_FOR = {"record": ("cp examples/record/*.pcap .",)}


def shown(text):
    """A text as roff shows it: each character can be copied as it stands, and no line begins a request."""
    for character, roff in (("\\", "\\e"), ("-", "\\-"), ("'", "\\(aq"), ("`", "\\(ga")):
        text = text.replace(character, roff)
    return "\\&" + text if text.startswith(".") else text


def entry(indent, tag, text):
    """A tag of roff with what is said of it, below it where it passes the indent."""
    return [f".TP {indent}", tag, shown(text)]


def units_of(text):
    """The words of a line that may be folded: an option stays on the line of its value."""
    words, units = text.split(" "), []
    while words:
        unit = words.pop(0)
        if unit.startswith("--") and words and words[0][:1] not in ("-", "|"):
            unit += " " + words.pop(0)
        units.append(unit)
    return units


def folded(text, end):
    """A text in lines that the page holds. Each but the last has the end."""
    if len(text) <= WIDTH:
        return [shown(text)]
    lines, line = [], ""
    for unit in units_of(text):
        if line and len(f"{line} {unit}{end}") > WIDTH:
            lines.append(shown(line + end))
            line = "   "
        line += (" " if line else "") + unit
    return [*lines, shown(line)]


def rows(lines):
    """Lines that stay apart, set in."""
    return [".RS 4", ".PP", ".nf", *lines, ".fi", ".RE"] if lines else []


def paragraphs(lines):
    """The lines of a help behind its words. What it sets in stays a row, and each of its columns is one; a label is a tag."""
    set_in = []
    for line in lines:
        if line.startswith(" "):
            set_in += [row for column in re.split("    *", line[2:]) for row in folded(column, "")]
            continue
        yield from rows(set_in)
        set_in = []
        label, _, text = line.partition(" ")
        if re.match("[A-Z]+: ", line):
            yield from entry(4, f".I {label}", text)
        else:
            yield from (".PP", shown(line))
    yield from rows(set_in)


def call(name, rest):
    """How the program is called. The last request is there since .YS lets roff hyphenate again."""
    return [f'.SY "{name}"', rest, ".YS", ".nh"]


def usage(name, text):
    """How a command is called: options bold and on the line of their values, values in italics."""
    return call(f"onuctl {name}", in_faces(shown(text[len(f"onuctl {name} "):])))


def in_faces(rest):
    """What stands behind a command's name, in roff, with its faces."""
    for pattern, roff in ((" <", r"\\fR\\ <"), (r"\\-\\-", r"\\fB\\-\\-"), ("<", r"\\fI"), (">", r"\\fR")):
        rest = re.sub(pattern, roff, rest)
    return rest


def words_of(said, name):
    """The arguments and options of a command. That each takes --help is said once."""
    for argument in said.arguments:
        yield from entry(4, f".I {shown(argument.name)}", argument.help)
    for option in said.options:
        if name and option.long == "--help":
            continue
        tag = shown(f"{option.short}, {option.long}" if option.short else option.long)
        yield from entry(4, f".B {tag}" + (f" \\fI{shown(option.value)}\\fR" if option.value else ""), option.help)


def commands(helps):
    yield ".SH COMMANDS"
    for name, said in helps.commands.items():
        yield from (f".SS {name}", shown(f"{said.about}."), *usage(name, said.usage), *words_of(said, name), *paragraphs(said.more))


def numbers(helps):
    yield from (".SH NUMBERS", *paragraphs(helps.program.more))
    for name, topic in helps.topics.items():
        if name != STATUSES:
            yield from (f".SS {name}", *paragraphs(topic.lines))


def examples(helps):
    yield from (".SH EXAMPLES", shown("These commands bring the files that the examples name into the current folder:"))
    yield from rows([shown(line) for line in BRING])
    for name, said in helps.commands.items():
        if said.examples:
            lines = [line for text in (*BRING_FOR.get(name, ()), *said.examples) for line in folded(text, " \\")]
            yield from (".PP", shown(f"{said.about}:"), *rows(lines))


def head(helps, date):
    about = helps.program.about
    yield f'.TH ONUCTL 1 "{date}" "{helps.version.split(",")[0]}" "User Commands"'
    # Without hyphens of its own and with a ragged right, words and options can be found and copied.
    yield from (".nh", ".ad l", ".SH NAME", f"onuctl \\- {shown(about[:1].lower())}{about[1:]}", ".SH SYNOPSIS")
    yield from call("onuctl", "\\fICOMMAND\\fR [\\fIOPTION\\fR]...")
    yield from call("onuctl help", f"[\\fICOMMAND\\fR | {' | '.join(helps.topics)}]")
    yield from call("onuctl", "\\fB\\-\\-help\\fR | \\fB\\-\\-version\\fR")
    yield from (".SH DESCRIPTION", *map(shown, DESCRIPTION), ".SH OPTIONS")
    yield shown("The commands have options of their own. Each but help also takes --help.")
    yield from words_of(helps.program, "")


def tail(helps):
    yield from (".SH EXIT STATUS", *paragraphs(helps.topics[STATUSES].lines))
    yield from (".SH FILES", shown("Below the folder where the program is installed:"))
    for name, text in FILES:
        yield from entry(4, f".I share/doc/onuctl/{name}", text)


def date():
    """The date of the changelog's newest release."""
    with open(CHANGELOG, encoding="utf-8") as file:
        released = re.search(r"^## .*\(([0-9-]*)\)", file.read(), re.MULTILINE)
    return released[1] if released else ""


def page(helps):
    """The manual page."""
    lines = [*head(helps, date()), *commands(helps), *numbers(helps), *tail(helps), *examples(helps)]
    return "\n".join([*lines, ".SH SEE ALSO", ".BR dot (1),", *(f".BR onuctl-{name} (1)," for name in MODULES), ".BR wireshark (1)"]) + "\n"


# What else to read beside the page of a module.
SEE_ALSO = {"live": ("packet (7)", "tcpdump (8)"), "report": ("dot (1)",), "fleet": ("onuctl-report (1)",)}


def module_page(name, version, text):
    """The manual page of a module, by the version of the program and the help."""
    said = Help(text)
    # Behind the call itself stand its options.
    call_of, rest = said.usage.split(" [", 1)
    lines = [
        f'.TH ONUCTL-{name.upper()} 1 "{date()}" "{version.split(",")[0]}" "User Commands"',
        *(".nh", ".ad l", ".SH NAME", f"onuctl-{name} \\- {shown(said.about[:1].lower())}{shown(said.about[1:])}", ".SH SYNOPSIS"),
        *call(shown(call_of), in_faces(shown(f"[{rest}"))),
        *(".SH OPTIONS", *words_of(said, ""), ".SH DESCRIPTION", *paragraphs(said.more), ".SH EXAMPLES"),
    ]
    for example in said.examples:
        lines += rows(folded(example, " \\"))
    *others, last = ("onuctl (1)", *SEE_ALSO[name])
    return "\n".join([*lines, ".SH SEE ALSO", *(f".BR {other}," for other in others), f".BR {last}"]) + "\n"


def main(words):
    module = words[0][2:] if len(words) == 2 and words[0] in [f"--{name}" for name in MODULES] else None
    if len(words) != (1 if module is None else 2):
        sys.exit(__doc__)
    helps = Helps(words[-1])
    sys.stdout.write(page(helps) if module is None else module_page(module, helps.version, module_help(module)))
    return 0


if __name__ == "__main__":
    sys.exit(main(sys.argv[1:]))

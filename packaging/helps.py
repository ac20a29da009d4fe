"""What the helps of the program say, for the manual page and the completions, and those of the modules `python -m onuctl.NAME`, for pages of their own."""
import os
import re
import subprocess
import sys
from typing import Dict, List, NamedTuple

COLUMNS = re.compile("  +")
HEADING = re.compile("[A-Z][a-z]*:")
SHORT = re.compile("-[a-zA-Z], ")
TOPIC = re.compile(r"onuctl help ([a-z]+)")


class Argument(NamedTuple):
    """A word that no option's name stands before, as the help shows it: in brackets, and with three points where there may be several."""

    name: str
    help: str

    def value(self):
        return self.name.strip("[<>].")

    def is_repeated(self):
        return self.name.endswith("...")

    def takes_file(self):
        return self.value() in ("FILE", "TRACE")


class Option(NamedTuple):
    """An option by its long name. `value` and `short` are empty where it has none."""

    long: str
    value: str
    help: str
    short: str

    def takes_file(self):
        return "FILE" in self.value


class Help:
    """The help of a command, or of the program itself: what it is about, how it is called, its words, and the lines behind them."""

    def __init__(self, text):
        self.about, self.usage = "", ""
        self.commands: Dict[str, str] = {}
        self.arguments: List[Argument] = []
        self.options: List[Option] = []
        self.more: List[str] = []
        self.examples: List[str] = []
        part = ""
        for number, line in enumerate(text.splitlines()):
            if not line or HEADING.fullmatch(line):
                part = line
            elif not self.take_line(line) and not self.take_word(part, line):
                if number == 0:
                    self.about = line
                else:
                    self.more.append(line)

    def take_line(self, line):
        """Takes a line that says what it is at its beginning."""
        kind, _, text = line.partition(": ")
        if kind == "Usage":
            self.usage = text
        elif kind == "Example":
            self.examples.append(text)
        return kind in ("Usage", "Example")

    def take_word(self, part, line):
        """Takes a line of a list: a word, and what is said of it behind two blanks or more."""
        word, *said = COLUMNS.split(line.lstrip(" "), 1)
        help_text = "".join(said)
        if part == "Commands:" and re.match("  [a-z]", line):
            self.commands[word] = help_text
        elif part == "Arguments:" and re.match(r"  [\[<]", line):
            self.arguments.append(Argument(word, help_text))
        elif part == "Options:" and re.match(" +-", line):
            self.options.append(option_of(word, help_text))
        else:
            return False
        return True


def option_of(word, help_text):
    short = word[:2] if SHORT.match(word) else ""
    long, *value = SHORT.sub("", word, 1).split(" ")
    return Option(long, "".join(value[:1]).replace("<", "").replace(">", ""), help_text, short)


class Topic:
    """What stands behind `help` beside the commands: its lines, and what it is about, by their headings up to a colon."""

    def __init__(self, text):
        self.lines = text.splitlines()
        self.about = "; ".join(line.split(": ")[0] for line in self.lines if not line.startswith(" "))


class Helps:
    """All of them: the program's own, and those of the commands and of the topics, by name and in order."""

    def __init__(self, program):
        def ask(*words):
            return subprocess.run([program, *words], stdin=subprocess.DEVNULL, stdout=subprocess.PIPE, check=True).stdout.decode()

        own = ask("--help")
        self.program = Help(own)
        self.commands = {name: Help(ask("help", name)) for name in self.program.commands}
        topics = [line for line in own.splitlines() if line.startswith(("Numbers in words: ", "Kinds of findings: "))]
        self.topics = {name: Topic(ask("help", name)) for line in topics for name in TOPIC.findall(line)}
        self.version = ask("--version").rstrip("\n")

    def all(self):
        """Each help by the name of its command; the program's own has none."""
        return {"": self.program, **self.commands}


# The modules of the package in this repository that are called by `python -m`.
MODULES = ("live", "report", "fleet")


def module_help(name):
    """The help of `python -m onuctl.NAME`. The library must be built."""
    package = os.path.join(os.path.dirname(os.path.dirname(os.path.abspath(__file__))), "python")
    command = [sys.executable, "-B", "-m", f"onuctl.{name}", "--help"]
    environment = {**os.environ, "PYTHONPATH": package}
    return subprocess.run(command, stdin=subprocess.DEVNULL, stdout=subprocess.PIPE, env=environment, check=True).stdout.decode()

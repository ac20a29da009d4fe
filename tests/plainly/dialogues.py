"""Dialogues: what their lines mean, and the calls of the program that a file of them asks for.

A file of dialogues has the lines of scripts, each before its answer, and what else the program is asked then:

  == NAME            begins a dialogue with a new unit; the lines before the first of these begin every dialogue of the file
  # TEXT             is for readers
  o DIGITS           a message, and r DIGITS a reply: zeros up to byte 40 and the trailer come behind
  f PORT DIGITS      a frame that comes in, and g GEM DIGITS one that leaves
  -   m N   d N      the other answers, as they stand
  ~TEXT              a line of the script as it stands, but that \\r is a CR, \\t a tab and \\040 a blank
  ! STATUS TEXT      the status, and what is said on standard error, where it isn't 0 and nothing; without TEXT nothing is said
  !! TEXT            a further line of that, and !! alone an empty one
  > LINE             a line of a history, as above, but that g N GEM DIGITS is frame N as it left; w and w N stand as they are
  @ LINE             a line of the script that was carried out before the history: the word @ behind judge stands for a file with these lines
  % LINE             a line with an expectation: the next expect is given it and those ahead of it; frames that it shows are compared as those of diff
  $ WORDS            the program is asked with these words, and with the messages so far as its trace; judge with the history so far
  < LINE             a line that is decoded, as above; those that follow one another are decoded together
  | TEXT             a line that is written then, with the same escapes; of cover, diff and hitless, and in the coverage of judge, `..` stands for digits
                     of frames, whichever they show

Blanks among digits are left out. Any other line is a fault."""
import re

DIGITS = "([0-9a-fA-F ]*)"
# Lines whose digits are joined: what stands before them, and the digits.
FORMS = {
    "o": re.compile("(o )" + DIGITS),
    "r": re.compile("(r )" + DIGITS),
    "f": re.compile("(f [0-9]+ )" + DIGITS),
    "g": re.compile("(g [0-9]+ )" + DIGITS),
}
LEFT = re.compile("(g [0-9]+ [0-9]+ )" + DIGITS)
PLAIN = re.compile("-|[md] [0-9]+")
WAIT = re.compile("w( [0-9]+)?|d [0-9]+")
# The commands that show frames of their own choice.
SHOWING = ("cover", "diff", "hitless", "expect")
STATUS = re.compile("! ([0-9]+)(?: (.*))?")
ESCAPES = (("\\r", "\r"), ("\\t", "\t"), ("\\040", " "))


class BadDialogue(Exception):
    """A line of a file of dialogues that there isn't."""

    def __init__(self, file, number, line, why="a line of no kind"):
        super().__init__(f"{file}, line {number}: {why}: {line}")


def message(digits):
    """The digits of a whole message or reply: zeros up to byte 40, and the trailer. Longer ones stand as they are."""
    digits = digits.replace(" ", "").ljust(80, "0")
    return digits + "0000002800000000" if len(digits) == 80 else digits


def escaped(text):
    for escape, meant in ESCAPES:
        text = text.replace(escape, meant)
    return text


def whole(line):
    """A line of a script or an answer, whole, or None where it is none."""
    mark = line[:1]
    if mark == "~":
        return escaped(line[1:])
    if PLAIN.fullmatch(line) or mark == "#":
        return line
    found = FORMS[mark].fullmatch(line) if mark in FORMS else None
    if not found:
        return None
    front, digits = found.groups()
    return front + (message(digits) if mark in "or" else digits.replace(" ", ""))


def event(line):
    """A line of a history, whole, or None where it is none."""
    if line.startswith("g "):
        found = LEFT.fullmatch(line)
        return found and found[1] + found[2].replace(" ", "")
    return line if WAIT.fullmatch(line) else whole(line)


def stands_for(wanted, line):
    """Whether a line is a wanted one, with any digits where that has `..`."""
    return re.fullmatch("[0-9a-f]+".join(map(re.escape, wanted.split(".."))), line)


class Call:
    """A call of the program: the dialogue that asks for it, its words, the text that it is given, the script before a history, the expectations, and
    what must come of it. Lines that it must write and say stand with the numbers of the lines that ask for them; `at` is the line by which the call
    begins."""

    def __init__(self, file, name, at, words, given, start=""):
        self.file, self.name, self.at, self.words, self.given, self.start = file, name, at, words, given, start
        self.wanted, self.errors, self.status, self.status_at = [], [], 0, at
        self.expected = ""

    def ends_well(self):
        return self.status == 0

    def shows(self, wanted):
        """Whether a line of this call shows frames of the program's own choice."""
        return self.words[0] in SHOWING or self.words[0] == "judge" and (wanted.startswith("unseen ") or '"unseen":' in wanted)

    def compared(self, written):
        """What is compared of that which is written: `..` for the digits of frames where a wanted line has it in their place."""
        lines = written.decode("latin1").split("\n")
        for place, (_, wanted) in enumerate(self.wanted[:len(lines)]):
            if self.shows(wanted) and stands_for(wanted, lines[place]):
                lines[place] = wanted
        return "\n".join(lines).encode("latin1")


class Reader:
    """Reads the lines of a file, and gathers its calls."""

    def __init__(self, file):
        self.file, self.calls, self.opening, self.name = file, [], [], None

    def begin(self, number, name):
        self.end()
        self.name, self.at, self.looks = name, number, 0
        self.script, self.history, self.start, self.answers = "", "", "", []
        self.expected = ""
        self.look, self.decoded, self.shown = None, "", []
        self.forget_end()
        for at, line in self.opening:
            self.take(at, line)

    def forget_end(self):
        self.errors, self.status, self.status_at = [], 0, self.at

    def call(self, at, words, given, wanted):
        call = Call(self.file, self.name, at, words, given, self.start)
        call.wanted, call.errors, call.status, call.status_at = wanted, self.errors, self.status, self.status_at
        if words[0] == "expect":
            call.expected, self.expected = self.expected, ""
        self.calls.append(call)

    def end_look(self):
        """Ends what was asked beside the script."""
        if self.look is None:
            return
        at, words = self.look
        given = self.decoded if words == ["decode"] else self.history if words[0] == "judge" else self.script
        self.call(at, words, given, self.shown)
        self.looks += 1
        self.forget_end()
        self.look, self.decoded, self.shown = None, "", []

    def end(self):
        """Ends a dialogue: its script is replayed, if it has one, or nothing else."""
        if self.name is None:
            return
        self.end_look()
        if self.script or self.answers or not self.looks:
            self.call(self.at, ["replay"], self.script, self.answers)

    def read(self, number, line):
        if line.startswith("== "):
            self.begin(number, line[3:])
        elif self.name is None:
            self.opening.append((number, line))
        else:
            self.take(number, line)

    def take(self, number, line):
        if not line or line.startswith("#"):
            return
        taken = self.take_end(number, line) if line[0] in "!|" else self.take_decoded(number, line) if line[0] == "<" else \
            self.take_expected(line) if line[0] == "%" else self.take_script(number, line)
        if not taken:
            raise BadDialogue(self.file, number, line)

    def take_end(self, number, line):
        """What is written of a look, what is said, and the status."""
        if line[0] == "|":
            if self.look is None:
                raise BadDialogue(self.file, number, line, "nothing is asked that writes this")
            self.shown.append((number, escaped(line[2:] if line.startswith("| ") else line[1:])))
            return True
        if line == "!!" or line.startswith("!! "):
            self.errors.append((number, line[3:]))
            return True
        found = STATUS.fullmatch(line)
        if found:
            self.status, self.status_at = int(found[1]), number
            self.errors = [] if found[2] is None else [(number, found[2])]
        return found

    def take_decoded(self, number, line):
        """A line that is decoded."""
        text = whole(line[2:]) if line.startswith("< ") else None
        if text is not None:
            if not self.look or self.look[1] != ["decode"]:
                self.end_look()
                self.look = number, ["decode"]
            self.decoded += text + "\n"
        return text is not None

    def take_expected(self, line):
        """A line of expectations, which the next expect is given."""
        self.end_look()
        self.expected += line[2:] + "\n"
        return line == "%" or line.startswith("% ")

    def take_script(self, number, line):
        """A line of the script, an answer, a line of the history, or other words."""
        self.end_look()
        if line.startswith("$ "):
            self.look = number, line[2:].split()
            return self.look[1]
        text = event(line[2:]) if line.startswith("> ") else whole(line[2:]) if line.startswith("@ ") else whole(line)
        if text is None:
            return False
        if line[0] == ">":
            self.history += text + "\n"
        elif line[0] == "@":
            self.start += text + "\n"
        elif line[0] in "~of":
            self.script += text + "\n"
        else:
            self.answers.append((number, text))
        return True


def calls_of(file, text):
    """The calls that the text of a file of dialogues asks for, in order. Raises BadDialogue."""
    reader = Reader(file)
    for number, line in enumerate(text.split("\n"), 1):
        reader.read(number, line)
    reader.end()
    return reader.calls

"""Cases of the program as a process: its words, what it is given and by which redirections, and what must come of it. Each of output, errors and
status is compared whole."""
import os
import subprocess
import sys
from concurrent.futures import ThreadPoolExecutor

from program import TOP, first_difference, status_of


# The status of a command that `timeout` ends.
ENDED_BY_TIME = 124


def text(lines):
    """A text, which ends with a line feed where it isn't empty."""
    return (lines + "\n" if lines else "").encode()


def pipe_without_reader():
    """The end to write to of a pipe with nobody at the other end."""
    reading, writing = os.pipe()
    os.close(reading)
    return writing


class Case:
    def __init__(self, at, name, words, wanted, how):
        self.at, self.name, self.wanted, self.how = at, name, wanted, how
        self.words = words.split() if isinstance(words, str) else words

    def command(self, called):
        """As it is shown, of a program that is called so."""
        words = [os.fsdecode(word) for word in self.words]
        return " ".join([called, *(word if word and " " not in word else repr(word) for word in words), self.how.get("shell", "")]).rstrip()


class Cases:
    """The cases of a file, of which each call of `expect` adds one. They are played side by side in one folder, so no case changes a file that
    another one reads."""

    def __init__(self, file, program, folder, called="onuctl"):
        self.file, self.program, self.folder, self.called = os.path.relpath(file, TOP), program, folder, called
        self.cases, self.skipped = [], 0

    def expect(self, name, words, status=0, output="", errors="", **how):
        """A case. `shell` is what stands behind the command in a shell, redirections or a pipe; `given` are bytes on standard input; where `heard`
        is False nobody reads the output; `writer` names a file that is written to a named pipe meanwhile."""
        self.cases.append(Case(sys._getframe(1).f_lineno, name, words, (output, errors, status), how))

    def expect_of(self, name, call, status=0, output="", errors=""):
        """A case of a call that gives the output, the errors and the status."""
        self.cases.append(Case(sys._getframe(1).f_lineno, name, [], (output, errors, status), {"call": call}))

    def skip(self, name, why):
        self.skipped += 1
        print(f"skipped: {name}: {why}")

    def run(self, case):
        """The output, the errors and the status of a case."""
        how = case.how
        if "call" in how:
            return how["call"](self.program, self.folder)
        words = [self.program, *case.words]
        if "shell" in how:
            words = ["sh", "-c", '"$0" "$@" ' + how["shell"], *words]
        writer = subprocess.Popen(["sh", "-c", 'exec cat "$0" > "$1"', *how["writer"]], cwd=self.folder) if "writer" in how else None
        output = subprocess.PIPE if how.get("heard", True) else pipe_without_reader()
        try:
            done = subprocess.run(words, input=how.get("given", b""), cwd=self.folder, stdout=output, stderr=subprocess.PIPE, timeout=60, check=False)
        except subprocess.TimeoutExpired as ended:
            return ended.stdout or b"", b"no end within 60 seconds\n", ENDED_BY_TIME
        finally:
            if writer:
                writer.kill()
                writer.wait()
            if output != subprocess.PIPE:
                os.close(output)
        return done.stdout or b"", done.stderr, status_of(done.returncode)

    def differences(self, case):
        """What is said where something differs."""
        found = self.run(case)
        for part, came, wanted in zip(("standard output", "standard error"), found, case.wanted):
            other = first_difference(came, text(wanted))
            if other:
                place, came_line, wanted_line = other
                yield f"  {part}, line {place + 1}\n  expected: {wanted_line}\n  found: {came_line}\n"
        if found[2] != case.wanted[2]:
            yield f"  expected: status {case.wanted[2]}\n  found: status {found[2]}\n"

    def said(self, case):
        said = "".join(self.differences(case))
        return said and f"FAILED: {case.name}\n  file: {self.file}, line {case.at}\n  command: {case.command(self.called)}\n{said}"

    def play(self):
        """Plays all, says what differs in their order, and gives whether all are as they must be."""
        with ThreadPoolExecutor(4) as threads:
            failures = [said for said in threads.map(self.said, self.cases) if said]
        sys.stdout.write("".join(failures))
        print(f"{len(self.cases) - len(failures)} passed, {len(failures)} failed, {self.skipped} skipped")
        return not failures

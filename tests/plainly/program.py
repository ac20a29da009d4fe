"""The program that is tested, and what is said where it writes or says something else."""
import os
import subprocess
import sys

TOP = os.path.abspath(os.path.join(os.path.dirname(os.path.abspath(__file__)), "../.."))
BUILT = os.path.join(TOP, "crates/onuctl/out/onuctl")


def program_of(words, name):
    """The program that a runner's first word names, or that is built here. Ends where there is none."""
    path = os.path.abspath(words[0]) if words else BUILT
    if not os.access(path, os.X_OK):
        sys.exit(f"{name}: no program {path}; ./onuctl builds it")
    return path


def status_of(returned):
    """The status as a shell says it: of a process that a signal ended 128 and its number."""
    return returned if returned >= 0 else 128 - returned


def ask(command, given=b"", **more):
    """What a command writes, what it says, and its status."""
    done = subprocess.run(command, input=given, stdout=subprocess.PIPE, stderr=subprocess.PIPE, check=False, **more)
    return done.stdout, done.stderr, status_of(done.returncode)


def first_difference(found, wanted):
    """The place of the first line in which two texts differ, from 0, and both lines there, as they are shown; None where there is none."""
    if found == wanted:
        return None
    ours, theirs = lines_of(found), lines_of(wanted)
    same = next((at for at, pair in enumerate(zip(ours, theirs)) if pair[0] != pair[1]), min(len(ours), len(theirs)))
    return same, shown(ours[same:]), shown(theirs[same:])


def lines_of(data):
    """The lines of a text, each with its line feed, which the last may lack."""
    *lines, last = data.split(b"\n")
    return [line + b"\n" for line in lines] + ([last] if last else [])


def shown(lines):
    """The first of some lines, as it is shown. One without its end is told from one with it."""
    if not lines:
        return "no more lines"
    line = lines[0].decode("utf-8", "backslashreplace")
    return line[:-1] if line.endswith("\n") else line + " (without a line feed)"

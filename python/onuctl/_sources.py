"""The files of a fleet: those that paths name, below folders, behind globs, of lists and in tar archives."""

import glob
import lzma
import os
import sys
import tarfile
import zlib
from typing import Iterable, Iterator, NamedTuple, Optional, Sequence, Tuple

ARCHIVES = (".tar", ".tar.gz", ".tgz", ".tar.bz2", ".tbz2", ".tar.xz", ".txz")
# What reading an archive raises where it is cut or broken.
_BROKEN = (tarfile.TarError, OSError, EOFError, zlib.error, lzma.LZMAError)


class Source(NamedTuple):
    """A file of a fleet, and where it is read; or a name that can't be read, and why."""

    name: str
    #: Its path below the folder or in the archive that was named; of a file that was named itself its last part.
    below: str
    #: How many bytes it has.
    size: int = 0
    #: Where it is read, where its bytes aren't here.
    path: Optional[str] = None
    data: Optional[bytes] = None
    #: Likewise, of the file that it is compared with.
    beside: Optional[str] = None
    beside_data: Optional[bytes] = None
    #: Why it can't be read.
    why: Optional[str] = None


def reason_of(fault: BaseException) -> str:
    """Why something can't be read, in words."""
    return (isinstance(fault, OSError) and fault.strerror) or str(fault) or type(fault).__name__


def _refused(name: str, why: str) -> Source:
    return Source(name, name, why=why)


def _of_file(path: str, size: int) -> Source:
    return Source(path, os.path.basename(path), size, path)


def _listed(folder: str, below: str, endings: Tuple[str, ...]) -> Iterator[Source]:
    """The files below a folder, by their names; a folder's own name is its place among them. Links to folders aren't followed."""
    try:
        with os.scandir(folder) as found:
            entries = sorted(found, key=lambda entry: entry.name)
    except OSError as fault:
        yield _refused(folder, reason_of(fault))
        return
    for entry in entries:
        place = os.path.join(below, entry.name)
        if entry.is_dir(follow_symlinks=False):
            yield from _listed(entry.path, place, endings)
        elif entry.name.endswith(endings):
            yield _of_entry(entry, place)


def _of_entry(entry: "os.DirEntry[str]", below: str) -> Source:
    try:
        if not entry.is_file():
            return _refused(entry.path, "it is no file")
        return Source(entry.path, below, entry.stat().st_size, entry.path)
    except OSError as fault:
        return _refused(entry.path, reason_of(fault))


def _members(path: str, endings: Tuple[str, ...]) -> Iterator[Source]:
    """The files in an archive, in its order. One at a time is in memory."""
    try:
        with tarfile.open(path, "r|*") as archive:
            while True:
                member = archive.next()
                if member is None:
                    return
                # Else the archive would keep the heads of all its members.
                archive.members = []  # type: ignore[attr-defined]
                if member.name.endswith(endings) and not member.isdir():
                    yield _of_member(path, archive, member)
    except _BROKEN as fault:
        yield _refused(path, "the archive is broken: %s" % reason_of(fault))


def _of_member(path: str, archive: tarfile.TarFile, member: tarfile.TarInfo) -> Source:
    name = "%s:%s" % (path, member.name)
    file = archive.extractfile(member) if member.isreg() else None
    if file is None:
        return _refused(name, "a link or a device in an archive isn't read")
    data = file.read()
    return Source(name, member.name, len(data), data=data)


def _some(name: str, found: Iterable[Source], why: str) -> Iterator[Source]:
    """What was found by a name; where that is nothing, the name can't be read, and why."""
    nothing = True
    for source in found:
        nothing = False
        yield source
    if nothing:
        yield _refused(name, why)


def _globbed(pattern: str, endings: Tuple[str, ...]) -> Iterator[Source]:
    """What a pattern names. With `**` these are files alone, since folders would be read twice."""
    found = sorted(glob.glob(pattern, recursive=True))
    if "**" in pattern:
        found = [path for path in found if not os.path.isdir(path)]
    if not found:
        yield _refused(pattern, "nothing has such a name")
    for path in found:
        yield from _named(path, endings)


def _named(path: str, endings: Tuple[str, ...]) -> Iterator[Source]:
    """The files that a path names."""
    try:
        status = os.stat(path)
    except FileNotFoundError as fault:
        if glob.has_magic(path):
            yield from _globbed(path, endings)
        else:
            yield _refused(path, reason_of(fault))
    except (OSError, ValueError) as fault:
        yield _refused(path, reason_of(fault))
    else:
        lacking = "it holds no file named %s" % " or ".join("*" + ending for ending in endings)
        if os.path.isdir(path):
            yield from _some(path, _listed(path, "", endings), lacking)
        elif path.endswith(ARCHIVES):
            yield from _some(path, _members(path, endings), lacking)
        else:
            yield _of_file(path, status.st_size)


def _listed_on_input(endings: Tuple[str, ...]) -> Iterator[Source]:
    """What the paths on standard input name, a line each."""
    if sys.stdin is None:
        return
    if sys.stdin.isatty():
        print("onuctl.fleet: paths are read from standard input", file=sys.stderr)
    for line in sys.stdin.buffer:
        if line.strip():
            yield from _named(os.fsdecode(line.rstrip(b"\r\n")), endings)


def sources(paths: Sequence[str], endings: Tuple[str, ...]) -> Iterator[Source]:
    """The files that paths name, in their order. `-` is standard input with a path a line. Nothing is read before it is asked for, but names of
    a folder at once."""
    for path in paths:
        if path == "-":
            yield from _some("-", _listed_on_input(endings), "standard input names no file")
        else:
            yield from _named(path, endings)

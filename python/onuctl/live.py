"""A unit on network interfaces of Linux, ``python -m onuctl.live``: one to talk to, by OMCI and by Ethernet.

Proved are its replies and what becomes of each frame. The rest is tested only: this module, ``_wires`` and ``library/live.c``, which read
frames from interfaces and write them there.
"""

import ctypes
import errno
import json
import os
import select
import signal
import socket
import sys
import time
from collections import Counter
from typing import Dict, Iterable, List, NamedTuple, Optional, Sequence, Tuple, Type

from . import _library, _wires
from ._scripts import decode
from ._wires import GEM_PORTS, Listener, Refusal

USAGE = "python -m onuctl.live [OPTIONS] --omci <IFACE> --uni <PORT=IFACE>"
HELP = (
    """\
Put a unit on network interfaces: it answers OMCI messages, and forwards the frames that arrive at its ports

Usage: """
    + USAGE
    + """

Options:
      --omci <IFACE>      Interface of the OMCI messages, which are frames of Ethertype 0x88B5; the sender gets the reply [example: omci0]
      --uni <PORT=IFACE>  Interface at whose other end a port's frames come in; the port is 0 to 65535 [example: 257=uni0]
      --gem <GEM=IFACE>   Interface by which the frames of a GEM port leave; the GEM port is 0 to 65535 [example: 1024=gem0]
      --pon <IFACE>       Interface by which those of every other GEM port leave [example: pon0]
      --gem-vlan          Put the GEM port in front of what leaves by --pon, as the VID of an S-tag of its own, for captures and tests alone; has no value [example: --gem-vlan]
      --stats <SECONDS>   Write the totals to standard error every so many seconds, too [example: 10]
      --json              Write the totals as JSON, for other programs; has no value [example: --json]
  -h, --help              Print help

Each of --uni and --gem may be given several times. One of --gem and --pon has to be given.
Packet sockets are Linux's. They take root, CAP_NET_RAW or a network namespace of your own.
SIGTERM or SIGINT ends it, and it writes its totals to standard output.
Status: 0; 1 where the words are wrong, an interface can't be used or a write failed; 141 where nobody reads standard output
Example: python -m onuctl.live --omci omci0 --uni 257=uni0 --gem 1024=gem0
Example: python -m onuctl.live --omci omci0 --uni 257=uni0 --uni 258=uni1 --pon pon0 --gem-vlan"""
)
_VALUED = ("--omci", "--uni", "--gem", "--pon", "--stats")
_UNVALUED = ("--gem-vlan", "--json")
_OMCI_TYPE = bytes.fromhex("88b5")
_WHOLE_MESSAGE = 48
_SHORT_MESSAGE = 44
_HEADER = 14
# A unit that is ended still forwards what is there by then, for so many seconds at most.
_LAST = 1.0
# The words of a reply's `unsent`, where a GEM port's number stands else.
_REPLY = "reply"


class Usage(Refusal):
    """The words are wrong."""


class Settings(NamedTuple):
    """What the words ask for: names of interfaces, by ports and GEM ports."""

    omci: str
    unis: Dict[int, str]
    gems: Dict[int, str]
    pon: Optional[str]
    is_tagged: bool
    stats: Optional[float]
    is_json: bool


def _options(words: Sequence[str]) -> Dict[str, List[str]]:
    """The values of each option."""
    given: Dict[str, List[str]] = {name: [] for name in (*_VALUED, *_UNVALUED)}
    left = list(words)
    while left:
        name, joined, value = left.pop(0).partition("=")
        if name not in given or (joined and name in _UNVALUED):
            raise Usage("unexpected word '%s'" % (name + joined + value))
        if name in _VALUED and not joined:
            if not left:
                raise Usage("%s has no value" % name)
            value = left.pop(0)
        given[name].append(value)
    return given


def _number(text: str) -> Optional[int]:
    """A number from 0 to 65535, decimal or behind 0x."""
    digits, base = (text[2:], 16) if text[:2] == "0x" else (text, 10)
    if not digits.isalnum() or not digits.isascii():
        return None
    try:
        number = int(digits, base)
    except ValueError:
        return None
    return number if number <= 0xFFFF else None


def _by_number(option: str, what: str, values: Iterable[str]) -> Dict[int, str]:
    """The interfaces of an option's values, by their numbers."""
    found: Dict[int, str] = {}
    for value in values:
        text, _, name = value.partition("=")
        number = _number(text)
        if number is None or not name:
            raise Usage("%s wants a number from 0 to 65535, = and an interface, not '%s'" % (option, value))
        if number in found:
            raise Usage("%s %d is named twice" % (what, number))
        found[number] = name
    return found


def _at_most_one(option: str, values: List[str]) -> Optional[str]:
    if len(values) > 1:
        raise Usage("%s is given twice" % option)
    if values and not values[0]:
        raise Usage("%s has no value" % option)
    return values[0] if values else None


def _seconds(text: Optional[str]) -> Optional[float]:
    if text is None:
        return None
    try:
        seconds = float(text)
    except ValueError:
        seconds = 0
    if not 0.01 <= seconds <= 1e6:
        raise Usage("--stats wants seconds, 0.01 to 1000000, not '%s'" % text)
    return seconds


def settings_of(words: Sequence[str]) -> Settings:
    """What words ask for. Raises :class:`Usage`."""
    given = _options(words)
    omci, pon, stats = (_at_most_one(option, given[option]) for option in ("--omci", "--pon", "--stats"))
    unis, gems = _by_number("--uni", "port", given["--uni"]), _by_number("--gem", "GEM port", given["--gem"])
    is_tagged, is_json = (bool(given[option]) for option in _UNVALUED)
    if omci is None or not unis:
        raise Usage("%s is missing" % ("--omci" if omci is None else "--uni"))
    if not gems and pon is None:
        raise Usage("nothing says by which interface frames leave: --gem or --pon")
    if is_tagged and pon is None:
        raise Usage("--gem-vlan is for what leaves by --pon, which is missing")
    read = [omci, *unis.values()]
    for name in read:
        if read.count(name) > 1:
            raise Usage("%s is named twice; each of --omci and --uni has an interface of its own" % name)
    return Settings(omci, unis, gems, pon, is_tagged, _seconds(stats), is_json)


def message_of(frame: bytes) -> Optional[bytes]:
    """The message in a frame, as ``onuctl record`` finds it: behind the Ethertype 0x88B5 48 bytes, or 44 where there are fewer than 48."""
    behind = frame[_HEADER:]
    if frame[12:_HEADER] != _OMCI_TYPE or len(behind) < _SHORT_MESSAGE:
        return None
    return behind[: _WHOLE_MESSAGE if len(behind) >= _WHOLE_MESSAGE else _SHORT_MESSAGE]


class Line(NamedTuple):
    """What a line of the totals says that ``onuctl forward`` hasn't, but for the number: its word, and why."""

    word: str
    why: str


class Live:
    """A unit on interfaces. It isn't one to copy, so it keeps no messages, and may stay for good."""

    def __init__(self, settings: Settings) -> None:
        names = [settings.omci, *settings.unis.values(), *settings.gems.values(), *filter(None, [settings.pon])]
        interfaces = {name: _wires.interface_of(name) for name in names}
        self._sender = _wires.sender()
        self._omci = Listener(interfaces[settings.omci])
        self._ports = [(port, Listener(interfaces[name])) for port, name in settings.unis.items()]
        self._pon = _wires.new_pon(self._sender)
        self._leave(settings, interfaces)
        self.batch = _wires.new_batch()
        self._counts: "Counter[Line]" = Counter()
        self._messages = self._replies = 0
        self._cell = _library.Cell()
        self._at = ctypes.byref(self._cell)
        if _library.open_cell(self._at) != 0:
            raise MemoryError("no memory for a unit")

    def _leave(self, settings: Settings, interfaces: Dict[str, _wires.Interface]) -> None:
        """Says by which interface the frames of each GEM port leave."""
        self._names = {interface.number: name for name, interface in interfaces.items()}
        if settings.pon is not None:
            ctypes.memmove(self._pon.interfaces, (ctypes.c_int32 * GEM_PORTS)(*[interfaces[settings.pon].number] * GEM_PORTS), 4 * GEM_PORTS)
            ctypes.memset(self._pon.is_tagged, settings.is_tagged, GEM_PORTS)
        for gem, name in settings.gems.items():
            self._pon.interfaces[gem] = interfaces[name].number
            self._pon.is_tagged[gem] = 0

    def listeners(self) -> List[Listener]:
        return [self._omci, *(listener for _, listener in self._ports)]

    def turn(self) -> bool:
        """Answers the messages that are there, then forwards the frames that are there, a batch for each interface. Returns whether there were any."""
        taken = self._answer()
        for port, listener in self._ports:
            taken += self._forward(port, listener)
        return taken > 0

    def _receive(self, listener: Listener) -> int:
        """Receives a batch of frames. An error is said once, and counted."""
        try:
            taken = listener.receive(self.batch)
        except OSError as fault:
            if fault.errno in (errno.EBADF, errno.ENOTSOCK, errno.EFAULT):
                raise
            line = Line("failed", "%s: %s" % (listener.interface.name, fault.strerror))
            if line not in self._counts:
                print("onuctl.live: %s" % line.why, file=sys.stderr, flush=True)
            self._counts[line] += 1
            return 0
        for count, word, why in (
            (self.batch.too_long, "unread", "longer than %d bytes" % _wires.LONGEST),
            (self.batch.unsummed, "unsummed", "their checksums were left to a network card"),
        ):
            if count:
                self._counts[Line(word, "%s: %s" % (listener.interface.name, why))] += count
        return taken

    def _answer(self) -> int:
        """Carries out the messages that are there, and answers each to its sender."""
        taken = self._receive(self._omci)
        for place in range(self.batch.count if taken else 0):
            frame = self.batch.frames[place]
            data = ctypes.string_at(frame.bytes, min(frame.n, _HEADER + _WHOLE_MESSAGE))
            message = message_of(data)
            if message is None:
                self._counts[Line("passed", "%s: frames that hold no OMCI message" % self._omci.interface.name)] += 1
            else:
                self._carry_out(message, data[6:12])
        return taken

    def _carry_out(self, message: bytes, sender: bytes) -> None:
        reply = (ctypes.c_char * _WHOLE_MESSAGE)()
        self._messages += 1
        number = _library.message(self._at, message, len(message), reply)
        if number < 0:
            self._counts[Line("fault", "%d" % -number)] += 1
        elif number == 1:
            try:
                self._omci.socket.send(sender + self._omci.interface.address + _OMCI_TYPE + reply.raw)
                self._replies += 1
            except OSError as fault:
                self._count_unsent(_REPLY, self._omci.interface.name, fault.errno or 0)

    def decide(self, port: int) -> None:
        """Says of each frame of the batch what becomes of it."""
        _wires.forward(self._at, port, self.batch)

    def _forward(self, port: int, listener: Listener) -> int:
        """Forwards the frames that are there."""
        taken = self._receive(listener)
        if taken == 0:
            return 0
        self.decide(port)
        if _wires.send(self._pon, self.batch):
            for frame in filter(lambda each: each.error, self.batch.frames[: self.batch.count]):
                gem = frame.verdict.gem
                self._count_unsent("gem %d" % gem, self._names.get(self._pon.interfaces[gem], ""), frame.error)
        return taken

    def _count_unsent(self, what: str, name: str, error: int) -> None:
        if error == _wires.NO_INTERFACE:
            why = "no interface is named for it"
        elif error == _wires.NO_VID:
            why = "no VID, which is 1 to 4094"
        elif error == errno.EMSGSIZE:
            why = "longer than the MTU of %s" % name
        else:
            why = "%s: %s" % (name, os.strerror(error))
        self._counts[Line("unsent", "%s: %s" % (what, why))] += 1

    def _look(self, is_end: bool) -> "Counter[Line]":
        """All lines that `forward` hasn't, with what the kernel counted."""
        counts = self._counts.copy()
        for listener in self.listeners():
            listener.look()
            name = listener.interface.name
            counts[Line("unread", "%s: no room in its socket's buffer" % name)] += listener.without_room
            if is_end:
                counts[Line("unread", "%s: still waiting at the end" % name)] += listener.there - listener.without_room - listener.taken
        return +counts

    def _dropped(self) -> List[Tuple[int, int, str, List[int]]]:
        """Of each reason for which frames were dropped: its number, how many there were, its words and the numbers of the first."""
        pon = self._pon
        found = [(reason, pon.dropped[reason]) for reason in range(_wires.REASONS) if pon.dropped[reason]]
        return [(reason, count, decode("d %d" % reason)[0]["words"], pon.first[reason][: min(count, 10)]) for reason, count in found]

    def totals(self, is_json: bool = False, is_end: bool = False) -> str:
        """The totals, as ``onuctl forward`` writes them, and behind them what it hasn't."""
        pon, dropped, counts = self._pon, self._dropped(), sorted(self._look(is_end).items())
        gems = [(gem, count) for gem, count in enumerate(pon.left) if count]
        if is_json:
            totals = {
                "format": 1,
                "frames": pon.frames,
                "forwarded": sum(count for _, count in gems),
                "bytes": pon.bytes,
                "drops": [dict(zip(("reason", "frames", "words", "first"), drop)) for drop in dropped],
                "gems": [{"gem": gem, "frames": count} for gem, count in gems],
                "messages": self._messages,
                "replies": self._replies,
                "counts": [{"count": line.word, "why": line.why, "number": count} for line, count in counts],
            }
            return json.dumps(totals) + "\n"
        lines = ["frames %d" % pon.frames, "bytes %d" % pon.bytes]
        for reason, count, words, first in dropped:
            lines.append("drop %d %d %s: %s%s" % (reason, count, words, ", ".join(map(str, first)), ", .." if count > 10 else ""))
        lines += ["gem %d %d" % each for each in gems]
        lines += ["messages %d" % self._messages, "replies %d" % self._replies]
        lines += ["%s %d %s" % (line.word, count, line.why) for line, count in counts]
        return "\n".join(lines) + "\n"


class Ending:
    """Whether a signal asked for the end."""

    def __init__(self) -> None:
        self.reader, self._writer = socket.socketpair()
        self._writer.setblocking(False)
        signal.set_wakeup_fd(self._writer.fileno(), warn_on_full_buffer=False)
        for number in (signal.SIGTERM, signal.SIGINT):
            signal.signal(number, lambda *_: None)

    def is_asked(self) -> bool:
        return bool(select.select([self.reader], [], [], 0)[0])


def serve(live: Live, ending: Ending, settings: Settings) -> None:
    """Takes turns until a signal comes."""
    waiting = select.poll()
    for source in [ending.reader, *(listener.socket for listener in live.listeners())]:
        waiting.register(source, select.POLLIN)
    begun = time.monotonic()
    period = settings.stats
    said = 0
    while not ending.is_asked():
        if period is None:
            waiting.poll()
        else:
            waiting.poll(max(0.0, begun + (said + 1) * period - time.monotonic()) * 1000)
            periods = int((time.monotonic() - begun) / period)
            if periods > said:
                said = periods
                print("after %g s\n%s" % (said * period, live.totals(settings.is_json)), end="", file=sys.stderr, flush=True)
        live.turn()
    until = time.monotonic() + _LAST
    while live.turn() and time.monotonic() < until:
        pass


def _placed(settings: Settings) -> str:
    """On which interfaces the unit is, in words."""
    places = ["OMCI on %s" % settings.omci]
    places += ["port %d on %s" % each for each in settings.unis.items()]
    places += ["GEM port %d on %s" % each for each in settings.gems.items()]
    if settings.pon is not None:
        places.append("%s on %s" % ("other GEM ports" if settings.gems else "GEM ports", settings.pon))
    tagged = "; by --gem-vlan an S-tag in front has the GEM port, for captures and tests alone" if settings.is_tagged else ""
    return ", ".join(places) + tagged


def _written(totals: str) -> int:
    """Writes totals to standard output, and returns the status."""
    try:
        sys.stdout.write(totals)
        sys.stdout.flush()
    except OSError as fault:
        # What Python still holds goes nowhere.
        os.dup2(os.open(os.devnull, os.O_WRONLY), 1)
        if fault.errno == errno.EPIPE:
            return 141
        print("onuctl.live: write failed: %s" % fault.strerror, file=sys.stderr)
        return 1
    return 0


def main(words: Sequence[str], kind: Type[Live] = Live) -> int:
    """Puts a unit on interfaces as words say, until it is ended. Returns the status."""
    if not words or "--help" in words or "-h" in words:
        print(HELP, file=sys.stdout if words else sys.stderr)
        return 0 if words else 1
    try:
        settings = settings_of(words)
        ending = Ending()
        live = kind(settings)
    except Refusal as refusal:
        usage = "\nUsage: %s" % USAGE if isinstance(refusal, Usage) else ""
        print("onuctl.live: %s%s" % (refusal, usage), file=sys.stderr)
        return 1
    print("onuctl.live: ready: %s" % _placed(settings), file=sys.stderr, flush=True)
    serve(live, ending, settings)
    return _written(live.totals(settings.is_json, is_end=True))


if __name__ == "__main__":
    sys.exit(main(sys.argv[1:]))

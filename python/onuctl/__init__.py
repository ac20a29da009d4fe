"""An optical network unit in your process, and a judge of other units.

A :class:`Unit` answers OMCI messages and forwards Ethernet frames upstream as ITU-T G.988 says. :func:`judge` says whether a right unit
may have behaved as a history says, and whether anything in it was judged. :func:`encode` makes a script of words, :func:`decode` says what
one means, and :func:`mib`, :func:`lint` and :func:`rules` show what its messages leave. :func:`cover`, :func:`differences` and :func:`hitless`
say what they do to every frame, and :func:`expect` whether that is as is expected. ``python -m onuctl.live`` puts a unit on network
interfaces of Linux, ``python -m onuctl.report`` writes a page on a judgement, and ``python -m onuctl.fleet`` puts a question to many files.

Proved are the library's replies, what becomes of a frame, the answers of :func:`replay`, of a judgement whether it is explained and
which line it names, whether :func:`differences` finds none, and the bad line that calls over traces name. Tested only are the texts of
:meth:`Unit.explain` and of ``Finding.details``, all else that calls over words, scripts and traces say, and this package itself, which puts
frames together, reads JSON, copies units and moves frames from and to interfaces. ``docs/PROOFS.md`` has the whole.

    >>> from onuctl import Unit
    >>> with Unit() as unit:
    ...     reply = unit.message(bytes.fromhex("00014f0a00020000") + bytes(40))
    ...     unit.forward(257, bytes.fromhex("020000000001020000000002" "0800" "4500"))
    Dropped(reason=<Reason.NO_MAPPER: 5>)

The package needs nothing but Python 3.8 and the shared library, which ``./build-library`` makes; ``onuctl.report`` takes Jinja2, too.
"""

from . import steps
from ._frames import BadAfter, Difference, Fate, FrameClass, Outcome, Tear, Use, cover, differences, expect, hitless
from ._library import version
from ._scripts import LintFinding, Mistake, Mistakes, decode, encode, lint, mib, rules
from ._texts import BadLine, BadStart, Finding, judge, replay
from ._unit import Dropped, Forwarded, MessageFault, Reason, Unit

__version__ = version().split(",")[0].split(" ")[1]
__all__ = [
    "BadAfter",
    "BadLine",
    "BadStart",
    "Difference",
    "Dropped",
    "Fate",
    "Finding",
    "Forwarded",
    "FrameClass",
    "LintFinding",
    "MessageFault",
    "Mistake",
    "Mistakes",
    "Outcome",
    "Reason",
    "Tear",
    "Unit",
    "Use",
    "cover",
    "decode",
    "differences",
    "encode",
    "expect",
    "hitless",
    "judge",
    "lint",
    "mib",
    "replay",
    "rules",
    "steps",
    "version",
]

"""What a port does to ten frames once it is provisioned. `README.md` shows what a failure looks like."""

from typing import Iterator, Union

import pytest

from onuctl import Dropped, Forwarded, Reason, Unit, encode, lint, steps

PORT = 257

# A GEM port, an interworking point to it, the mapper of the port, and a table: no tag gets VID 100, and VID 100 becomes VID 200.
PROVISIONING = """\
create gem-port 0x0401 port-id=1024 tcont=0x8001 direction=both
create interwork 0x0501 gem-port=0x0401 option=mapper service-profile=0x0601
create mapper 0x0601 tp=0x0101 tp-type=pptp p0-7=0x0501 unmarked=default
create vlan 0x0701 association=pptp pointer=0x0101
entry vlan 0x0701 tags=0 -> inner(pcp=0 vid=100 tpid=8100)
entry vlan 0x0701 tags=1 vid=100 -> remove=1 inner(pcp=inner vid=200 tpid=8100)
"""

ADDRESSES = "020000000001 020000000002"

FRAMES = [
    ("no tag, IPv4", "0800 4500", "81000064 0800 4500"),
    ("no tag, ARP", "0806 0001", "81000064 0806 0001"),
    ("VID 100", "81000064 0800 4500", "810000c8 0800 4500"),
    ("VID 100, priority 5", "8100a064 0800 4500", "8100a0c8 0800 4500"),
    ("VID 100, priority 7, DEI", "8100f064 0800 4500", "8100e0c8 0800 4500"),
    ("VID 99", "81000063 0800 4500", "81000063 0800 4500"),
    ("service tag of VID 99", "88a80063 0800 4500", "88a80063 0800 4500"),
    ("two tags", "88a80064 810000c8 0800 4500", "88a80064 810000c8 0800 4500"),
    ("cut within its type", "08", Reason.RUNT),
    ("cut within its tag", "8100", Reason.CUT_TAG),
]


def frame(behind: str) -> bytes:
    return bytes.fromhex(ADDRESSES + behind)


@pytest.fixture(scope="module")
def provisioned() -> Iterator[Unit]:
    """A provisioned unit, which no test changes."""
    with Unit() as unit:
        for words, line in zip(PROVISIONING.splitlines(), encode(PROVISIONING).splitlines()):
            reply = unit.message(bytes.fromhex(line[len("o ") :]))
            assert reply is not None and reply[8] == 0, "%s: result %d" % (words, reply[8] if reply else -1)
        yield unit


@pytest.fixture
def unit(provisioned: Unit) -> Iterator[Unit]:
    """A unit like the provisioned one, for one test."""
    with provisioned.copy() as unit:
        yield unit


def shown(what: Union[Forwarded, Dropped]) -> str:
    """What becomes of a frame, as `onuctl replay` answers it."""
    return "d %d" % what.reason if isinstance(what, Dropped) else "g %d %s" % (what.gem, what.frame.hex())


def explained(unit: Unit, sent: bytes) -> str:
    """Which entry of the port's table is used for a frame."""
    for step in unit.explain(PORT, sent):
        if isinstance(step, steps.Used):
            return "entry %d is used: %s -> %s" % (step.number, step.filter_words, step.treatment_words)
    return "no entry is used"


def test_each_instance_is_reached() -> None:
    assert "not-reached" not in [found.kind for found in lint(encode(PROVISIONING))]


@pytest.mark.parametrize("name, sent, expected", FRAMES, ids=[name for name, _, _ in FRAMES])
def test_frame(unit: Unit, name: str, sent: str, expected: Union[str, Reason]) -> None:
    wanted = Dropped(expected) if isinstance(expected, Reason) else Forwarded(1024, frame(expected))
    assert shown(unit.forward(PORT, frame(sent))) == shown(wanted), explained(unit, frame(sent))

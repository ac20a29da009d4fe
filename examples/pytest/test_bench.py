"""A unit on a bench: what a test sends to it and what comes back is recorded, and judged behind the test."""

from pathlib import Path

import pytest

from onuctl import Unit, encode
from onuctl.pytest_plugin import Recording, Watched

PORT = 257
UP = (Path(__file__).parent / "up.onu").read_text()
ADDRESSES = bytes.fromhex("020000000001020000000002")


@pytest.fixture
def bench(onu_history: Recording, unit: Unit) -> Watched:
    """The unit under test, with its messages and frames recorded. A bench of your own has the same two calls: `message(bytes)`, which returns
    the reply or None, and `forward(port, frame)`, which returns Forwarded or Dropped."""
    bench = onu_history.watch(unit)
    for line in encode(UP).splitlines():
        if line.startswith("o "):
            bench.message(bytes.fromhex(line[2:]))
    onu_history.in_force()
    return bench


@pytest.mark.parametrize("tags", ["", "81000064", "8100a064", "88a80064 810000c8"], ids=["no tag", "VID 100", "priority 5", "two tags"])
def test_frames_of_each_kind(bench: Watched, tags: str) -> None:
    """The judge knows what becomes of each frame, so that nothing is said of it here."""
    for number in range(10):
        bench.forward(PORT, ADDRESSES + bytes.fromhex(tags + "08004500") + bytes([number]))


def test_an_entry_is_replaced_while_frames_flow(bench: Watched, onu_history: Recording) -> None:
    """Nobody saw when the unit put the message into force: each frame may meet the old entry or the new, but none the old behind the new."""
    (line,) = encode("entry vlan 0x0701 tags=0 -> inner(pcp=0 vid=200 tpid=8100)", identifier=9).splitlines()
    bench.forward(PORT, ADDRESSES + bytes.fromhex("08004500"))
    bench.message(bytes.fromhex(line[2:]))
    bench.forward(PORT, ADDRESSES + bytes.fromhex("08004500"))
    onu_history.in_force()
    bench.forward(PORT, ADDRESSES + bytes.fromhex("08004500"))

"""Times a message and a frame from Python: the least of some rounds, in microseconds a call."""

import sys
import timeit
from pathlib import Path

sys.path.insert(0, str(Path(__file__).resolve().parents[2] / "python"))

from onuctl import Unit  # noqa: E402

FRONTS = [
    "0001440a010c0401 0400 8001 03 00",
    "0002440a010a0501 0401 05 0601",
    "0003440a00820601 0101 0501050105010501 0501050105010501 01 0001",
    "0004440a00ab0701 02 0101",
    "0005480a00ab0701 0400 f8000000f8000000 000f000000000324",
]


def message(front: str) -> bytes:
    return bytes.fromhex(front).ljust(40, b"\0") + bytes.fromhex("0000002800000000")


def main() -> None:
    calls = 1000
    with Unit() as unit:
        for front in FRONTS:
            unit.message(message(front))
        get = message("0009490a00020000 8000")
        tagged = bytes.fromhex("020000000001020000000002" "0800" "4500") + bytes(1000)
        dropped = bytes.fromhex("020000000001020000000002" "81")
        for name, call in (
            ("a message", lambda: unit.message(get)),
            ("a frame that leaves", lambda: unit.forward(257, tagged)),
            ("a frame that is dropped", lambda: unit.forward(257, dropped)),
        ):
            least = min(timeit.repeat(call, number=calls, repeat=500)) / calls
            print("%-24s %.2f us" % (name, least * 1e6))


main()

"""What calls are given: bytes, texts and numbers."""

import operator
from typing import Optional, Union

Bytes = Union[bytes, bytearray, memoryview]


def bytes_of(name: str, given: Bytes) -> bytes:
    """The bytes of an argument."""
    if isinstance(given, bytes):
        return given
    if isinstance(given, (bytearray, memoryview)):
        return bytes(given)
    raise TypeError("%s must be bytes, bytearray or memoryview, not %s" % (name, type(given).__name__))


def text_of(name: str, given: Union[Bytes, str]) -> bytes:
    """The bytes of an argument that may be a text."""
    if isinstance(given, str):
        return given.encode()
    if isinstance(given, (bytes, bytearray, memoryview)):
        return bytes(given)
    raise TypeError("%s must be str, bytes, bytearray or memoryview, not %s" % (name, type(given).__name__))


def _number_of(name: str, given: int) -> int:
    """An argument that is a number."""
    try:
        return operator.index(given)
    except TypeError:
        raise TypeError("%s must be an int, not %s" % (name, type(given).__name__)) from None


def most_of(given: Optional[int]) -> int:
    """How many deviations are listed at most, 0 where the first alone is asked for."""
    if given is None:
        return 0
    most = _number_of("most", given)
    if most < 1:
        raise ValueError("at least one deviation is listed, not %d" % most)
    return min(most, 0xFFFFFFFFFFFFFFFF)


def port_of(given: int) -> int:
    """The number of a port."""
    port = _number_of("port", given)
    if not 0 <= port <= 0xFFFF:
        raise ValueError("a port is a number from 0 to 65535, not %d" % port)
    return port


def least_of(given: int) -> int:
    """How many bytes frames have at least."""
    least = _number_of("least", given)
    if not 0 <= least <= 0xFFFF:
        raise ValueError("least is a number from 0 to 65535, not %d" % least)
    return least


def line_of(name: str, given: int) -> int:
    """The number of a line, or 0. Behind the greatest that is passed on no trace has a line."""
    line = _number_of(name, given)
    if line < 0:
        raise ValueError("%s is a number from 0, not %d" % (name, line))
    return min(line, 0xFFFFFFFFFFFFFFFF)

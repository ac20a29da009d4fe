"""Histories of right units, and of units that are wrong once, in a line that is known since it was made so."""
import random
from typing import NamedTuple

from dialogues import message

ADDRESSES = "020000000001020000000002"
# Port 257 is set up, and its frames without a tag get VID 100. Each is accepted with result 0.
REQUESTS = (
    "0001440a010c0401 0400 8001 03 00",
    "0002440a010a0501 0401 05 0601",
    "0003440a00820601 0101 0501050105010501 0501050105010501 01 0001",
    "0004440a00ab0701 02 0101",
    "0005480a00ab0701 0400 f8000000f8000000 000f000000000324",
)
REPLIES = ("0001240a010c0401", "0002240a010a0501", "0003240a00820601", "0004240a00ab0701", "0005280a00ab0701")
# How a frame comes in behind its addresses, and how it leaves by GEM port 1024: a tag is added where there is none, and kept where there are some.
KINDS = (("", "81000064"), ("810000c8", "810000c8"), ("8100a064", "8100a064"), ("88a80064810000c8", "88a80064810000c8"))
# What a wrong unit does in place of a line.
MISTAKES = ("another GEM port", "another tag", "a byte more", "a frame dropped", "a frame lost", "a stray", "another result")


class Made(NamedTuple):
    """A history: its text, the line that no right unit explains, or None, and how many of its frames leave and are dropped."""

    text: str
    wrong: int
    forwarded: int
    dropped: int


def frame_of(tags, number, payload):
    return f"{ADDRESSES}{tags}08004500{number:08x}{payload}"


def ending(mistake, number, left, payload):
    """The line that ends a frame which leaves, or what a wrong unit makes of it."""
    frame = frame_of(left, number, payload)
    return {
        "another GEM port": f"g {number} 1025 {frame}",
        "another tag": f"g {number} 1024 {frame_of('81000065', number, payload)}",
        "a byte more": f"g {number} 1024 {frame}00",
        "a frame dropped": f"d {number}",
        "a frame lost": f"l {number}",
        "a stray": f"s 1024 {frame_of('81000063', 0xFFFFFFFF, payload)}",
    }.get(mistake, f"g {number} 1024 {frame}")


def set_up(wrong):
    """The messages with their replies, of which that in one line may be wrong, and what says that all are in force."""
    for number, (request, reply) in enumerate(zip(REQUESTS, REPLIES), 1):
        yield "o " + message(request)
        yield "r " + message(reply + ("03" if wrong == 2 * number else ""))
    yield "w"


def made(seed, frames, mistake=None, size=64):
    """A history of so many frames of about so many bytes, some of them sent before those ahead of them left. Each 16th comes in at a port that
    drops it."""
    draw = random.Random(seed)
    at = draw.randrange(frames)
    at += at % 16 == 15 and (1 if at + 1 < frames else -1)
    wrong = 2 * (at % len(REPLIES) + 1) if mistake == "another result" else None
    lines = [*set_up(wrong)]
    payload = "00" * (size - 24)
    behind, forwarded, dropped = [], 0, 0
    for number in range(frames):
        tags, left = draw.choice(KINDS)
        is_dropped = number % 16 == 15
        lines.append(f"f {258 if is_dropped else 257} {frame_of(tags, number, payload)}")
        behind.append((number, None if is_dropped else left))
        dropped += is_dropped
        forwarded += not is_dropped
        if draw.randrange(3) == 0 or number == frames - 1:
            for ended, leaving in behind:
                if ended == at and mistake not in (None, "another result"):
                    wrong = len(lines) + 1
                    lines.append(ending(mistake, ended, leaving, payload))
                else:
                    lines.append(f"d {ended}" if leaving is None else ending(None, ended, leaving, payload))
            behind = []
    return Made("\n".join([*lines, "e", ""]), wrong, forwarded, dropped)

"""What stands below a deviation, to compare the program's with, by docs/FORMATS.md ("What differs") alone: but for the words of what differs, and
of the first request that gets no reply."""
import re

from plain_judge import event_of, lines_of

SOURCE = re.compile(rb"# (.*) record ([0-9.]+) ([0-9.]+) s", re.DOTALL)
DIFFERENCE = re.compile("(?m)^differs: .+$")
REQUEST = re.compile(r"(?m)^(no reply to the request at line [0-9]+) \(.+\)(; this one answers line [0-9]+)$")
ADDRESSES, TAG = 12, 4
TPIDS = (0x8100, 0x88A8)
# A type behind more tags isn't looked for.
MOST_TAGS = 4


def without_words(text):
    """What `judge` writes, with `..` for the words that aren't compared."""
    return REQUEST.sub(r"\1 (..)\2", DIFFERENCE.sub("differs: ..", text))


def head_answered(line):
    """The head of the reply that a line asks for, if it sends a request that wants one."""
    event = event_of(line)
    data = event[1] if event[0] == "o" else b""
    if len(data) not in (44, 48) or data[2] & 0xE0 != 0x40 or data[3] != 10:
        return None
    return data[:2] + bytes([0x20 | data[2] & 0x1F, 10]) + data[4:8]


def is_repeat(lines, number):
    """Whether a line sends the bytes of the message before it once more."""
    messages = [event_of(line)[1] for line in lines[:number] if line.startswith(b"o ")]
    return lines[number - 1].startswith(b"o ") and len(messages) > 1 and messages[-2] == messages[-1]


def unanswered(lines, line, reply, has_repeats):
    """Which requests get no reply, where that of a line answers a later one than the next. A repeat asks for none, if repeats are meant."""
    seen, first = bytes.fromhex(reply["seen"]), reply["request_line"]
    if len(seen) not in (44, 48) or head_answered(lines[first - 1]) == seen[:8]:
        return None
    waiting = [number for number in range(first, line)
               if head_answered(lines[number - 1]) and not (has_repeats and is_repeat(lines, number))]
    answered = [number for number in waiting if head_answered(lines[number - 1]) == seen[:8]]
    if not answered:
        return None
    count = waiting.index(answered[0])
    which = f"the request at line {first} (..)" if count == 1 else f"{count} requests from line {first} on"
    return f"no reply to {which}; this one answers line {answered[0]}"


def type_of(data):
    """The type of a frame behind its tags, as far as that is known."""
    for place in range(ADDRESSES, ADDRESSES + TAG * MOST_TAGS + 1, TAG):
        found = int.from_bytes(data[place:place + 2], "big")
        if len(data) < place + 2:
            return None
        if found not in TPIDS:
            return found
    return None


def line_elsewhere(lines, sent_line):
    """The first line behind that of a frame which saw a frame with its addresses and its type leave, and names none for sure."""
    sent = event_of(lines[sent_line - 1])[2].data
    for number in range(sent_line + 1, len(lines) + 1):
        event = event_of(lines[number - 1])
        if event[0] in ("a", "s"):
            data = event[2].data
            if len(data) >= ADDRESSES and data[:ADDRESSES] == sent[:ADDRESSES] and type_of(data) == type_of(sent) is not None:
                return number
    return None


def plain(text):
    """Text of a remark as it is shown: UTF-8 without control characters, or what of it are printing characters of ASCII."""
    try:
        words = text.decode()
    except UnicodeDecodeError:
        words = "\0"
    if all(character >= " " and character != "\x7f" for character in words):
        return words
    return "".join(chr(byte) if 32 <= byte < 127 else "?" for byte in text)


def source_of(lines, line):
    """Where the event of a line was seen, if the line above it says so."""
    found = SOURCE.fullmatch(lines[line - 2]) if line > 1 else None
    return found and f"{plain(found[1])} record {plain(found[2])}, {plain(found[3])} s"


def below(text, found, options=()):
    """The lines below a deviation, by the options of `judge`."""
    lines = [line[:-1] if line.endswith(b"\r") else line for line in lines_of(text)]
    frame, reply, line = found.get("frame"), found.get("reply"), found["line"]
    if reply and reply["request_line"] is not None:
        yield unanswered(lines, line, reply, "--repeats" in options) or "differs: .."
    if "one_of" in found or frame and frame["versions"]:
        yield "differs: .."
    elsewhere = line_elsewhere(lines, frame["sent_line"]) if frame and frame["seen"] == "lost" else None
    if elsewhere:
        yield f"line {elsewhere} has its addresses"
    sent_line = frame["sent_line"] if frame else reply and reply["request_line"]
    seen_in, sent_in = source_of(lines, line), sent_line and source_of(lines, sent_line)
    if seen_in:
        yield f"from {seen_in}" + (f"; sent {sent_in}" if sent_in else "")

"""Captures made block by block (docs/FORMATS.md, "Captures"), each with its frames, and its fault, if it has one: its number, and where it is."""

ADDRESSES = bytes.fromhex("020000000001020000000002")
MAGIC, HEADER, LINK, TORN, TOO_LONG = 1, 2, 3, 4, 5
LOW, HIGH = "little", "big"
MICROSECONDS, NANOSECONDS = 0xA1B2C3D4, 0xA1B23C4D


def numbers(order, *values, size=4):
    return b"".join(value.to_bytes(size, order) for value in values)


# The classic format.

def header(order, magic, link=1):
    return numbers(order, magic) + numbers(order, 2, 4, size=2) + numbers(order, 0, 0, 262144, link)


def record(order, seconds, fraction, original, data):
    return numbers(order, seconds, fraction, len(data), original) + data


# The pcapng format.

def block(order, kind, body, end=None):
    """A block with its length in front and behind, or another one behind."""
    length = 12 + len(body)
    return numbers(order, kind, length) + body + numbers(order, length if end is None else end)


def option(order, code, value):
    return numbers(order, code, len(value), size=2) + padded(value)


def padded(data):
    return data + bytes(-len(data) % 4)


def section(order, major=1, minor=0, options=b"", end=None):
    body = numbers(order, 0x1A2B3C4D) + numbers(order, major, minor, size=2) + b"\xff" * 8 + options
    return block(order, 0x0A0D0D0A, body, end)


def interface(order, link=1, snap=0, options=b"", end=None):
    return block(order, 1, numbers(order, link, 0, size=2) + numbers(order, snap) + options, end)


def enhanced(order, number, ticks, original, data, options=b"", end=None):
    body = numbers(order, number, ticks >> 32, ticks & 0xFFFFFFFF, len(data), original) + padded(data)
    return block(order, 6, body + options, end)


def simple(order, original, data, options=b"", end=None):
    return block(order, 3, numbers(order, original) + padded(data) + options, end)


def obsolete(order, number, drops, ticks, original, data, options=b"", end=None):
    front = numbers(order, number, drops, size=2) + numbers(order, ticks >> 32, ticks & 0xFFFFFFFF, len(data), original)
    return block(order, 2, front + padded(data) + options, end)


def frame(*behind):
    """A frame without a tag, and these bytes behind its type."""
    return ADDRESSES + b"\x08\0" + bytes(behind)


def nanoseconds(order=LOW):
    return option(order, 9, b"\x09")


A, B, C, D, E = frame(2, 4, 6, 8, 10), frame(9, 8, 7, 6), frame(1, 2, 3), frame(5, 4), frame(7)
LOW_SECTION = section(LOW)
MICRO = interface(LOW)
NANO = interface(LOW, options=nanoseconds())
NAMED = interface(LOW, snap=262144, options=option(LOW, 2, b"eth0x") + nanoseconds() + numbers(LOW, 0, size=4))
COOKED = interface(LOW, link=113)
# At 1,536 ticks with a part of 60 bytes; the same with a remark behind it.
FIRST = enhanced(LOW, 0, 1536, 60, A)
REMARKED = enhanced(LOW, 0, 1536, 60, A, option(LOW, 1, b"hi") + numbers(LOW, 0))
# Of interface 1, at 2^32 + 2 ticks.
SECOND = enhanced(LOW, 1, 2**32 + 2, len(B), B)
SIMPLE = simple(LOW, len(C), C)
OBSOLETE = obsolete(LOW, 0, 7, 3, len(D), D)
NAMES = block(LOW, 4, bytes(4))
BROKEN = block(LOW, 4, bytes(4), end=20)
# A packet that stores 262,145 bytes, as it says.
LONG = block(LOW, 3, numbers(LOW, 262145))
HIGH_SECTION = section(HIGH, minor=2, options=option(HIGH, 1, b"abc") + bytes(4))
HIGH_INTERFACE = interface(HIGH, snap=16)
HIGH_PACKET = enhanced(HIGH, 0, 2000001, len(E), E)
IN_MICRO, IN_NANO = (1536000, 60, A), (1536, 60, A)
IN_HIGH = (2000001000, len(E), E)

LOW_RECORD = record(LOW, 1, 500000, len(C), C)
LOW_CUT = record(LOW, 2, 1, 60, D)
LOW_LAST = record(LOW, 0xFFFFFFFF, 0xFFFFFFFF, len(E), E)
HIGH_RECORD = record(HIGH, 1, 999999, len(B), B)

# Files by what they are, with their frames (their time in nanoseconds, how many bytes they had, and those that are stored) and their fault. Where
# that is in the beginning, None stands for the frames.
CLASSIC = [
    ("a classic one without records", [header(LOW, MICROSECONDS)], [], None),
    ("microseconds, lowest bytes first", [header(LOW, MICROSECONDS), LOW_RECORD, LOW_CUT, LOW_LAST, record(LOW, 3, 0, 0, b"")],
     [(1500000000, len(C), C), (2000001000, 60, D), (4294971589967295000, len(E), E), (3000000000, 0, b"")], None),
    ("nanoseconds, lowest bytes first", [header(LOW, NANOSECONDS), LOW_RECORD, LOW_CUT, LOW_LAST],
     [(1000500000, len(C), C), (2000000001, 60, D), (4294967299294967295, len(E), E)], None),
    ("microseconds, highest bytes first", [header(HIGH, MICROSECONDS), HIGH_RECORD], [(1999999000, len(B), B)], None),
    ("nanoseconds, highest bytes first", [header(HIGH, NANOSECONDS), HIGH_RECORD, HIGH_RECORD], [(1000999999, len(B), B)] * 2, None),
    ("a record that is cut in its header", [header(LOW, MICROSECONDS), LOW_RECORD, bytes(15)], [(1500000000, len(C), C)], (TORN, 1)),
    ("a record that is cut in its bytes", [header(LOW, MICROSECONDS), LOW_CUT, record(LOW, 0, 0, 3, bytes(3))[:-1]],
     [(2000001000, 60, D)], (TORN, 1)),
    ("a record that stores 262,145 bytes", [header(LOW, MICROSECONDS), LOW_CUT, LOW_CUT, numbers(LOW, 0, 0, 262145, 262145)],
     [(2000001000, 60, D)] * 2, (TOO_LONG, 2)),
]

PCAPNG = [
    ("no block behind the first", [LOW_SECTION], [], None),
    ("two interfaces", [LOW_SECTION, MICRO, FIRST, NANO, SECOND, SIMPLE, OBSOLETE],
     [IN_MICRO, (4294967298, len(B), B), (4294967298, len(C), C), (3000, len(D), D)], None),
    ("a later section has interfaces of its own", [LOW_SECTION, MICRO, FIRST, LOW_SECTION, NANO, FIRST], [IN_MICRO, IN_NANO], None),
    ("a simple packet in front has no time", [LOW_SECTION, MICRO, SIMPLE], [(0, len(C), C)], None),
    ("a packet of an interface that isn't there", [LOW_SECTION, MICRO, FIRST, SECOND], [IN_MICRO], (TORN, 3)),
    ("a packet of another link type", [LOW_SECTION, MICRO, COOKED, FIRST, SECOND], [IN_MICRO], (LINK, 113)),
    ("two lengths that differ, behind a packet", [LOW_SECTION, MICRO, FIRST, BROKEN, FIRST], [IN_MICRO], (TORN, 3)),
    ("a block that is cut", [LOW_SECTION, MICRO, FIRST, NAMES[:8]], [IN_MICRO], (TORN, 3)),
    ("a packet that stores 262,145 bytes", [LOW_SECTION, MICRO, LONG, FIRST], [], (TOO_LONG, 2)),
    ("other blocks, and a packet without bytes", [LOW_SECTION, NAMES, MICRO, REMARKED, NAMES, obsolete(LOW, 0, 7, 3, 1, b"")],
     [IN_MICRO, (3000, 1, b"")], None),
    ("highest bytes first, and a simple packet that is cut", [HIGH_SECTION, HIGH_INTERFACE, HIGH_PACKET, simple(HIGH, len(A), A[:16])],
     [IN_HIGH, (2000001000, len(A), A[:16])], None),
    ("a simple packet in front, without a snap length", [LOW_SECTION, MICRO, SIMPLE, REMARKED, SIMPLE],
     [(0, len(C), C), IN_MICRO, (1536000, len(C), C)], None),
    ("nanoseconds of a second interface", [LOW_SECTION, MICRO, NAMED, SECOND, REMARKED], [(4294967298, len(B), B), IN_MICRO], None),
    ("powers of two", [LOW_SECTION, interface(LOW, options=option(LOW, 9, b"\x8a")), REMARKED], [(1500000000, 60, A)], None),
    ("ten seconds later",
     [LOW_SECTION, interface(LOW, options=option(LOW, 9, b"\x06") + option(LOW, 14, numbers(LOW, 10, size=8))), REMARKED],
     [(10001536000, 60, A)], None),
    ("a second earlier", [HIGH_SECTION, interface(HIGH, options=option(HIGH, 14, b"\xff" * 8)), HIGH_PACKET],
     [(1000001000, len(E), E)], None),
    ("each section has its own order and interfaces",
     [LOW_SECTION, MICRO, NAMED, REMARKED, HIGH_SECTION, HIGH_INTERFACE, HIGH_PACKET, LOW_SECTION, NAMED, REMARKED, SECOND],
     [IN_MICRO, IN_HIGH, IN_NANO], (TORN, 10)),
    ("no interface", [LOW_SECTION, SIMPLE], [], (TORN, 1)),
    ("an interface of another link type without packets", [LOW_SECTION, MICRO, COOKED, REMARKED], [IN_MICRO], None),
    ("two lengths that differ", [LOW_SECTION, BROKEN], [], (TORN, 1)),
    ("a length that is no multiple of four", [LOW_SECTION, numbers(LOW, 4, 13) + bytes([0]) + numbers(LOW, 13) + bytes(3)], [], (TORN, 1)),
    ("a length under twelve", [LOW_SECTION, numbers(LOW, 4, 8)], [], (TORN, 1)),
    ("a packet that stores more than its block holds", [LOW_SECTION, MICRO, block(LOW, 3, numbers(LOW, 21) + A[:16] + bytes(4))], [],
     (TORN, 2)),
    ("an option that is longer than its block", [LOW_SECTION, interface(LOW, options=numbers(LOW, 2, 1, size=2))], [], (TORN, 1)),
    ("a resolution of two bytes", [LOW_SECTION, interface(LOW, options=option(LOW, 9, b"\x06\0"))], [], (TORN, 1)),
    ("a later section of version 2", [LOW_SECTION, section(LOW, major=2)], [], (TORN, 1)),
]

# Files that are at fault in their beginning.
BEGINNINGS = [
    ("an empty file", b"", (MAGIC,)),
    ("three bytes", b"\xd4\xc3\xb2", (MAGIC,)),
    ("another magic number", bytes(100), (MAGIC,)),
    ("a classic header that is cut", header(LOW, MICROSECONDS)[:23], (HEADER,)),
    ("a classic file of another link type", header(LOW, MICROSECONDS, link=113), (LINK, 113)),
    ("the type of a section header block alone", LOW_SECTION[:4], (HEADER,)),
    ("a section header that is cut", LOW_SECTION[:12], (HEADER,)),
    ("a byte order mark of zeros", LOW_SECTION[:8] + bytes(40), (HEADER,)),
    ("a section header that is too small", numbers(LOW, 0x0A0D0D0A, 12, 0x1A2B3C4D), (HEADER,)),
    ("another type", b"\x0b" + LOW_SECTION[1:], (MAGIC,)),
    ("another byte order mark", LOW_SECTION[:8] + b"\x4c" + LOW_SECTION[9:], (HEADER,)),
    ("version 2", section(LOW, major=2), (HEADER,)),
    ("a length under 28", LOW_SECTION[:4] + numbers(LOW, 24) + LOW_SECTION[8:], (HEADER,)),
    ("another length at the end", section(LOW, end=32), (HEADER,)),
]


def cuts():
    """The fronts of a file of a section, an interface and a packet. One under four bytes has no magic number."""
    file = LOW_SECTION + MICRO + REMARKED
    for length in range(len(file) + 1):
        if length < 28:
            yield f"{length} bytes", [file[:length]], None, (MAGIC,) if length < 4 else (HEADER,)
        else:
            fault = None if length in (28, 48, len(file)) else (TORN, 1) if length < 48 else (TORN, 2)
            yield f"{length} bytes", [file[:length]], [IN_MICRO] if length == len(file) else [], fault


def longest():
    """Records that cross the end of the buffer, which has 512 KB at first, and blocks that are longer than it."""
    data = ADDRESSES + b"\x08\0" + bytes(place % 251 for place in range(262130))
    long = record(LOW, 9, 0, 262144, data)
    kept = [(2000001000, 60, D)]
    yield ("records of the greatest length", [header(LOW, MICROSECONDS), LOW_CUT, long, long, long, long, LOW_CUT],
           kept + [(9000000000, 262144, data)] * 4 + kept, None)
    other = block(LOW, 0xBAD, b"\x07" * 599988)
    blocks = [LOW_SECTION, MICRO, FIRST, other, other, FIRST]
    yield "blocks of 600,000 bytes", blocks, [IN_MICRO] * 2, None
    yield "a block that is cut behind a million bytes", [b"".join(blocks)[:1000000]], [IN_MICRO], (TORN, 4)
    front = numbers(LOW, 0, 0, 0, 300000, 300000)
    packet = block(LOW, 6, front + b"\x07" * (599988 - len(front)))
    yield "a packet of 300,000 bytes", [LOW_SECTION, MICRO, FIRST, packet], [IN_MICRO], (TOO_LONG, 3)
    packet = block(LOW, 6, front + b"\x07" * (599988 - len(front)), end=600004)
    yield "a packet of 300,000 bytes with two lengths", [LOW_SECTION, MICRO, FIRST, packet], [IN_MICRO], (TORN, 3)


def with_options():
    """Blocks with a megabyte of comments, which the buffer doesn't hold, behind a section, an interface and a packet: whole, cut at some places,
    and with two lengths that differ. A section in another byte order changes that of its options."""
    low, high = (option(order, 1, b"\x07" * 65532) * 16 for order in (LOW, HIGH))
    front = LOW_SECTION + MICRO + FIRST
    rows = [
        ("an enhanced packet", lambda end: enhanced(LOW, 0, 1537, len(B), B, low, end), 0x10002C, FIRST, [(1537000, len(B), B), IN_MICRO], None),
        ("a simple packet", lambda end: simple(LOW, len(C), C, low, end), 0x110014, FIRST, [(1536000, len(C), C), IN_MICRO], None),
        ("an obsolete packet", lambda end: obsolete(LOW, 0, 7, 3, len(D), D, low, end), 0x24, FIRST, [(3000, len(D), D), IN_MICRO], None),
        ("an interface in nanoseconds, ten seconds later",
         lambda end: interface(LOW, options=low + nanoseconds() + option(LOW, 14, numbers(LOW, 10, size=8)), end=end), 0x100024,
         SECOND + FIRST, [(14294967298, len(B), B), IN_MICRO], None),
        ("an interface whose options end in front of its resolution",
         lambda end: interface(LOW, options=low + numbers(LOW, 0) + nanoseconds(), end=end), 0x1100020, SECOND,
         [(4294967298000, len(B), B)], None),
        ("an interface with a resolution of two bytes",
         lambda end: interface(LOW, options=low + option(LOW, 9, b"\x09\0"), end=end), 0x100020, SECOND, [], (TORN, 3)),
        ("an interface whose last option runs past its end",
         lambda end: interface(LOW, options=low + numbers(LOW, 2, 5, size=2) + b"\1\2\3\4", end=end), 0x100020, SECOND, [], (TORN, 3)),
        ("a section in the other byte order", lambda end: section(HIGH, minor=2, options=high, end=end), 0x100020,
         HIGH_INTERFACE + HIGH_PACKET, [IN_HIGH], None),
    ]
    for what, made, other, behind, frames, fault in rows:
        file = front + made(None) + behind
        yield what, [file], [IN_MICRO] + frames, fault
        for length in (len(front) + 10, 300000, 1000000, len(front) + 1048582):
            yield f"{what}, cut at {length}", [file[:length]], [IN_MICRO], (TORN, 3)
        yield f"{what} with two lengths", [front, made(other), behind], [IN_MICRO], (TORN, 3)
    file = section(LOW, options=low) + MICRO + FIRST
    yield "a first block with a megabyte of comments", [file], [IN_MICRO], None
    for length in (27, 300000, 1048603):
        yield f"a first block, cut at {length}", [file[:length]], None, (HEADER,)
    yield "a first block with two lengths", [section(LOW, options=low, end=0x1C001000), MICRO, FIRST], None, (HEADER,)
    yield "a first block of version 2", [section(LOW, major=2, options=low), MICRO, FIRST], None, (HEADER,)

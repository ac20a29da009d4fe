"""A model of a unit, written from docs/RULES.md alone: what it answers, and what becomes of frames. It knows nothing of the crates."""

TRAILER = bytes.fromhex("0000002800000000")
# Of each class: its attributes by number, from 1, each with its bytes and its access. A table has 16 bytes an entry.
LAYOUTS = {
    2: [(1, "W")],
    130: [(2, "C")] * 9 + [(1, "C"), (24, "W"), (1, "C"), (1, "C")],
    171: [(1, "C"), (2, "R"), (2, "W"), (2, "W"), (1, "W"), (16, "T"), (2, "C"), (24, "W")],
    266: [(2, "C"), (1, "C"), (2, "C"), (2, "C"), (1, "R"), (1, "R"), (2, "C"), (1, "W")],
    268: [(2, "C"), (2, "C"), (1, "C"), (2, "C"), (2, "C"), (1, "R"), (2, "C"), (1, "R"), (2, "C"), (1, "C")],
}
ROOM = {130: 32, 171: 16, 266: 256, 268: 256}
MOST_ENTRIES = 128
DELETION = b"\xff" * 8
PREDEFINED = [bytes.fromhex(key + "000f0000000f0000") for key in ("f0000000f0000000", "f0000000e0000000", "e0000000e0000000")]
PREDEFINED_KEYS = {entry[:8] for entry in PREDEFINED}
ETHERTYPES = {1: (0x0800,), 2: (0x8863, 0x8864), 3: (0x0806,), 4: (0x86DD,), 5: (0x888E,)}
NO_TAG = (0x8100, 0, 0, 0)


def number(data):
    return int.from_bytes(data, "big")


class Dropped(Exception):
    """A frame is dropped, for the reason that this holds."""


class TagFilter:
    """A filter of a tag, by its priority, VID and TPID/DE."""

    def __init__(self, word):
        self.priority, self.vid, self.tpid = word >> 28, word >> 15 & 0x1FFF, word >> 12 & 7

    def passes(self, tag, input_tpid):
        tpid, pcp, dei, vid = tag
        if self.priority != 8 and self.priority != pcp or self.vid != 4096 and self.vid != vid:
            return False
        if self.tpid == 0:
            return True
        if self.tpid == 4:
            return tpid == 0x8100
        return tpid == input_tpid and (self.tpid == 5 or dei == self.tpid - 6)


class Rule:
    """What an entry of 16 bytes means, and whether it is refused."""

    def __init__(self, entry):
        words = [number(entry[at : at + 4]) for at in (0, 4, 8, 12)]
        self.outer, self.inner = TagFilter(words[0]), TagFilter(words[1])
        self.ethertype = words[1] & 15
        self.remove = words[2] >> 30
        # Priority, VID and TPID/DE of the added outer and inner tag.
        self.added = [(word >> 16 & 15, word >> 3 & 0x1FFF, word & 7) for word in words[2:]]
        self.tags, self.default = self.kind()
        self.filters = [] if self.default or not self.tags else [self.inner] if self.tags == 1 else [self.outer, self.inner]
        self.rank = 2 if entry[:8] in PREDEFINED_KEYS else 1 if self.default else 0
        self.refused = self.is_refused()

    def kind(self):
        outer, inner = self.outer.priority, self.inner.priority
        if inner == 15:
            return 0, False
        if outer == 15:
            return 1, inner == 14
        return 2, outer == 14

    def is_refused(self):
        outer, inner = self.outer.priority, self.inner.priority
        if 9 <= inner <= 13 or inner != 15 and 9 <= outer <= 13 or outer <= 8 and inner == 14:
            return True
        if any(tag.vid > 4096 or 1 <= tag.tpid <= 3 for tag in self.filters) or self.ethertype > 5:
            return True
        return self.remove != 3 and any(
            11 <= priority <= 14 or priority != 15 and (vid == 4095 or vid > 4097 or tpid == 5) for priority, vid, tpid in self.added
        )

    def matches(self, tags, ethertype, input_tpid):
        if len(tags) != self.tags or self.ethertype and ethertype not in ETHERTYPES[self.ethertype]:
            return False
        return all(tag_filter.passes(tag, input_tpid) for tag_filter, tag in zip(self.filters, tags))

    def tags_left(self, tags, output_tpid, dscp_priority):
        """The tags that a frame leaves with, or None where it is dropped."""
        if self.remove == 3:
            return None
        outer, inner = (tags[0], tags[-1]) if tags else (NO_TAG, NO_TAG)
        left = []
        for priority, vid, tpid in self.added:
            if priority == 15:
                continue
            pcp = {8: inner[1], 9: outer[1], 10: dscp_priority}.get(priority, priority)
            copied = {4096: inner[3], 4097: outer[3]}.get(vid, vid)
            types = [inner[0], outer[0], output_tpid, output_tpid, 0x8100, None, output_tpid, output_tpid]
            indicators = [inner[2], outer[2], inner[2], outer[2], 0, None, 0, 1]
            left.append((types[tpid], pcp, indicators[tpid], copied))
        return left + list(tags[self.remove :])


RULES = {}


def rule_of(entry):
    if entry not in RULES:
        RULES[entry] = Rule(entry)
    return RULES[entry]


class Instance:
    """The attributes of an instance, by their bytes, and the entries of a table."""

    def __init__(self, class_number, contents):
        self.layout = LAYOUTS[class_number]
        self.values, self.table = {}, []
        for n, (size, access) in enumerate(self.layout, 1):
            self.values[n] = bytes(size)
            if access == "C":
                self.values[n], contents = contents[:size], contents[size:]
        if class_number == 171:
            self.values.update({2: b"\x00\x80", 3: b"\x81\x00", 4: b"\x81\x00"})
            self.table = list(PREDEFINED)

    def shown(self, n):
        """The bytes with which a Get answers."""
        return (16 * len(self.table)).to_bytes(4, "big") if self.layout[n - 1][1] == "T" else self.values[n]

    def number(self, n):
        return number(self.values[n])

    def put_refusal(self, entry):
        """The result with which an entry is refused, or 0."""
        if entry[8:] == DELETION:
            return 0
        if rule_of(entry).refused:
            return 3
        held = any(other[:8] == entry[:8] for other in self.table)
        return 0 if held or len(self.table) < MOST_ENTRIES else 1

    def put(self, entry):
        places = [place for place, other in enumerate(self.table) if other[:8] == entry[:8]]
        if entry[8:] == DELETION:
            self.table = [other for other in self.table if other[:8] != entry[:8]]
        elif places:
            self.table[places[0]] = entry
        else:
            self.table.append(entry)

    def used(self, tags, ethertype):
        """The rule that is used for a frame, or None."""
        found = None
        for entry in self.table:
            rule = rule_of(entry)
            if (found is None or rule.rank < found.rank) and rule.matches(tags, ethertype, self.number(3)):
                found = rule
        return found


def priority_of(mapping, dscp):
    return number(mapping) >> (189 - 3 * dscp) & 7


def dscp_of(rest):
    """The DSCP of the packet behind the tags, or None."""
    ethertype = number(rest[:2])
    if len(rest) < 4 or ethertype not in (0x0800, 0x86DD):
        return None
    return rest[3] >> 2 if ethertype == 0x0800 else ((rest[2] & 15) << 4 | rest[3] >> 4) >> 2


def read_frame(frame, input_tpid):
    """The tags of a frame, and the rest."""
    if len(frame) < 14:
        raise Dropped(1)
    tags, place = [], 12
    while len(tags) < 2 and number(frame[place : place + 2]) in (0x8100, 0x88A8, input_tpid):
        if len(frame) < place + 6:
            raise Dropped(2)
        tpid, word = number(frame[place : place + 2]), number(frame[place + 2 : place + 4])
        tags.append((tpid, word >> 13, word >> 12 & 1, word & 0xFFF))
        place += 4
    return tags, frame[place:]


def spell(tag):
    tpid, pcp, dei, vid = tag
    return (tpid << 16 | pcp << 13 | dei << 12 | vid).to_bytes(4, "big")


def fault_of(message):
    """The fault of a message, or None."""
    if len(message) not in (44, 48):
        return 1
    return 2 if message[2] & 0x80 else 3 if message[2] & 0x20 else 4 if message[3] != 10 else None


class Unit:
    """A unit, from new."""

    def __init__(self):
        self.latched, self.rows = None, []
        self.reset()

    def reset(self):
        self.sync = 0
        self.held = {class_number: {} for class_number in ROOM}

    def instance(self, class_number, n):
        if class_number == 2 and n == 0:
            data = Instance(2, b"")
            data.values[1] = bytes([self.sync])
            return data
        return self.held.get(class_number, {}).get(n)

    def answer(self, message):
        """The line with which a replay answers a message."""
        fault = fault_of(message)
        if fault:
            return "m %d" % fault
        action, class_number, n = message[2] & 31, number(message[4:6]), number(message[6:8])
        contents = self.carry_out(action, class_number, n, message[8:40])
        if not message[2] & 0x40:
            return "-"
        return "r " + (message[:2] + bytes([0x20 | action, 10]) + message[4:8] + contents.ljust(32, b"\0") + TRAILER).hex()

    def carry_out(self, action, class_number, n, contents):
        """The contents of the reply."""
        if action == 13:
            self.rows = list(self.rows_now())
            return len(self.rows).to_bytes(2, "big")
        if action == 14:
            row = number(contents[:2])
            return self.rows[row] if row < len(self.rows) else b""
        if action == 15:
            self.reset()
            return b"\0"
        step = {4: self.create, 6: self.delete, 8: self.set, 9: self.get, 26: self.get_next}.get(action)
        if step is None:
            return b"\2"
        if class_number not in LAYOUTS:
            return b"\4"
        contents = step(class_number, n, contents)
        if contents[:1] == b"\0" and action in (4, 6, 8) and class_number != 2:
            self.sync = 1 if self.sync == 255 else self.sync + 1
        return contents

    def create(self, class_number, n, contents):
        if class_number == 2:
            return b"\2"
        held = self.held[class_number]
        if n == 0xFFFF or n in held:
            return b"\3" if n == 0xFFFF else b"\7"
        if len(held) == ROOM[class_number]:
            return b"\1"
        held[n] = Instance(class_number, contents)
        return b"\0"

    def delete(self, class_number, n, _contents):
        if class_number == 2:
            return b"\2"
        return b"\5" if self.held[class_number].pop(n, None) is None else b"\0"

    def set(self, class_number, n, contents):
        instance = self.instance(class_number, n)
        if instance is None:
            return b"\5"
        mask, values = number(contents[:2]), contents[2:]
        asked = [at for at in range(1, 17) if mask >> 16 - at & 1]
        unknown = sum(1 << 16 - at for at in asked if at > len(instance.layout))
        known = [at for at in asked if at <= len(instance.layout)]
        failed = sum(1 << 16 - at for at in known if instance.layout[at - 1][1] == "R")
        if unknown or failed:
            return b"\x09" + unknown.to_bytes(2, "big") + failed.to_bytes(2, "big")
        if sum(instance.layout[at - 1][0] for at in known) > 30:
            return b"\3"
        given = {}
        for at in known:
            size = instance.layout[at - 1][0]
            given[at], values = values[:size], values[size:]
        return self.write(class_number, instance, given)

    def write(self, class_number, instance, given):
        """Writes attributes, or refuses to because of an entry."""
        entry = given.pop(6, None) if class_number == 171 else None
        refusal = instance.put_refusal(entry) if entry else 0
        if refusal:
            return bytes([refusal])
        if entry:
            instance.put(entry)
        instance.values.update(given)
        if class_number == 2 and given:
            self.sync = given[1][0]
        return b"\0"

    def get(self, class_number, n, contents):
        instance = self.instance(class_number, n)
        if instance is None:
            return b"\5"
        mask = number(contents[:2])
        if class_number == 171 and mask & 0x0400:
            self.latched = (n, b"".join(instance.table))
        values, returned, unknown, failed = b"", 0, 0, 0
        for at in range(1, 17):
            bit = mask & 1 << 16 - at
            if not bit or at > len(instance.layout):
                unknown |= bit
            elif len(values + instance.shown(at)) <= 25:
                values, returned = values + instance.shown(at), returned | bit
            else:
                failed |= bit
        masks = unknown.to_bytes(2, "big") + failed.to_bytes(2, "big")
        return bytes([9 if unknown or failed else 0]) + returned.to_bytes(2, "big") + values.ljust(25, b"\0") + masks

    def get_next(self, class_number, n, contents):
        if self.instance(class_number, n) is None:
            return b"\5"
        start = 29 * number(contents[2:4])
        if class_number != 171 or contents[:2] != b"\4\0" or self.latched is None or self.latched[0] != n:
            return b"\3"
        return b"\3" if start >= len(self.latched[1]) else b"\0\4\0" + self.latched[1][start : start + 29]

    def rows_now(self):
        """The rows of an upload, as contents of replies."""
        for class_number in sorted(LAYOUTS):
            for n in [0] if class_number == 2 else sorted(self.held[class_number]):
                front = class_number.to_bytes(2, "big") + n.to_bytes(2, "big")
                yield from (front + row for row in rows_of(self.instance(class_number, n)))

    def mapper_of(self, port):
        held = self.held[130]
        return min((n for n, mapper in held.items() if mapper.number(13) == 1 and mapper.number(1) == port), default=None)

    def table_of(self, port):
        def least(association, to):
            held = self.held[171].items()
            return min((n for n, table in held if table.number(1) == association and table.number(7) == to), default=None)

        own, mapper = least(2, port), self.mapper_of(port)
        n = own if own is not None or mapper is None else least(1, mapper)
        return None if n is None else self.held[171][n]

    def forward(self, port, frame):
        """The GEM port and the bytes with which a frame leaves."""
        table = self.table_of(port)
        tags, rest = read_frame(frame, table.number(3) if table else 0x8100)
        if table:
            rule = table.used(tags, number(rest[:2]))
            if rule is None:
                raise Dropped(3)
            dscp = dscp_of(rest)
            tags = rule.tags_left(tags, table.number(4), 0 if dscp is None else priority_of(table.values[8], dscp))
            if tags is None:
                raise Dropped(4)
        return self.gem_port(port, tags, dscp_of(rest)), frame[:12] + b"".join(map(spell, tags)) + rest

    def gem_port(self, port, tags, dscp):
        """The GEM port of a frame that leaves with these tags."""
        mapper_number = self.mapper_of(port)
        if mapper_number is None:
            raise Dropped(5)
        mapper = self.held[130][mapper_number]
        priority = tags[0][1] if tags else mapper.number(12) & 7
        if not tags and mapper.number(10) == 0 and dscp is not None:
            priority = priority_of(mapper.values[11], dscp)
        pointer = mapper.number(2 + priority)
        if pointer == 0xFFFF:
            raise Dropped(6)
        point = self.held[266].get(pointer)
        if point is None:
            raise Dropped(7)
        gem = self.held[268].get(point.number(1))
        if gem is None:
            raise Dropped(8)
        if gem.number(3) not in (1, 3):
            raise Dropped(9)
        return gem.number(1)

    def verdict(self, port, frame):
        """The line with which a replay answers a frame."""
        try:
            gem, left = self.forward(port, frame)
        except Dropped as dropped:
            return "d %d" % dropped.args
        return "g %d %s" % (gem, left.hex())


def rows_of(instance):
    """The masks and values of the rows of an instance."""
    mask, values = 0, b""
    for n, (size, access) in enumerate(instance.layout, 1):
        if access == "T":
            continue
        if len(values) + size > 26:
            yield mask.to_bytes(2, "big") + values
            mask, values = 0, b""
        mask, values = mask | 1 << 16 - n, values + instance.values[n]
    yield mask.to_bytes(2, "big") + values


def frames_of(file):
    """The frames of a capture in libpcap's classic format, or the words of its fault."""
    orders = {"a1b2c3d4": "big", "a1b23c4d": "big", "d4c3b2a1": "little", "4d3cb2a1": "little"}
    order = orders.get(file[:4].hex())
    if order is None:
        return "1"
    if len(file) < 24:
        return "2"
    link = int.from_bytes(file[20:24], order) & 0xFFFF
    if link != 1:
        return "3 at %d" % link
    frames, place = [], 24
    while place < len(file):
        stored = int.from_bytes(file[place + 8 : place + 12], order)
        if len(file) < place + 16:
            return "4 at %d" % len(frames)
        if stored > 262144:
            return "5 at %d" % len(frames)
        if len(file) < place + 16 + stored:
            return "4 at %d" % len(frames)
        frames.append(file[place + 16 : place + 16 + stored])
        place += 16 + stored
    return frames

"""What is drawn: requests to the managed entities, frames, lines and captures that are valid, nearly valid or nothing.

Few instances, ports, tags and keys are drawn from, so that messages meet the same entities again and again, and frames meet their rules:
entities come and go, and some requests are refused. The same comes in each run, so that what fails once fails again."""
import random

from model import DELETION, PREDEFINED, TRAILER

CREATE, DELETE, SET, GET, UPLOAD, UPLOAD_NEXT, RESET, GET_NEXT = 4, 6, 8, 9, 13, 14, 15, 26
GEM_PORT, INTERWORK, MAPPER, TABLE, ONU_DATA = 268, 266, 130, 171, 2
PORTS = (257, 65535, 0)
TPIDS = (0x8100, 0x8100, 0x88A8, 0x9100)
ADDRESSES = bytes.fromhex("020000000001020000000002")
DOUBLE = bytes.fromhex("88a8a064810040c8")
MAGICS = ("a1b2c3d4", "a1b23c4d", "d4c3b2a1", "4d3cb2a1")


def short(value):
    return value.to_bytes(2, "big")


def message(action, entity, instance, contents=b"", identifier=1, wants_answer=True):
    """The 48 bytes of a request (docs/RULES.md, "Messages")."""
    front = short(identifier) + bytes([action | (0x40 if wants_answer else 0), 10]) + short(entity) + short(instance)
    return front + contents.ljust(32, b"\0") + TRAILER


# Requests: an action, a class, an instance and contents.


def create_gem_port(port=1024):
    return CREATE, GEM_PORT, 0x0401, short(port) + b"\x80\x01\x03"


def create_interwork(instance):
    return CREATE, INTERWORK, instance, bytes.fromhex("0401050601")


def create_mapper(instance, port, pointers, default):
    return CREATE, MAPPER, instance, short(port) + b"".join(map(short, pointers)) + bytes([1, default, 1])


def create_table(instance, association, to):
    return CREATE, TABLE, instance, attached(association, to)


def attached(association, to):
    """What a table is attached to, as its attributes say it."""
    return bytes([association]) + short(to)


def set_of(entity, instance, mask, values):
    return SET, entity, instance, short(mask) + values


def set_entry(instance, entry):
    return message(*set_of(TABLE, instance, 0x0400, entry))


def port_257(gem=1024):
    """The messages that make port 257: a GEM port, a point that leads to it, a mapper and a table."""
    requests = create_gem_port(gem), create_interwork(0x0501), create_mapper(0x0601, 257, [0x0501] * 8, 0), create_table(0x0701, 2, 257)
    return [message(*request) for request in requests]


class Draws(random.Random):
    """Draws, the same for the same seed."""

    def of(self, *choices):
        return choices[self.randrange(len(choices))]

    def octets(self, count):
        return bytes(self.randrange(256) for _ in range(count))

    # Bytes.

    def changed(self, data, most=64):
        """The same bytes, or one of them set, some cut, some more, or all drawn anew."""
        case = self.of(0, 0, 1, 1, 1, 2, 3, 4)
        if case == 1 and data:
            place = self.randrange(self.of(min(16, len(data)), min(16, len(data)), len(data)))
            return data[:place] + bytes([self.of(0, 1, 0x0A, 0x20, 0xFF, self.randrange(256))]) + data[place + 1 :]
        if case == 2:
            return data[: self.randrange(most)]
        if case == 3:
            return data + self.octets(self.of(1, 2, 4, 16))
        return self.octets(len(data)) if case == 4 else data

    def wild_frame(self):
        return self.changed(self.frame())

    def wild_message(self):
        return self.changed(message(*self.request())[: self.of(44, 48, 48)])

    def wild_line(self):
        """A line of a script, changed or not."""
        front = self.of("o ", "o ", "o ", "f 257 ", "f 65535 ", "f 65536 ", "f +1 ", "f 00257 ", "# ")
        digits = self.wild_message().hex()
        line = (front + self.of(digits, digits, digits.upper()) + self.of("\r", "", "")).encode()
        return self.changed(line).replace(b"\n", b"")

    def wild_capture(self):
        """A capture of up to three frames, changed or not."""
        magic = bytes.fromhex(self.of(*MAGICS))
        return self.changed(capture([self.wild_frame() for _ in range(self.randrange(4))], magic))

    # Frames.

    def tag(self):
        word = self.of(0, 3, 5, 6, 7) << 13 | self.of(0, 1) << 12 | self.of(1, 100, 101, 4095, 7)
        return short(self.of(*TPIDS)) + short(word)

    def frame(self, tags=None):
        """A whole frame of 0 to 3 tags."""
        count = self.of(0, 1, 1, 2, 2, 2, 2, 3) if tags is None else tags
        ethertype = self.of(0x0800, 0x0800, 0x86DD, 0x86DD, 0x0806, 0x8863, 0x8864, 0x888E, 0x1234)
        packet = bytes([self.of(0x45, 0x60, 0x6B, 0x6F), self.of(0x00, 0x28, 0x80, 0xB8, 0xFC), 0xEE])
        return ADDRESSES + b"".join(self.tag() for _ in range(count)) + short(ethertype) + packet

    # Requests.

    def request(self):
        """A request to the entities; one in 600 resets them, and one in 100 asks for an upload or a row of it."""
        if self.randrange(600) == 0:
            return RESET, ONU_DATA, 0, b""
        if self.randrange(100) == 0:
            return self.of(UPLOAD, UPLOAD_NEXT), ONU_DATA, 0, short(self.randrange(20))
        of_class = {MAPPER: self.mapper_request, TABLE: self.table_request, INTERWORK: self.point_request, GEM_PORT: self.gem_request,
                    ONU_DATA: self.data_request}
        return of_class[self.of(*[MAPPER] * 4, *[TABLE] * 6, *[INTERWORK] * 2, *[GEM_PORT] * 2, ONU_DATA)]()

    def mask(self, most):
        """The mask of a Get, most often of all attributes."""
        return short(self.of(most, most, 0x8100, 0x0060, 0x0070, self.randrange(65536)))

    def action(self):
        return self.of(CREATE, CREATE, CREATE, CREATE, CREATE, SET, SET, SET, DELETE, GET)

    def data_request(self):
        action, instance = self.of(GET, GET, GET, SET, GET_NEXT, self.randrange(32)), self.of(0, 0, 0, 1)
        return action, ONU_DATA, instance, self.of(b"\x80\0", b"\x80\0", b"\xc0\0", b"\0\0") + b"\x05"

    def gem_request(self):
        instance, port, direction = self.of(0x0401, 0x0402, 0x0403), short(self.of(1024, 1025, 4094)), bytes([self.of(1, 2, 3)])
        action = self.action()
        if action == CREATE:
            return CREATE, GEM_PORT, instance, port + b"\x80\x01" + direction
        return action, GEM_PORT, instance, b"\xa0\0" + port + direction if action == SET else self.mask(0xFFC0)

    def point_request(self):
        instance, to = self.of(0x0501, 0x0502, 0x0503), short(self.of(0x0401, 0x0401, 0x0402, 0x0402, 0x0403, 0x0404))
        action = self.action()
        if action == CREATE:
            return CREATE, INTERWORK, instance, to + b"\5\6\1"
        return action, INTERWORK, instance, b"\x80\0" + to if action == SET else self.mask(0xFF00)

    def pointer(self):
        return self.of(0x0501, 0x0501, 0x0502, 0x0502, 0x0503, 0x0503, 0x0504, 0xFFFF)

    def mapper_request(self):
        instance, action = self.of(0x0601, 0x0602, 0x0603, 0x0604), self.action()
        if action == CREATE:
            pointers = [self.pointer() for _ in range(8)]
            return create_mapper(instance, self.of(257, 65535), pointers, self.of(0, 5, 10))
        if action != SET:
            return action, MAPPER, instance, self.mask(0xFF80)
        values = self.of(
            b"\x80\x08" + short(self.of(257, 65535)) + bytes([self.of(1, 1, 1, 1, 2)]),
            b"\0\x50" + bytes([self.of(0, 0, 1, 2), self.of(0, 3, 7, 13)]),
            short(0x4000 >> self.randrange(8)) + short(self.pointer()),
            b"\0\x20" + self.octets(24),
        )
        return SET, MAPPER, instance, values

    def tag_filter(self, refused=True):
        """A filter of a tag, seldom one that is refused."""
        tpid = self.of(0, 0, 0, 4, 4, 5, 5, 6, 7, 3 if refused else 0)
        return self.of(8, 8, 3, 5) << 28 | self.of(4096, 4096, 1, 100, 101, 4095) << 15 | tpid << 12

    def key(self, kind, padding=0, refused=True):
        """The first eight bytes of an entry of a kind: no tag, one by default, one, two by default, two."""
        inner = self.tag_filter(refused)
        outer = (0xF0000000, 0xF0000000, 0xF0000000, 0xE0000000, self.tag_filter(refused))[kind]
        inner = (0xF0000000, 0xE0000000, inner, 0xE0000000, inner)[kind]
        words = outer | padding, inner | self.of(0, 0, 0, 1, 2, 3, 4, 5)
        return b"".join(word.to_bytes(4, "big") for word in words)

    def added_tag(self):
        return self.of(15, 0, 6, 8, 9, 10) << 16 | self.of(0, 100, 4094, 4096, 4097) << 3 | self.of(0, 1, 2, 3, 4, 6, 7)

    def entry(self):
        """An entry, or the deletion of one."""
        key = self.of(self.key(self.of(0, 1, 2, 2, 3, 3, 4, 4), self.of(0, 0, 0, 0x08000000)), self.of(*PREDEFINED)[:8])
        outer, inner = self.of((15 << 16, 15 << 16), (15 << 16, self.added_tag()), (self.added_tag(), self.added_tag()))
        rest = self.of(0, 0, 0, 0, 1, 1, 2, 2, 3) << 62 | outer << 32 | inner
        return key + (DELETION if self.randrange(5) == 0 else rest.to_bytes(8, "big"))

    def attachment(self):
        association = self.of(1, 2, 2, self.of(0, 1, 2, 3))
        return association, self.of(0x0601, 0x0602, 0x0603) if association == 1 else self.of(257, 65535, 0x0601)

    def table_request(self):
        instance = self.of(0x0701, 0x0702, 0x0703)
        case = self.of(CREATE, CREATE, *["entry"] * 10, SET, SET, SET, DELETE, GET, GET_NEXT)
        if case == "entry":
            return set_of(TABLE, instance, 0x0400, self.entry())
        if case == CREATE:
            return create_table(instance, *self.attachment())
        if case != SET:
            return case, TABLE, instance, self.of(b"\4\0", self.mask(0xFF00)) + short(self.randrange(4))
        values = self.of(
            b"\x30\0" + short(self.of(*TPIDS)) + short(self.of(*TPIDS)),
            b"\x82\0" + attached(*self.attachment()),
            b"\x01\0" + self.octets(24),
        )
        return SET, TABLE, instance, values


def capture(frames, magic=bytes.fromhex("d4c3b2a1")):
    """A capture in libpcap's classic format."""
    order = "big" if magic[0] == 0xA1 else "little"

    def numbers(*values):
        return b"".join(value.to_bytes(4, order) for value in values)

    header = magic + (2).to_bytes(2, order) + (4).to_bytes(2, order) + numbers(0, 0, 262144, 1)
    return header + b"".join(numbers(0, 0, len(frame), len(frame)) + frame for frame in frames)

"""Expectations by docs/FORMATS.md alone: their words, which frames they speak of, and whether what becomes of a frame by the model of a unit is as
they say."""
import model

TYPES = {"ipv4": (0x0800,), "pppoe": (0x8863, 0x8864), "arp": (0x0806,), "ipv6": (0x86DD,), "eapol": (0x888E,)}
SIDES = {"inner": 1, "outer": 0}


def in_parentheses(name, asked):
    return f"{name}({' '.join(f'{key}={value}' for key, value in asked.items())})"


class Filter:
    """Which frames are spoken of. `tags` is a number, `outer` and `inner` what is asked of a tag by the words for it, `ethertype` a word or a number,
    `dscp` a number; None or an empty dict where nothing is asked."""

    def __init__(self, tags=None, outer=(), inner=(), ethertype=None, dscp=None):
        self.tags, self.outer, self.inner, self.ethertype, self.dscp = tags, dict(outer), dict(inner), ethertype, dscp

    def words(self):
        words = [] if self.tags is None else [f"tags={self.tags}"]
        words += [in_parentheses("outer", self.outer)] if self.outer else []
        words += [in_parentheses("inner", self.inner)] if self.inner else []
        words += [] if self.ethertype is None else [f"type={self.ethertype if self.ethertype in TYPES else hex(self.ethertype)}"]
        words += [] if self.dscp is None else [f"dscp={self.dscp}"]
        return " ".join(words) or "any"

    def admits(self, frame, input_tpid):
        try:
            tags, rest = model.read_frame(frame, input_tpid)
        except model.Dropped:
            return False
        outer, inner = tags[0] if len(tags) == 2 else None, tags[-1] if tags else None
        types = (model.number(rest[:2]),) if self.ethertype is None else TYPES.get(self.ethertype, (self.ethertype,))
        return (
            self.tags in (None, len(tags)) and is_so(self.outer, outer) and is_so(self.inner, inner)
            and model.number(rest[:2]) in types and self.dscp in (None, model.dscp_of(rest))
        )


def is_so(asked, tag):
    """Whether a tag, or None where there is none, is as is asked."""
    if tag is None:
        return not asked
    found = dict(zip(("tpid", "pcp", "dei", "vid"), tag))
    return all(found[key] == (int(value, 16) if key == "tpid" else value) for key, value in asked.items())


class Treatment:
    """With which tags a frame is to leave: how many go, and what the words in parentheses say of the tags that are added, None where none is."""

    def __init__(self, remove=0, outer=None, inner=None):
        self.remove, self.outer, self.inner = remove, outer, inner

    def words(self):
        words = [f"remove={self.remove}"]
        words += [] if self.outer is None else [in_parentheses("outer", self.outer)]
        words += [] if self.inner is None else [in_parentheses("inner", self.inner)]
        return " ".join(words)

    def frame(self, frame, table):
        """The bytes with which a frame is to leave, by the settings of a table, or without one those after Create."""
        input_tpid, output_tpid = (table.number(3), table.number(4)) if table else (0x8100, 0x8100)
        tags, rest = model.read_frame(frame, input_tpid)
        dscp = model.dscp_of(rest)
        priority = 0 if dscp is None or table is None else model.priority_of(table.values[8], dscp)
        received = (tags[0], tags[-1]) if tags else (model.NO_TAG, model.NO_TAG)
        added = [tag_of(said, received, side, output_tpid, priority) for side, said in ((0, self.outer), (1, self.inner)) if said is not None]
        return frame[:12] + b"".join(map(model.spell, [*added, *tags[self.remove:]])) + rest


def tag_of(said, received, side, output_tpid, priority):
    """The tag that is added, by the two received tags: the outer and the inner one."""
    own = ("outer", "inner")[side]
    pcp, vid, tpid = said.get("pcp", own), said.get("vid", own), said.get("tpid", own)
    dei = said.get("dei", tpid if tpid in SIDES else 0)
    return (
        received[SIDES[tpid]][0] if tpid in SIDES else output_tpid if tpid == "output" else int(tpid, 16),
        received[SIDES[pcp]][1] if pcp in SIDES else priority if pcp == "dscp" else pcp,
        received[SIDES[dei]][2] if dei in SIDES else dei,
        received[SIDES[vid]][3] if vid in SIDES else vid,
    )


class Expectation:
    """A port, a filter, an ending in words, and a treatment: None for any, "unchanged" or a Treatment."""

    def __init__(self, port, asked, ending, treatment):
        self.port, self.asked, self.ending, self.treatment = port, asked, ending, treatment

    def words(self):
        treatment = "" if self.treatment is None else self.treatment if self.treatment == "unchanged" else self.treatment.words()
        return f"{self.port} {self.asked.words()} -> {self.ending} {treatment}".rstrip()

    def admits(self, unit, frame):
        table = unit.table_of(self.port)
        return self.asked.admits(frame, table.number(3) if table else 0x8100)

    def is_met(self, unit, frame):
        """Whether what becomes of an admitted frame is as is said."""
        mark, *rest = unit.verdict(self.port, frame).split(" ")
        ends = {"any": True, "leave": mark == "g", "drop": mark == "d", f"drop {rest[0]}": mark == "d", f"gem {rest[0]}": mark == "g"}
        if not ends.get(self.ending, False):
            return False
        if self.treatment is None:
            return True
        wanted = frame if self.treatment == "unchanged" else self.treatment.frame(frame, unit.table_of(self.port))
        return mark == "g" and rest[1] == wanted.hex()

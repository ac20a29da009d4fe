"""The deviations of a history for a page: what was seen beside what is right, what decides it, and where it was seen."""

from typing import Any, Dict, Iterable, Iterator, List, NamedTuple, Optional, Sequence, Tuple, Union

from ._history import History, Seen, shown
from ._scripts import Mistakes, decode, rules
from ._unit import MessageFault, Unit

# So many runs of versions, and frames of a line that names several, are shown.
_RUNS = 10
_NAMED = 10
# So many bytes are shown around the first that differs.
_BEFORE, _BYTES = 8, 64
# So many characters of what was seen and what is right stand in a line.
_SHORT = 100
# With fewer bytes than these a frame may be seen with zeros behind it.
_PADDED = 68
# Values that a unit may have of its own, which `modelled` leaves out.
_OWN = frozenset(
    (
        "Received frame VLAN tagging operation table max size",
        "Received frame VLAN tagging operation table",
        "PPTP counter",
        "Operational state",
        "UNI counter",
        "Encryption state",
    )
)
_TAG_FIELDS = (("TPID", "tpid"), ("PCP", "priority"), ("DEI", "dei"), ("VID", "vid"))


class Part(NamedTuple):
    """A piece of a text, and whether it differs from what stands beside it."""

    text: str
    is_marked: bool


class Row(NamedTuple):
    """A field: its name, what was seen and what is right."""

    name: str
    seen: List[Part]
    right: List[Part]
    differs: bool


class Run(NamedTuple):
    """Versions in a row, and what becomes of a frame by each."""

    first: int
    last: int
    words: str


class Fact(NamedTuple):
    """Something that is said of a deviation: its name, and its words."""

    name: str
    words: str


class Alternative(NamedTuple):
    """What the model does with a frame: the sentence about the frame, its runs of versions, how many more there are, and where it was sent."""

    title: str
    runs: List[Run]
    more: int


class Deviation(NamedTuple):
    """A line that no right unit explains: its number and what it says, what is said of that, and what the page shows below."""

    line: int
    title: str
    said: str
    facts: List[Fact]
    rows: List[Row]
    right_words: str
    alternatives: List[Alternative]
    more: int
    decided: List[Fact]
    asked: List[Fact]
    remarks: List[str]

    @property
    def differs(self) -> str:
        """The first field that differs, and what was seen in it for what is right where both are short; or what is right."""
        row = next((row for row in self.rows if row.differs), None)
        if row is None:
            return self.right_words and "right: %s" % self.right_words
        seen, right = ("".join(part.text for part in parts).strip() for parts in (row.seen, row.right))
        return "%s: %s for %s" % (row.name, seen, right) if len(seen) + len(right) < _SHORT else "%s differs" % row.name


def in_hex(number: int) -> str:
    return "0x%04x" % number


def of_table(entry: Dict[str, Any]) -> str:
    """An entry of a table in words."""
    if "filter_words" not in entry:
        return "delete the entry of this key" if entry.get("deletes") else str(entry.get("words", entry["entry"]))
    return "%s: %s" % (entry["filter_words"], entry["treatment_words"])


def value_words(value: Any, word: Optional[str] = None) -> str:
    """The value of an attribute as a page shows it."""
    if isinstance(value, list):
        if value and isinstance(value[0], dict):
            return "; ".join(map(of_table, value))
        said = ", ".join("%d:%d" % each for each in enumerate(value) if each[1])
        return said or "all 0"
    if isinstance(value, dict):
        return of_table(value)
    return "%s (%s)" % (value, word) if word else str(value)


def attribute_facts(decoded: Dict[str, Any]) -> List[Fact]:
    """The attributes of a message or a reply, or those that it asks for."""
    words = decoded.get("attribute_words", {})
    facts = [Fact(name, value_words(value, words.get(name))) for name, value in decoded.get("attributes", {}).items()]
    if "asked" in decoded:
        facts.append(Fact("Attributes asked for", ", ".join(map(str, decoded["asked"]))))
    return facts


def message_words(decoded: Dict[str, Any]) -> str:
    """What a message asks for, in a few words."""
    if "class" not in decoded:
        return str(decoded.get("words", decoded["kind"]))
    action = decoded.get("action", "action %s" % decoded.get("action_code"))
    name = decoded.get("class_name", "class %s" % decoded.get("class"))
    return "%s, %s %s" % (action, name, in_hex(decoded.get("instance", 0)))


def _decoded(lines: Sequence[str]) -> List[Dict[str, Any]]:
    """What lines mean, each by itself; of one that can't be decoded why."""
    found = []
    for line in lines:
        try:
            found += decode(line + "\n")[:1]
        except Mistakes as mistakes:
            found.append({"kind": "fault", "words": mistakes.reason})
    return found


def _runs_of_bytes(own: bytes, other: bytes) -> Iterator[Tuple[int, bool]]:
    """The places of bytes, each with whether it differs from that of another text."""
    for place, byte in enumerate(own):
        yield place, place >= len(other) or byte != other[place]


def _parts_of(own: bytes, other: bytes, is_front: bool, other_is_front: bool) -> List[Part]:
    """Bytes in digits, with those marked that differ. Of long ones it has those around the first that differs."""
    reach = min(len(own), len(other))
    first = next((place for place in range(reach) if own[place] != other[place]), reach)
    begin = max(0, first - _BEFORE) if len(own) > _BYTES else 0
    parts: List[Part] = [Part(".. ", False)] if begin else []
    for place, differs in _runs_of_bytes(own[: begin + _BYTES], other):
        if place < begin:
            continue
        differs = differs and not (place >= len(other) and other_is_front)
        text = "%02x " % own[place]
        if parts and parts[-1].is_marked == differs:
            parts[-1] = Part(parts[-1].text + text, differs)
        else:
            parts.append(Part(text, differs))
    if len(own) > begin + _BYTES or is_front:
        parts.append(Part("..", False))
    return parts or [Part("none", len(other) > 0)]


def _row(name: str, seen: Optional[str], right: Optional[str], is_compared: bool = True) -> Row:
    differs = is_compared and seen != right
    return Row(name, [Part("none" if seen is None else seen, differs)], [Part("none" if right is None else right, differs)], differs)


class Sight(NamedTuple):
    """A frame that left: the GEM port, or None where it isn't known, its bytes, whether they are a front, and what they mean."""

    gem: Optional[int]
    data: bytes
    is_front: bool
    decoded: Dict[str, Any]


def _bytes_in(found: Dict[str, Any]) -> Tuple[bytes, bool]:
    return bytes.fromhex(found["front"] if "front" in found else found["frame"]), "front" in found


def sights(found: Sequence[Dict[str, Any]]) -> List[Sight]:
    """What frames that left mean, each an object with ``gem`` and ``frame`` or ``front``."""
    given = [_bytes_in(each) for each in found]
    said = _decoded(["f 0 %s" % data.hex() for data, _ in given])
    gems = [None if each["gem"] == "any" else int(each["gem"]) for each in found]
    return [Sight(gem, data, is_front, decoded) for gem, (data, is_front), decoded in zip(gems, given, said)]


def _tag_rows(seen: List[Dict[str, int]], right: List[Dict[str, int]]) -> Iterator[Row]:
    """The tags of two frames beside each other: from the innermost where one has tags of the other's, and else from the outermost."""
    most = max(len(seen), len(right))
    least = min(len(seen), len(right))
    is_inner = least > 0 and len(seen) != len(right) and seen[-least:] == right[-least:]
    empty: List[Optional[Dict[str, int]]] = [None] * (most - least)

    def filled(tags: List[Dict[str, int]]) -> List[Optional[Dict[str, int]]]:
        gap = empty[: most - len(tags)]
        return [*gap, *tags] if is_inner else [*tags, *gap]

    names = ["Tag"] if most == 1 else ["Outer tag", "Inner tag"] if most == 2 else ["Tag %d" % number for number in range(1, most + 1)]
    for name, one, other in zip(names, filled(seen), filled(right)):
        if one is None or other is None:
            yield _row(name, _tag_words(one), _tag_words(other))
            continue
        for field, key in _TAG_FIELDS:
            yield _row("%s, %s" % (name, field), _field_words(one, key), _field_words(other, key))


def _field_words(tag: Dict[str, int], key: str) -> str:
    return in_hex(tag[key]) if key == "tpid" else str(tag[key])


def _tag_words(tag: Optional[Dict[str, int]]) -> Optional[str]:
    if tag is None:
        return None
    return "TPID %s, PCP %d, DEI %d, VID %d" % (in_hex(tag["tpid"]), tag["priority"], tag["dei"], tag["vid"])


def _length(sight: Sight) -> str:
    return "%s%d bytes" % ("over " if sight.is_front else "", len(sight.data))


def _address(digits: str) -> str:
    return ":".join(digits[at : at + 2] for at in range(0, len(digits), 2))


def frame_rows(seen: Sight, right: Sight) -> List[Row]:
    """Two frames that left, field by field."""
    rows = [_row("GEM port", "not seen" if seen.gem is None else str(seen.gem), str(right.gem), seen.gem is not None)]
    if "addresses" not in seen.decoded or "addresses" not in right.decoded:
        return [*rows, *_whole(seen, right)]
    one, other = seen.decoded, right.decoded
    for name, at in (("Destination", 0), ("Source", 12)):
        rows.append(_row(name, _address(one["addresses"][at : at + 12]), _address(other["addresses"][at : at + 12])))
    rows += _tag_rows(one["tags"], other["tags"])
    rows.append(_row("Ethertype", in_hex(one["ethertype"]), in_hex(other["ethertype"])))
    rests = bytes.fromhex(one["rest"])[2:], bytes.fromhex(other["rest"])[2:]
    parts = _parts_of(*rests, seen.is_front, right.is_front), _parts_of(rests[1], rests[0], right.is_front, seen.is_front)
    rows.append(Row("Behind the type", *parts, any(part.is_marked for each in parts for part in each)))
    is_compared = not (seen.is_front or right.is_front)
    rows.append(_row("Length", _length(seen), _length(right), is_compared))
    return rows


def _whole(seen: Sight, right: Sight) -> List[Row]:
    """Two frames, one of which can't be read, by all their bytes."""
    parts = _parts_of(seen.data, right.data, seen.is_front, right.is_front), _parts_of(right.data, seen.data, right.is_front, seen.is_front)
    return [Row("Bytes", *parts, any(part.is_marked for each in parts for part in each)), _row("Length", _length(seen), _length(right))]


def lone_rows(seen: Sight) -> List[Row]:
    """A frame that left, where nothing stands beside it."""
    return [Row(row.name, [Part(part.text, False) for part in row.seen], [], False) for row in frame_rows(seen, seen)]


def _reply_fields(decoded: Dict[str, Any]) -> Dict[str, str]:
    """The fields of a reply, in order."""
    if "tci" not in decoded:
        return {_UNREAD: str(decoded.get("words", decoded["kind"]))}
    fields = {
        "Transaction identifier": in_hex(decoded["tci"]),
        "Action": str(decoded.get("action", decoded.get("action_code"))),
        "Class": "%s (%s)" % (decoded["class"], decoded["class_name"]) if "class_name" in decoded else str(decoded["class"]),
        "Instance": in_hex(decoded["instance"]),
    }
    if "result" in decoded:
        fields["Result"] = "%s (%s)" % (decoded["result"], decoded["result_name"]) if "result_name" in decoded else str(decoded["result"])
    fields.update(attribute_facts(decoded))
    for key, name in _MORE_FIELDS:
        if key in decoded:
            fields[name] = _more_words(decoded[key])
    return fields


# The name of the field that says what bytes are that are no reply.
_UNREAD = "Read as"
_MORE_FIELDS = (
    ("unknown", "Attributes not known"),
    ("failed", "Attributes that failed"),
    ("values", "Values"),
    ("contents", "Contents"),
    ("data", "Part of the table"),
    ("rows", "Rows of the upload"),
    ("row", "Row of the upload"),
)


def _more_words(value: Any) -> str:
    if isinstance(value, dict):
        facts = [Fact("", message_words({"kind": "message", "action": "row", **value})), *attribute_facts(value)]
        return ", ".join("%s %s" % fact for fact in facts)
    return ", ".join(map(str, value)) or "none" if isinstance(value, list) else str(value)


def reply_rows(seen: bytes, right: Optional[bytes], is_modelled: bool) -> List[Row]:
    """Two replies, field by field, and last their bytes."""
    one, *others = map(_reply_fields, _decoded(["r %s" % each.hex() for each in (seen, right) if each is not None]))
    if right is None:
        return [*(Row(name, [Part(words, False)], [], False) for name, words in one.items()), Row("Bytes", _parts_of(seen, seen, False, False), [], False)]
    other = others[0]
    if _UNREAD in one:
        rows = [_row(_UNREAD, one[_UNREAD], "a reply"), *(Row(name, [], [Part(words, False)], False) for name, words in other.items())]
    else:
        names = [*one, *(name for name in other if name not in one)]
        rows = [_row(name, one.get(name), other.get(name), not (is_modelled and name in _OWN)) for name in names]
    return [*rows, _reply_bytes(seen, right, is_modelled and any(row.differs for row in rows))]


def _reply_bytes(seen: bytes, right: bytes, is_told: bool) -> Row:
    """The bytes of two replies, but for their trailers, which aren't compared. Nothing is marked where fields tell already what differs, and a unit may
    have some bytes of its own."""
    own, other = (seen, right) if len(seen) not in (44, 48) else (seen[:40], right[:40])
    parts = _parts_of(own, own if is_told else other, False, False), _parts_of(other, other if is_told else own, False, False)
    return Row("Bytes", *parts, any(part.is_marked for each in parts for part in each))


def _words_of_reason(reason: int) -> str:
    if reason not in _REASONS:
        _REASONS[reason] = str(_decoded(["d %d" % reason])[0]["words"])
    return _REASONS[reason]


_REASONS: Dict[int, str] = {}


def _left_words(found: Dict[str, Any]) -> str:
    """By which GEM port a frame leaves, and its length."""
    data, is_front = _bytes_in(found)
    gem = "a GEM port that wasn't seen" if found["gem"] == "any" else "GEM port %s" % found["gem"]
    return "%s with %s%d bytes" % (gem, "over " if is_front else "", len(data))


def ending_words(found: Dict[str, Any]) -> str:
    """What becomes of a frame by the model."""
    if "reason" in found:
        return "is dropped for reason %d: %s" % (found["reason"], _words_of_reason(found["reason"]))
    return "leaves by %s" % _left_words(found)


def sight_words(found: Union[str, Dict[str, Any]]) -> str:
    """What was seen of a frame."""
    if isinstance(found, str):
        return "it is known to have been dropped" if found == "dropped" else "it was not seen to leave"
    return "it left by %s" % _left_words(found)


def versions_words(first: int, last: int) -> str:
    return "version %d" % first if first == last else "versions %d to %d" % (first, last)


class Writer:
    """Writes the deviations of a history. A unit goes along with the versions, so those behind each other cost little."""

    def __init__(self, history: History, is_modelled: bool, is_padded: bool) -> None:
        self.history, self.is_modelled, self.is_padded = history, is_modelled, is_padded
        self.traced = history.trace()
        self._unit, self._place = Unit(), 0
        self._lines: Dict[Tuple[int, int], List[Dict[str, Any]]] = {}

    def all(self, found: Iterable[Dict[str, Any]]) -> List[Deviation]:
        return [self.one(each) for each in found]

    def one(self, found: Dict[str, Any]) -> Deviation:
        for kind, write in (("frame", self._frame), ("reply", self._reply), ("stray", self._stray), ("one_of", self._one_of)):
            if kind in found:
                return write(found["line"], found[kind])._replace(remarks=self.history.remarks(found["line"]))
        raise ValueError("a deviation of a kind that isn't known: %s" % ", ".join(found))

    def _at(self, version: int) -> Unit:
        """A unit that carried out what was sent up to a version."""
        place = self.history.request_of(version)
        last = -1 if place is None else place
        if place is None:
            last = sum(1 for each in self.history.requests if each.is_of_start) - 1
        if last + 1 < self._place:
            self._unit, self._place = Unit(), 0
        for request in self.history.requests[self._place : last + 1]:
            try:
                self._unit.message(request.message)
            except MessageFault:
                pass
        self._place = last + 1
        return self._unit

    def _set_by(self, port: int, version: int, place: int) -> str:
        """Which line set an entry of the table in force at a port, given by its place in the table."""
        key = (port, version)
        if key not in self._lines:
            request = self.history.request_of(version)
            last = self.history.start_lines
            if request is not None:
                last += self.history.requests[request].line
            self._lines[key] = rules(b"\n".join(self.traced[:last]) + b"\n", port)["entries"]
        line = next((each.get("line") for each in self._lines[key] if each["place"] == place), None)
        if line is None:
            return ""
        before = self.history.start_lines
        return ", set by line %d" % (line - before) if line > before else ", set by line %d of the script before" % line

    def _decided(self, port: int, version: int, frame: bytes) -> List[Fact]:
        """How the model decides by a version."""
        facts: List[Fact] = []
        for step in self._at(version).explain(port, frame):
            fact = self._fact_of(step, port, version)
            if fact is not None:
                facts.append(fact)
        return facts

    def _fact_of(self, step: Dict[str, Any], port: int, version: int) -> Optional[Fact]:
        name = step["step"]
        if name == "table":
            if step["points_to"] == "none":
                return Fact("Table", "none is in force at port %d" % port)
            via = " by mapper %s" % in_hex(step["mapper"]) if step["points_to"] == "mapper" else ""
            return Fact("Table", "%s, in force at port %d%s" % (in_hex(step["instance"]), port, via))
        if name == "used":
            return Fact("Entry", "%d (place %d%s): %s" % (step["number"], step["place"], self._set_by(port, version, step["place"]), of_table(step)))
        if name == "tags":
            said = ["%s; %s" % (_tag_words(tag), tag["origin_words"]) for tag in step["tags"]]
            return Fact("Leaves with tags", " / ".join(said) or "none")
        if name == "mapper":
            return Fact("Mapper", in_hex(step["instance"]))
        if name == "priority":
            return Fact("Priority", "%d, %s" % (step["priority"], _ORIGINS.get(step["origin"], step["origin"])))
        if name == "interworking":
            return Fact("Interworking point", "%s, GEM port pointer %s" % (in_hex(step["instance"]), in_hex(step["gem_port_pointer"])))
        if name == "gem_port":
            return Fact("GEM port", "%s, port-ID %d" % (in_hex(step["instance"]), step["port_id"]))
        if name == "verdict":
            return Fact("So", "it leaves by GEM port %d" % step["gem"] if step["verdict"] == "forward" else "it is dropped: %s" % step["words"])
        return None

    def _where(self, line: int, name: str) -> Iterator[Fact]:
        seen = self.history.seen_at(line)
        if seen is not None:
            yield Fact(name, seen_words(seen))

    def _sent(self, number: int) -> Tuple[bytes, bool]:
        """The bytes of a frame that was sent, and whether they are a front."""
        digits = self.history.lines[self.history.frames.sent_at[number] - 1].split(b" ")[2]
        is_front = digits.endswith(b"..")
        return bytes.fromhex((digits[:-2] if is_front else digits).decode()), is_front

    def _alternative(self, found: Dict[str, Any], title: str) -> Alternative:
        runs = [Run(each["from"], each["to"], ending_words(each)) for each in found["versions"]]
        return Alternative(title, runs[:_RUNS], len(runs[_RUNS:]))

    def _frame(self, line: int, found: Dict[str, Any]) -> Deviation:
        seen, port = found["seen"], found["port"]
        title = "frame %d, sent into port %d at line %d" % (found["number"], port, found["sent_line"])
        facts = [Fact("Seen", sight_words(seen)), *self._where(line, "Seen in"), *self._where(found["sent_line"], "Sent in")]
        if seen == "lost":
            facts += self._has_addresses(found)
        facts.append(Fact("Versions it may have", _bounds(found)))
        compared = _compared(found["versions"])
        rows, right, decided = self._beside(seen, found, compared)
        sent, is_front = self._sent(found["number"])
        asked = [Fact("Frame that was sent", "%s%s" % (sent[:_BYTES].hex(" "), " .." if is_front or len(sent) > _BYTES else ""))]
        # bytes.hex takes a separator since Python 3.8.
        return Deviation(line, title, "", facts, rows, right, [self._alternative(found, "")], 0, decided, asked, [])

    def _beside(self, seen: Any, found: Dict[str, Any], compared: Optional[Dict[str, Any]]) -> Tuple[List[Row], str, List[Fact]]:
        """What was seen of a frame beside what is right, that in words, and how the model decides it."""
        left = isinstance(seen, dict)
        if compared is None:
            rows = lone_rows(sights([seen])[0]) if left else []
            return rows, "no version is left to it", []
        decided = self._decided(found["port"], compared["to"], self._sent(found["number"])[0])
        right = "by %s it %s" % (versions_words(compared["from"], compared["to"]), ending_words(compared))
        if left and "gem" in compared:
            return frame_rows(*sights([seen, self._padded(compared, seen)])), right, decided
        if left or "gem" in compared:
            sight = sights([seen if left else compared])[0]
            rows = lone_rows(sight)
            return rows if left else [Row(row.name, [], row.seen, False) for row in rows], right, decided
        return [], right, decided

    def _padded(self, leaves: Dict[str, Any], seen: Dict[str, Any]) -> Dict[str, Any]:
        """A frame that leaves with the zeros that a wire may have added to it, where those are forgiven."""
        if not self.is_padded or "frame" not in leaves:
            return leaves
        length = min(len(_bytes_in(seen)[0]), _PADDED)
        return {**leaves, "frame": leaves["frame"].ljust(2 * length, "0")}

    def _has_addresses(self, found: Dict[str, Any]) -> Iterator[Fact]:
        """The first line behind a lost frame's that has a stray or doubtful frame with its addresses."""
        addresses = self._sent(found["number"])[0][:12].hex().encode()
        for number, line in enumerate(self.history.lines[found["sent_line"] :], found["sent_line"] + 1):
            words = line.split(b" ", 3)
            if words[0] in (b"s", b"a") and len(words) > 2 and words[2][:24].lower() == addresses:
                yield Fact("See also", "line %d has its addresses" % number)
                return

    def _reply(self, line: int, found: Dict[str, Any]) -> Deviation:
        seen = bytes.fromhex(found["seen"])
        asked_at = found.get("request_line")
        where = [*self._where(line, "Seen in")]
        if asked_at is None:
            return Deviation(line, "a reply, and no request waits for one", "", where, reply_rows(seen, None, False), "", [], 0, [], [], [])
        decoded = _decoded(["o %s" % self.history.lines[asked_at - 1][2:].decode()])[0]
        facts = [Fact("Request", "line %d: %s" % (asked_at, message_words(decoded))), *where, *self._where(asked_at, "Request sent in")]
        meant = self.history.replies[line]
        if meant.request is not None and meant.passed_over:
            other = self.history.requests[meant.request].line
            count = "the request at line %d" % asked_at if meant.passed_over == 1 else "%d requests from line %d on" % (meant.passed_over, asked_at)
            facts.append(Fact("See also", "%s got no reply; this one answers line %d" % (count, other)))
        elif meant.request is None:
            facts.append(Fact("See also", "a request before has its identifier, action, class and instance"))
        rows = reply_rows(seen, bytes.fromhex(found["model"]), self.is_modelled)
        return Deviation(line, "reply to the request at line %d" % asked_at, "", facts, rows, "the model's reply", [], 0, [], attribute_facts(decoded), [])

    def _stray(self, line: int, found: Dict[str, Any]) -> Deviation:
        facts = [Fact("Seen", sight_words(found)), *self._where(line, "Seen in")]
        said = "It was never sent, or has left before."
        return Deviation(line, "a frame left that no open frame can be", said, facts, lone_rows(sights([found])[0]), "", [], 0, [], [], [])

    def _one_of(self, line: int, found: Dict[str, Any]) -> Deviation:
        seen, frames = found["seen"], found["frames"]
        title = "one of the frames %s" % ", ".join(str(each["number"]) for each in frames[:_NAMED]) + (", .." if len(frames) > _NAMED else "")
        facts = [Fact("Seen", sight_words(seen)), *self._where(line, "Seen in")]
        rows, right, decided = self._beside(seen, frames[0], _compared(frames[0]["versions"]))
        alternatives = [
            self._alternative(each, "frame %d, sent into port %d at line %d" % (each["number"], each["port"], each["sent_line"])) for each in frames[:_NAMED]
        ]
        more = len(frames[_NAMED:])
        said = "By each of them alone no version lets it leave so." + (" The first is compared." if len(frames) > 1 else "")
        return Deviation(line, title, said, facts, rows, right, alternatives, more, decided, [], [])


_ORIGINS = {"outermost_tag": "that of the outermost tag", "dscp": "from the DSCP", "default": "the default"}


def seen_words(seen: Seen) -> str:
    return "%s record %s, %s s" % seen


def _bounds(found: Dict[str, Any]) -> str:
    least, most = found["at_least"], found["at_most"]
    if least > most:
        return "none: at least %d by frames before it or by what was waited for, at most %d" % (least, most)
    return versions_words(least, most)


def _compared(versions: List[Dict[str, Any]]) -> Optional[Dict[str, Any]]:
    """The last of a frame's versions by which it leaves; where it leaves by none, the last."""
    leaving = [each for each in versions if "gem" in each]
    found = leaving or versions
    return found[-1] if found else None


__all__ = ["Deviation", "Fact", "Writer", "attribute_facts", "in_hex", "message_words", "shown"]

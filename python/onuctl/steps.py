"""The steps of an explanation, which :meth:`onuctl.Unit.explain` returns.

Each is a dict with the keys that ``onuctl explain --json`` writes (docs/FORMATS.md, "Keys of `explain --json`"). Its keys are its fields too:
``step.number`` is ``step["number"]``, or None where the step has no such key.

    >>> from onuctl import Unit, steps
    >>> with Unit() as unit:
    ...     [step.words for step in unit.explain(257, bytes(12)) if isinstance(step, steps.Verdict)]
    ['the frame ends within its addresses or type']
"""

from typing import Any, ClassVar, Dict, Iterable, List, Literal, Mapping, Optional, Type, Union, get_args, get_type_hints

Value = Union[int, str]


def _record_in(hint: Any) -> "Optional[Type[Record]]":
    """The class of records that a hint names: by itself, as optional or in a list."""
    named = [each for each in (hint, *get_args(hint)) if isinstance(each, type) and issubclass(each, Record)]
    return named[0] if named else None


def _field(key: str) -> property:
    def get(record: "Record") -> Any:
        return record.get(key)

    return property(get)


class Record(Dict[str, Any]):
    """An object of JSON whose keys are its fields too. A field whose key is a keyword of Python ends in an underscore."""

    _records: ClassVar[Dict[str, "Type[Record]"]] = {}

    def __init_subclass__(cls) -> None:
        super().__init_subclass__()
        hints = {name.rstrip("_"): (name, hint) for name, hint in get_type_hints(cls).items() if name != "_records"}
        for key, (name, _) in hints.items():
            setattr(cls, name, _field(key))
        cls._records = {key: record for key, (_, hint) in hints.items() for record in [_record_in(hint)] if record}

    def __init__(self, members: Mapping[str, Any]) -> None:
        super().__init__(members)
        for key, record in self._records.items():
            if key in self:
                value = self[key]
                self[key] = [record(each) for each in value] if isinstance(value, list) else record(value)


class Tag(Record):
    """A tag. Its TPID is a number."""

    priority: int
    dei: int
    vid: int
    tpid: int


class TagFilter(Record):
    """Which tags an entry admits: each is a number or ``any``; the TPID may be ``input``, the table's input TPID."""

    priority: Value
    vid: Value
    tpid: Value
    dei: Value


class Filter(Record):
    """Which frames an entry admits. ``tags`` is how many tags they have, and ``type`` the word of their Ethertype, or ``any``."""

    tags: int
    default: Optional[bool]
    outer: Optional[TagFilter]
    inner: Optional[TagFilter]
    type: str


class AddedTag(Record):
    """A tag that is added: each is a number, or ``inner`` or ``outer`` where it is copied from that tag; the priority may be ``dscp``, and the
    TPID ``output``, the table's output TPID."""

    priority: Value
    vid: Value
    tpid: Value
    dei: Value


class Treatment(Record):
    """What becomes of a frame's tags: ``drop`` is True, or ``remove`` of them go and two at most are added."""

    drop: Optional[bool]
    remove: Optional[int]
    outer: Optional[AddedTag]
    inner: Optional[AddedTag]


class Entity(Record):
    """A managed entity: its class's number and name, and its instance."""

    class_: int
    class_name: str
    instance: Optional[int]


class LeavingTag(Tag):
    """A tag that a frame leaves with: ``received`` is its place among the received tags, or ``added`` how it was made. Where its priority is the
    DSCP's, that stands in ``dscp``, and ``mapping_of`` is the entity with the mapping."""

    received: Optional[int]
    added: Optional[AddedTag]
    origin_words: str
    dscp: Optional[int]
    mapping_of: Optional[Entity]


class Step(Record):
    """A step, by its name."""

    step: str


class Table(Step):
    """Which table is in force, and whether it points to the port or to its mapper."""

    points_to: Literal["none", "port", "mapper"]
    instance: Optional[int]
    mapper: Optional[int]


class Read(Step):
    """How the frame is read. The addresses and what stands behind the type are in hexadecimal."""

    addresses: str
    tags: List[Tag]
    ethertype: int
    dscp: Optional[int]
    rest: str


class Entry(Step):
    """An entry of the table: its number in the order in which entries are tried, its place in the table, and its rule."""

    number: int
    place: int
    line: Optional[int]
    filter: Filter
    filter_words: str
    treatment: Treatment
    treatment_words: str


class Failed(Entry):
    """An entry that doesn't admit the frame, and the first field by which it doesn't."""

    field: str
    field_words: str


class Used(Entry):
    """The entry that is used."""


class Tags(Step):
    """The tags that leave, the outermost first."""

    tags: List[LeavingTag]


class Mapper(Step):
    """The port's 802.1p mapper service profile."""

    instance: int


class Priority(Step):
    """The frame's priority, and where it comes from; of a DSCP's which, and the entity with the mapping."""

    priority: int
    origin: Literal["outermost_tag", "dscp", "default"]
    dscp: Optional[int]
    mapping_of: Optional[Entity]


class Pointer(Step):
    """The mapper's interworking termination point pointer for the priority."""

    instance: int


class Interworking(Step):
    """The GEM interworking termination point."""

    instance: int
    gem_port_pointer: int


class GemPort(Step):
    """The GEM port network CTP."""

    instance: int
    port_id: int
    direction: int
    direction_words: Optional[str]


class Verdict(Step):
    """What becomes of the frame: it leaves by a GEM port, or is dropped for a reason. ``answer`` is the line that a replay answers."""

    verdict: Literal["forward", "drop"]
    gem: Optional[int]
    frame: Optional[str]
    reason: Optional[int]
    words: Optional[str]
    answer: str


CLASSES: Dict[str, Type[Step]] = {
    "table": Table,
    "read": Read,
    "failed": Failed,
    "used": Used,
    "tags": Tags,
    "mapper": Mapper,
    "priority": Priority,
    "pointer": Pointer,
    "interworking": Interworking,
    "gem_port": GemPort,
    "verdict": Verdict,
}


def steps_of(objects: Iterable[Mapping[str, Any]]) -> List[Step]:
    """The steps of objects of JSON, each of the class that its name has."""
    return [CLASSES[each["step"]](each) for each in objects]

"""A configuration for a page: its entities and how they lead to each other, drawn where Graphviz is installed, its tables, and what is wrong in it."""

import re
import shutil
import subprocess
from typing import Any, Dict, Iterator, List, NamedTuple, Optional, Sequence, Tuple
from xml.etree import ElementTree

from ._deviations import in_hex
from ._scripts import LintFinding, lint, mib, rules

MAPPER, TABLE, INTERWORK, GEM_PORT = 130, 171, 266, 268
_WORDS = {MAPPER: "mapper", TABLE: "vlan", INTERWORK: "interwork", GEM_PORT: "gem-port"}
_NAMES = {
    MAPPER: "802.1p mapper service profile (130)",
    TABLE: "Extended VLAN tagging operation configuration data (171)",
    INTERWORK: "GEM interworking termination point (266)",
    GEM_PORT: "GEM port network CTP (268)",
}
_NULL = 0xFFFF
# A mapper of a PPTP Ethernet UNI by its TP type; a table of a mapper and of a PPTP Ethernet UNI by its association type.
_OF_PORT, _OF_MAPPER, _TABLE_OF_PORT = 1, 1, 2
# More nodes than these are no picture that one can read.
_DRAWN = 80
_SECONDS = 10
_REFUSALS = frozenset(("message-refused", "message-fault"))
_LINE = re.compile(r"\bline (\d+)")


class Node(NamedTuple):
    """A port or a managed entity: its name, what it is, the attributes that matter, and whether it is there and in force."""

    name: str
    kind: str
    lines: List[str]
    is_there: bool
    is_in_force: bool


class Edge(NamedTuple):
    """A pointer from one node to another, and the priorities for which a mapper has it."""

    source: str
    target: str
    label: str


class Graph(NamedTuple):
    """The nodes by their names, and the edges, in order."""

    nodes: Dict[str, Node]
    edges: List[Edge]

    def leads_to(self, name: str) -> str:
        """Where a node leads, in words."""
        led = [each for each in self.edges if each.source == name]
        return ", ".join("%s%s%s" % (self.missing(each.target), each.target, " (priority %s)" % each.label if each.label else "") for each in led)

    def missing(self, name: str) -> str:
        return "" if self.nodes[name].is_there else "missing "


class Finding(NamedTuple):
    """What is wrong, or has no effect: how severe that is, where it is, its kind, and its words."""

    severity: str
    where: str
    kind: str
    words: str


class Table(NamedTuple):
    """The table in force at a port, a row for each entry; and whether there is one."""

    port: int
    title: str
    rows: List[List[str]]
    notes: List[str]


class Configuration(NamedTuple):
    """All that a page says of a configuration."""

    graph: Graph
    picture: Optional[Any]
    picture_words: str
    tables: List[Table]
    more_tables: int
    refused: List[Finding]
    findings: List[Finding]


def _entities(found: Dict[str, Any]) -> Dict[int, Dict[int, Dict[str, Any]]]:
    """The attributes of the entities of each class, by their instances."""
    entities: Dict[int, Dict[int, Dict[str, Any]]] = {of: {} for of in _WORDS}
    for each in found["entities"]:
        if each["class"] in entities:
            entities[each["class"]][each["instance"]] = {"attributes": each["attributes"], "words": each.get("attribute_words", {})}
    return entities


def _name(of: int, number: int) -> str:
    return "%s %s" % (_WORDS[of], in_hex(number))


def _port(number: int) -> str:
    return "port %d" % number


class _Drawer:
    """Draws the entities of a unit: what is there, and where each pointer leads."""

    def __init__(self, entities: Dict[int, Dict[int, Dict[str, Any]]]) -> None:
        self.entities = entities
        self.graph = Graph({}, [])
        self.mappers = self._first(MAPPER, "TP pointer", "TP type", _OF_PORT)
        pointer = "Associated ME pointer"
        self.tables = self._first(TABLE, pointer, "Association type", _TABLE_OF_PORT)
        of_mappers = self._first(TABLE, pointer, "Association type", _OF_MAPPER)
        for port, mapper in self.mappers.items():
            if port not in self.tables and mapper in of_mappers:
                self.tables[port] = of_mappers[mapper]
        self.ports = sorted({*self.mappers, *self.tables})

    def _first(self, of: int, pointer: str, kind: str, meant: int) -> Dict[int, int]:
        """Of those whose kind is the one meant the first that has each pointer, which is the one in force."""
        first: Dict[int, int] = {}
        for number, entity in sorted(self.entities[of].items()):
            if entity["attributes"][kind] == meant:
                first.setdefault(entity["attributes"][pointer], number)
        return first

    def draw(self) -> Graph:
        for port in self.ports:
            self.graph.nodes[_port(port)] = Node(_port(port), "PPTP Ethernet UNI", [], True, True)
        for of in (TABLE, MAPPER, INTERWORK, GEM_PORT):
            for number, entity in sorted(self.entities[of].items()):
                self._put(of, number, entity)
        for edge in self.graph.edges:
            if edge.target not in self.graph.nodes:
                self.graph.nodes[edge.target] = Node(edge.target, "missing", [], False, True)
        return self.graph

    def _put(self, of: int, number: int, entity: Dict[str, Any]) -> None:
        name = _name(of, number)
        in_force = {MAPPER: self.mappers, TABLE: self.tables}.get(of)
        lines = {TABLE: self._table_lines, MAPPER: self._mapper_lines, GEM_PORT: self._gem_port_lines}.get(of)
        self.graph.nodes[name] = Node(name, _NAMES[of], lines(entity) if lines else [], True, in_force is None or number in in_force.values())
        lead = {TABLE: self._lead_table, MAPPER: self._lead_mapper, INTERWORK: self._lead_interwork}.get(of)
        if lead is not None:
            self.graph.edges.extend(Edge(name, target, label) for target, label in lead(entity))

    @staticmethod
    def _valued(entity: Dict[str, Any], name: str) -> str:
        word = entity["words"].get(name)
        return "%s%s" % (entity["attributes"][name], " (%s)" % word if word else "")

    def _table_lines(self, entity: Dict[str, Any]) -> List[str]:
        attributes = entity["attributes"]
        return [
            "association type %s" % self._valued(entity, "Association type"),
            "input TPID %s, output TPID %s" % (in_hex(attributes["Input TPID"]), in_hex(attributes["Output TPID"])),
            "%d entries" % len(attributes["Received frame VLAN tagging operation table"]),
        ]

    def _mapper_lines(self, entity: Dict[str, Any]) -> List[str]:
        option, default = self._valued(entity, "Unmarked frame option"), entity["attributes"]["Default P-bit assumption"] % 8
        return ["TP type %s" % self._valued(entity, "TP type"), "unmarked frames: %s, default P-bit %d" % (option, default)]

    def _gem_port_lines(self, entity: Dict[str, Any]) -> List[str]:
        return ["port-ID %d" % entity["attributes"]["Port-ID"], "direction %s" % self._valued(entity, "Direction")]

    def _lead_table(self, entity: Dict[str, Any]) -> Iterator[Tuple[str, str]]:
        kind, pointer = entity["attributes"]["Association type"], entity["attributes"]["Associated ME pointer"]
        if kind == _TABLE_OF_PORT:
            yield _port(pointer), ""
        elif kind == _OF_MAPPER:
            yield _name(MAPPER, pointer), ""

    def _lead_mapper(self, entity: Dict[str, Any]) -> Iterator[Tuple[str, str]]:
        attributes = entity["attributes"]
        if attributes["TP type"] == _OF_PORT:
            yield _port(attributes["TP pointer"]), ""
        by_target: Dict[int, List[str]] = {}
        for priority in range(8):
            target = attributes["Interwork TP pointer for P-bit priority %d" % priority]
            if target != _NULL:
                by_target.setdefault(target, []).append(str(priority))
        for target, priorities in by_target.items():
            yield _name(INTERWORK, target), ",".join(priorities)

    @staticmethod
    def _lead_interwork(entity: Dict[str, Any]) -> Iterator[Tuple[str, str]]:
        yield _name(GEM_PORT, entity["attributes"]["GEM port network CTP connectivity pointer"]), ""


def _quoted(text: str) -> str:
    return '"%s"' % text.replace("\\", "\\\\").replace('"', '\\"').replace("\n", "\\n")


_FONTS = ('  node [shape=box, fontname="sans-serif", fontsize=11];', '  edge [fontname="sans-serif", fontsize=10];')


def dot_of(graph: Graph) -> str:
    """A graph in Graphviz's language. Its nodes have classes, by which a page's style draws them."""
    lines = ["digraph onu {", '  rankdir=LR; bgcolor="transparent";', *_FONTS]
    for node in graph.nodes.values():
        state = "" if node.is_in_force else " idle"
        style = "" if node.is_there else ", style=dashed"
        said = node.lines if node.is_there else ["missing"]
        lines.append("  %s [label=%s, class=%s%s];" % (_quoted(node.name), _quoted("\n".join([node.name, *said])), _quoted("node" + state), style))
    for edge in graph.edges:
        style = "" if graph.nodes[edge.target].is_there else ", style=dashed"
        lines.append("  %s -> %s [label=%s%s];" % (_quoted(edge.source), _quoted(edge.target), _quoted(edge.label), style))
    return "\n".join([*lines, "}"]) + "\n"


# What is kept of Graphviz's picture: the shapes, and none of its colours, names or links.
_KEPT = {
    "svg": ("viewBox",),
    "g": ("class", "transform"),
    "polygon": ("points", "stroke-dasharray"),
    "path": ("d", "stroke-dasharray"),
    "text": ("x", "y", "text-anchor", "font-size"),
}


def _copied(element: ElementTree.Element, is_first: bool = True) -> Optional[ElementTree.Element]:
    """An element of Graphviz's with what is kept of it, below which stands what is kept there."""
    name = element.tag.rpartition("}")[2] if isinstance(element.tag, str) else ""
    if name not in _KEPT:
        return None
    copy = ElementTree.Element(name, {key: value for key, value in element.attrib.items() if key in _KEPT[name]})
    copy.text = element.text if name == "text" else None
    for child in element:
        inner = _copied(child, False)
        if inner is not None:
            copy.append(inner)
    return copy


def picture_of(graph: Graph) -> Tuple[Optional[Tuple[str, str]], str]:
    """A graph as a picture, its width and height beside its shapes; and why there is none."""
    if not graph.nodes:
        return None, "There is no managed entity to draw."
    if len(graph.nodes) > _DRAWN:
        return None, "With %d nodes the graph isn't drawn here: onuctl graph draws it." % len(graph.nodes)
    dot = shutil.which("dot")
    if dot is None:
        return None, "Graphviz isn't installed, so the graph isn't drawn; the table below has the same."
    try:
        done = subprocess.run([dot, "-Tsvg"], input=dot_of(graph).encode(), stdout=subprocess.PIPE, stderr=subprocess.DEVNULL, timeout=_SECONDS, check=True)
        drawn = _copied(ElementTree.fromstring(done.stdout))
    except (OSError, subprocess.SubprocessError, ElementTree.ParseError):
        return None, "Graphviz didn't draw the graph; the table below has the same."
    if drawn is None or "viewBox" not in drawn.attrib:
        return None, "Graphviz didn't draw the graph; the table below has the same."
    inside = "".join(ElementTree.tostring(child, encoding="unicode") for child in drawn)
    return (drawn.attrib["viewBox"], inside), ""


def _number(value: Any) -> str:
    return "*" if value == "any" else str(value)


def _tpid(value: Any) -> str:
    return "%04x" % value if isinstance(value, int) else str(value)


def _tpid_and_dei(tag: Dict[str, Any]) -> str:
    """A TPID with the DEI behind it, as `rules` has them."""
    if tag["tpid"] == "any":
        return "*"
    dei = {"any": "", "inner": "/in", "outer": "/out"}.get(tag["dei"], "/%s" % tag["dei"])
    return _tpid(tag["tpid"]) + ("" if isinstance(tag["tpid"], int) and tag["dei"] in (0, "any") or tag["tpid"] in ("inner", "outer") else dei)


def _tag_cells(tag: Optional[Dict[str, Any]], is_asked: bool) -> List[str]:
    """The priority, the VID and the TPID of a filter or of an added tag; of a filter that asks nothing of a tag, any."""
    if tag is None:
        return ["*" if is_asked else "–"] * 3
    return [_number(tag["priority"]), _number(tag["vid"]), _tpid_and_dei(tag)]


def _entry_cells(entry: Dict[str, Any]) -> List[str]:
    """The row of an entry, in the columns of `rules`."""
    filtered, treated = entry["filter"], entry["treatment"]
    kind = "*" if filtered["type"] == "any" else str(filtered["type"])
    cells = [str(entry[key]) for key in ("number", "place", "rank")] + [str(filtered["tags"])]
    cells += _tag_cells(filtered.get("outer"), filtered["tags"] == 2) + _tag_cells(filtered.get("inner"), filtered["tags"] > 0) + [kind]
    if treated.get("drop"):
        return [*cells, "drop", *["–"] * 6]
    return [*cells, str(treated["remove"]), *_tag_cells(treated.get("outer"), False), *_tag_cells(treated.get("inner"), False)]


class Reader:
    """Reads a configuration off a trace. Its lines are those of a script before, so many, and then those of a history or of a trace alone."""

    def __init__(self, trace: bytes, before: int, ports: Sequence[int]) -> None:
        self.trace, self.before, self.ports = trace, before, ports

    def line(self, number: int) -> str:
        """A line of the trace in words."""
        if number > self.before:
            return "line %d" % (number - self.before)
        return "line %d of the script before" % number

    def _words(self, words: str) -> str:
        return _LINE.sub(lambda found: self.line(int(found[1])), words) if self.before else words

    def _finding(self, found: LintFinding) -> Finding:
        of = found.entity_class
        if found.line is not None:
            where = self.line(found.line)
        elif of is None or found.instance is None:
            where = "the trace"
        else:
            where = _name(of, found.instance) if of in _WORDS else "class %d, %s" % (of, in_hex(found.instance))
        return Finding(found.severity, where, found.kind, self._words(found.words))

    def table(self, port: int) -> Table:
        """The table in force at a port."""
        found = rules(self.trace, port)
        table = found["table"]
        if table["points_to"] == "none":
            return Table(port, "No table is in force at port %d." % port, [], [])
        via = "mapper %s" % in_hex(table["mapper"]) if table["points_to"] == "mapper" else "port %d" % port
        tpids = "Input TPID %s, output TPID %s." % (in_hex(table["input_tpid"]), in_hex(table["output_tpid"]))
        title = "Table %s points to %s. %s" % (in_hex(table["instance"]), via, tpids)
        rows = [[*_entry_cells(each), self.line(each["line"]).replace("line ", "", 1) if "line" in each else "–"] for each in found["entries"]]
        return Table(port, title, rows, [*self._unused(found["entries"])])

    @staticmethod
    def _unused(entries: List[Dict[str, Any]]) -> Iterator[str]:
        """Which entries are never used, by the earlier ones that admit all their frames."""
        by_earlier: Dict[int, List[str]] = {}
        for entry in entries:
            if "never_used_for" in entry:
                by_earlier.setdefault(entry["never_used_for"], []).append(str(entry["number"]))
        for earlier, unused in sorted(by_earlier.items()):
            yield "Never used, since entry %d admits all their frames: %s." % (earlier, ", ".join(unused))

    def read(self, most: int) -> Configuration:
        """The configuration, with the tables of so many ports at most."""
        drawer = _Drawer(_entities(mib(self.trace)))
        graph = drawer.draw()
        picture, why = picture_of(graph)
        ports = sorted({*drawer.ports, *self.ports})
        findings = [self._finding(each) for each in lint(self.trace)]
        refused = [each for each in findings if each.kind in _REFUSALS]
        others = [each for each in findings if each.kind not in _REFUSALS]
        return Configuration(graph, picture, why, [self.table(port) for port in ports[:most]], len(ports[most:]), refused, others)
